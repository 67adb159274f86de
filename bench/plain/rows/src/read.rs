//! Rows are read from the left. A fault is how many bytes are left where the field begins that doesn't fit.
use crate::rows::{Balances, Change, Hash, Index, Inscription, OutPoint, Output, Rune, RuneId, Runs, Script, Terms, Text};

const MOST_SATS: u64 = 2_100_000_000_000_000;

pub struct Fault(pub usize);

type Taken<T> = Result<T, Fault>;

pub struct Reader<'a>(pub &'a [u8]);

impl<'a> Reader<'a> {
    fn fault<T>(&self) -> Taken<T> {
        Err(Fault(self.0.len()))
    }

    fn bytes(&mut self, size: usize) -> Taken<&'a [u8]> {
        if self.0.len() < size {
            return self.fault();
        }
        let (front, rest) = self.0.split_at(size);
        self.0 = rest;
        Ok(front)
    }

    fn array<const N: usize>(&mut self) -> Taken<[u8; N]> {
        Ok(self.bytes(N)?.try_into().unwrap())
    }

    fn u16(&mut self) -> Taken<u16> {
        Ok(u16::from_le_bytes(self.array()?))
    }

    fn u32(&mut self) -> Taken<u32> {
        Ok(u32::from_le_bytes(self.array()?))
    }

    fn u64(&mut self) -> Taken<u64> {
        Ok(u64::from_le_bytes(self.array()?))
    }

    fn u128(&mut self) -> Taken<u128> {
        Ok(u128::from_le_bytes(self.array()?))
    }

    fn text(&mut self) -> Taken<&'a [u8]> {
        let size = self.u32()?;
        self.bytes(size as usize)
    }

    fn option<T>(&mut self, value: impl FnOnce(&mut Self) -> Taken<T>) -> Taken<Option<T>> {
        match self.0 {
            [0, rest @ ..] => {
                self.0 = rest;
                Ok(None)
            }
            [1, rest @ ..] => {
                self.0 = rest;
                Ok(Some(value(self)?))
            }
            _ => self.fault(),
        }
    }

    /// So many values; no room is made for more than the bytes can have, each of which takes so many.
    fn times<T>(&mut self, count: u32, least: usize, mut value: impl FnMut(&mut Self) -> Taken<T>) -> Taken<Vec<T>> {
        let mut values = Vec::with_capacity((count as usize).min(self.0.len() / least));
        for _ in 0..count {
            values.push(value(self)?);
        }
        Ok(values)
    }

    fn list<T>(&mut self, least: usize, value: impl FnMut(&mut Self) -> Taken<T>) -> Taken<Vec<T>> {
        let count = self.u32()?;
        self.times(count, least, value)
    }

    fn rising<K: Ord + Copy, V>(
        &mut self,
        count: u32,
        least: usize,
        mut key: impl FnMut(&mut Self) -> Taken<K>,
        mut value: impl FnMut(&mut Self) -> Taken<V>,
    ) -> Taken<Vec<(K, V)>> {
        let mut last = None;
        self.times(count, least, |reader| {
            let left = reader.0.len();
            let here = key(reader)?;
            if last.map_or(false, |last| here <= last) {
                return Err(Fault(left));
            }
            last = Some(here);
            Ok((here, value(reader)?))
        })
    }

    fn outpoint(&mut self) -> Taken<OutPoint> {
        Ok(OutPoint { txid: self.array()?, index: self.u32()? })
    }

    fn rune_id(&mut self) -> Taken<RuneId> {
        Ok((self.u64()?, self.u32()?))
    }

    fn sats(&mut self) -> Taken<Runs> {
        let count = self.u32()?;
        let (mut spare, mut end) = (MOST_SATS, None);
        let mut run = |reader: &mut Self| {
            let left = reader.0.len();
            let first = reader.u64()?;
            if end == Some(first) {
                return Err(Fault(left));
            }
            let left = reader.0.len();
            let many = reader.u64()?;
            if many == 0 || first > MOST_SATS || many > MOST_SATS - first || many > spare {
                return Err(Fault(left));
            }
            spare -= many;
            end = Some(first + many);
            Ok((first, many))
        };
        if count == 1 {
            return Ok(Runs::One(run(self)?));
        }
        Ok(Runs::Many(self.times(count, 16, run)?))
    }

    fn output(&mut self) -> Taken<Output> {
        Ok(Output { script: Script::new(self.text()?), height: self.u32()?, sats: self.sats()? })
    }

    fn outputs(&mut self) -> Taken<Vec<(OutPoint, Output)>> {
        let count = self.u32()?;
        self.rising(count, 48, Self::outpoint, Self::output)
    }

    fn held(&mut self) -> Taken<Balances> {
        let left = self.0.len();
        let count = self.u32()?;
        if count == 0 {
            return Err(Fault(left));
        }
        self.rising(count, 28, Self::rune_id, |reader| {
            let left = reader.0.len();
            match reader.u128()? {
                0 => Err(Fault(left)),
                amount => Ok(amount),
            }
        })
    }

    fn balances(&mut self) -> Taken<Vec<(OutPoint, Balances)>> {
        let count = self.u32()?;
        self.rising(count, 68, Self::outpoint, Self::held)
    }

    fn owned(&mut self) -> Taken<Text> {
        self.option(|reader| Ok(reader.text()?.into()))
    }

    fn inscription(&mut self) -> Taken<Inscription> {
        Ok(Inscription {
            id: self.outpoint()?,
            height: self.u32()?,
            texts: [self.owned()?, self.owned()?, self.owned()?, self.owned()?, self.owned()?],
            delegate: self.option(Self::outpoint)?,
            pointer: self.owned()?,
            parents: self.list(36, Self::outpoint)?,
            marks: self.u16()?,
            sat: self.option(Self::u64)?,
        })
    }

    fn terms(&mut self) -> Taken<Terms> {
        Ok(Terms {
            amount: self.option(Self::u128)?,
            cap: self.option(Self::u128)?,
            bounds: [self.option(Self::u64)?, self.option(Self::u64)?, self.option(Self::u64)?, self.option(Self::u64)?],
        })
    }

    fn character(&mut self) -> Taken<char> {
        let left = self.0.len();
        char::from_u32(self.u32()?).ok_or(Fault(left))
    }

    fn rune(&mut self) -> Taken<Rune> {
        Ok(Rune {
            id: self.rune_id()?,
            name: self.u128()?,
            spacers: self.u32()?,
            divisibility: self.array::<1>()?[0],
            symbol: self.option(Self::character)?,
            premine: self.u128()?,
            terms: self.option(Self::terms)?,
            mints: self.u128()?,
            burned: self.u128()?,
            etching: self.array()?,
        })
    }

    fn counts(&mut self) -> Taken<Vec<(u32, [u128; 4])>> {
        let count = self.u32()?;
        self.rising(count, 68, Self::u32, |reader| {
            Ok([reader.u128()?, reader.u128()?, reader.u128()?, reader.u128()?])
        })
    }

    pub fn index(&mut self) -> Taken<Index> {
        Ok(Index {
            hashes: self.list(32, Self::array::<32>)?,
            outputs: self.outputs()?.into_iter().collect(),
            lost: self.sats()?,
            inscriptions: self.list(54, Self::inscription)?,
            balances: self.balances()?.into_iter().collect(),
            runes: self.list(99, Self::rune)?,
        })
    }

    pub fn change(&mut self) -> Taken<Change> {
        let hash: Hash = self.array()?;
        Ok(Change {
            hash,
            gone: self.outputs()?,
            came: self.outputs()?,
            lost: self.sats()?,
            inscriptions: self.list(54, Self::inscription)?,
            before: self.balances()?,
            after: self.balances()?,
            counts: self.counts()?,
            appended: self.list(99, Self::rune)?,
        })
    }
}
