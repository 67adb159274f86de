//! The same work as crates/ox_block_rows does for a block in plain Rust: read it, hash each transaction twice over, make both
//! roots.
use sha2::{Digest, Sha256};
use std::io::Read;

struct TxIn {
    txid: [u8; 32],
    index: u32,
    script: Vec<u8>,
    sequence: u32,
    witness: Vec<Vec<u8>>,
}

struct TxOut {
    value: u64,
    script: Vec<u8>,
}

struct Tx {
    version: u32,
    marked: bool,
    inputs: Vec<TxIn>,
    outputs: Vec<TxOut>,
    lock: u32,
}

struct Reader<'a>(&'a [u8]);

impl<'a> Reader<'a> {
    fn take(&mut self, n: usize) -> Option<&'a [u8]> {
        if self.0.len() < n {
            return None;
        }
        let (front, rest) = self.0.split_at(n);
        self.0 = rest;
        Some(front)
    }
    fn u32(&mut self) -> Option<u32> {
        Some(u32::from_le_bytes(self.take(4)?.try_into().ok()?))
    }
    fn u64(&mut self) -> Option<u64> {
        Some(u64::from_le_bytes(self.take(8)?.try_into().ok()?))
    }
    fn size(&mut self) -> Option<u64> {
        let (n, least) = match self.take(1)?[0] {
            253 => (u16::from_le_bytes(self.take(2)?.try_into().ok()?) as u64, 253),
            254 => (self.u32()? as u64, 1 << 16),
            255 => (self.u64()?, 1 << 32),
            b => (b as u64, 0),
        };
        (n >= least).then_some(n)
    }
    fn count(&mut self) -> Option<u64> {
        self.size().filter(|n| *n > 0)
    }
    fn string(&mut self) -> Option<Vec<u8>> {
        let n = self.size()? as usize;
        Some(self.take(n)?.to_vec())
    }
    fn tx(&mut self) -> Option<Tx> {
        let version = self.u32()?;
        let marked = self.0.first() == Some(&0);
        if marked && self.take(2)?[1] != 1 {
            return None;
        }
        let mut inputs = Vec::new();
        for _ in 0..self.count()? {
            inputs.push(TxIn {
                txid: self.take(32)?.try_into().ok()?,
                index: self.u32()?,
                script: self.string()?,
                sequence: self.u32()?,
                witness: Vec::new(),
            });
        }
        let mut outputs = Vec::new();
        let mut spare = 2_100_000_000_000_000u64;
        for _ in 0..self.count()? {
            let value = self.u64()?;
            spare = spare.checked_sub(value)?;
            outputs.push(TxOut { value, script: self.string()? });
        }
        if marked {
            for input in &mut inputs {
                for _ in 0..self.size()? {
                    input.witness.push(self.string()?);
                }
            }
            if inputs.iter().all(|i| i.witness.is_empty()) {
                return None;
            }
        }
        Some(Tx { version, marked, inputs, outputs, lock: self.u32()? })
    }
}

fn put_size(h: &mut Sha256, n: u64) {
    if n < 253 {
        h.update([n as u8]);
    } else if n < 1 << 16 {
        h.update([253]);
        h.update((n as u16).to_le_bytes());
    } else if n < 1 << 32 {
        h.update([254]);
        h.update((n as u32).to_le_bytes());
    } else {
        h.update([255]);
        h.update(n.to_le_bytes());
    }
}

fn put_string(h: &mut Sha256, bytes: &[u8]) {
    put_size(h, bytes.len() as u64);
    h.update(bytes);
}

fn id(tx: &Tx, whole: bool) -> [u8; 32] {
    let mut h = Sha256::new();
    h.update(tx.version.to_le_bytes());
    if whole {
        h.update([0, 1]);
    }
    put_size(&mut h, tx.inputs.len() as u64);
    for i in &tx.inputs {
        h.update(i.txid);
        h.update(i.index.to_le_bytes());
        put_string(&mut h, &i.script);
        h.update(i.sequence.to_le_bytes());
    }
    put_size(&mut h, tx.outputs.len() as u64);
    for o in &tx.outputs {
        h.update(o.value.to_le_bytes());
        put_string(&mut h, &o.script);
    }
    if whole {
        for i in &tx.inputs {
            put_size(&mut h, i.witness.len() as u64);
            for item in &i.witness {
                put_string(&mut h, item);
            }
        }
    }
    h.update(tx.lock.to_le_bytes());
    Sha256::digest(h.finalize()).into()
}

fn root(mut row: Vec<[u8; 32]>) -> [u8; 32] {
    while row.len() > 1 {
        row = row
            .chunks(2)
            .map(|p| {
                let mut h = Sha256::new();
                h.update(p[0]);
                h.update(p[p.len() - 1]);
                Sha256::digest(h.finalize()).into()
            })
            .collect();
    }
    row[0]
}

fn read(bytes: &[u8]) -> Option<Vec<Tx>> {
    let mut r = Reader(bytes);
    r.take(80)?;
    let mut txs = Vec::new();
    for _ in 0..r.count()? {
        txs.push(r.tx()?);
    }
    r.0.is_empty().then_some(txs)
}

fn main() {
    let times: u32 = std::env::args().nth(1).and_then(|a| a.parse().ok()).unwrap_or(1);
    let mut bytes = Vec::new();
    std::io::stdin().read_to_end(&mut bytes).unwrap();
    let mut last = [0; 32];
    for _ in 0..times {
        let txs = read(&bytes).expect("a block");
        let txids = txs.iter().map(|t| id(t, false)).collect();
        let mut wtxids: Vec<_> = txs.iter().map(|t| id(t, t.marked)).collect();
        wtxids[0] = [0; 32];
        let (a, b) = (root(txids), root(wtxids));
        for i in 0..32 {
            last[i] = a[i] ^ b[i];
        }
    }
    println!("{}", last.iter().map(|b| format!("{b:02x}")).collect::<String>());
}
