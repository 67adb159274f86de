//! How a satoshi is written.
use fold_blocks::SUBSIDY;
use std::fmt;

const SUPPLY: u64 = 2_099_999_997_690_000;
/// As many letters as a name has at most.
const LETTERS: usize = 11;

/// A satoshi below the first halving: the height that mints it, and its place there.
#[derive(Clone, Copy)]
pub struct Sat {
    pub number: u64,
    height: u64,
    offset: u64,
}

pub struct Decimal(pub Sat);
pub struct Degree(pub Sat);
pub struct Name(pub Sat);

impl Sat {
    pub fn new(number: u64) -> Option<Sat> {
        let (height, offset) = (number / SUBSIDY, number % SUBSIDY);
        (height < 210_000).then_some(Sat { number, height, offset })
    }

    /// What is left of its height by cycle, halving and period.
    fn hands(self) -> (u64, u64, u64) {
        (self.height / 1_260_000, self.height % 210_000, self.height % 2_016)
    }

    pub fn rarity(self) -> &'static str {
        let (cycle, epoch, period) = self.hands();
        match (cycle, epoch, period, self.offset) {
            (_, _, _, 1..) => "common",
            (0, 0, 0, 0) => "mythic",
            (_, 0, 0, 0) => "legendary",
            (_, 0, _, 0) => "epic",
            (_, _, 0, 0) => "rare",
            _ => "uncommon",
        }
    }
}

impl fmt::Display for Decimal {
    fn fmt(&self, f: &mut fmt::Formatter) -> fmt::Result {
        write!(f, "{}.{}", self.0.height, self.0.offset)
    }
}

impl fmt::Display for Degree {
    fn fmt(&self, f: &mut fmt::Formatter) -> fmt::Result {
        let (cycle, epoch, period) = self.0.hands();
        write!(f, "{cycle}°{epoch}′{period}″{}‴", self.0.offset)
    }
}

impl fmt::Display for Name {
    fn fmt(&self, f: &mut fmt::Formatter) -> fmt::Result {
        let (mut letters, mut first) = ([0; LETTERS], LETTERS);
        let mut left = SUPPLY - self.0.number;
        while left > 0 {
            first -= 1;
            letters[first] = b'a' + ((left - 1) % 26) as u8;
            left = (left - 1) / 26;
        }
        f.write_str(std::str::from_utf8(&letters[first..]).map_err(|_| fmt::Error)?)
    }
}
