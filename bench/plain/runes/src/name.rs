//! How names of runes and amounts are written.
use std::fmt;

/// As many letters as a name has at most.
const LETTERS: usize = 28;

/// A name with its spacers.
#[derive(Clone, Copy)]
pub struct Name {
    pub number: u128,
    pub spacers: u32,
}

impl fmt::Display for Name {
    fn fmt(&self, f: &mut fmt::Formatter) -> fmt::Result {
        let (mut letters, mut first) = ([0; LETTERS], LETTERS);
        let mut left = Some(self.number);
        while let Some(number) = left {
            first -= 1;
            letters[first] = b'A' + (number % 26) as u8;
            left = (number / 26).checked_sub(1);
        }
        let (mut text, mut length) = ([0; 4 * LETTERS], 0);
        for (place, letter) in letters[first..].iter().enumerate() {
            text[length] = *letter;
            length += 1;
            if self.spacers >> place & 1 == 1 && first + place + 1 < LETTERS {
                text[length..length + 3].copy_from_slice("\u{2022}".as_bytes());
                length += 3;
            }
        }
        f.write_str(std::str::from_utf8(&text[..length]).unwrap())
    }
}

/// The name that a text spells, if any, without its spacers: those stand singly between two letters.
pub fn read(text: &str) -> Option<u128> {
    let (mut number, mut after_letter) = (None, false);
    let mut rest = text;
    while let Some(letter) = rest.chars().next() {
        rest = &rest[letter.len_utf8()..];
        match letter {
            'A'..='Z' => {
                let before = number.map_or(Some(0), |number: u128| number.checked_add(1)?.checked_mul(26))?;
                number = Some(before.checked_add(u128::from(letter as u32 - 'A' as u32))?);
                after_letter = true;
            }
            '.' | '\u{2022}' if after_letter => after_letter = false,
            _ => return None,
        }
    }
    number.filter(|_| after_letter)
}

/// An amount with so many decimals, without zeros at their end.
pub struct Amount {
    pub amount: u128,
    pub divisibility: u8,
}

impl fmt::Display for Amount {
    fn fmt(&self, f: &mut fmt::Formatter) -> fmt::Result {
        let one = 10u128.pow(u32::from(self.divisibility));
        let (whole, mut part, mut width) = (self.amount / one, self.amount % one, usize::from(self.divisibility));
        if part == 0 {
            return write!(f, "{whole}");
        }
        while part % 10 == 0 {
            part /= 10;
            width -= 1;
        }
        write!(f, "{whole}.{part:0width$}")
    }
}
