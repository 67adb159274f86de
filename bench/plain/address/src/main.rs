//! The same work as the rows `repeat` of crates/ox_block_rows in plain Rust: segwit addresses written, and read again.
use std::io::BufRead;

const LETTERS: &[u8; 32] = b"qpzry9x8gf2tvdw0s3jn54khce6mua7l";

const SYMBOLS: [u8; 128] = {
    let mut symbols = [32; 128];
    let mut at = 0;
    while at < 32 {
        symbols[LETTERS[at] as usize] = at as u8;
        symbols[LETTERS[at].to_ascii_uppercase() as usize] = at as u8;
        at += 1;
    }
    symbols
};

const GENERATORS: [u32; 32] = {
    let each = [0x3b6a57b2, 0x26508e6d, 0x1ea119fa, 0x3d4233dd, 0x2a1462b3];
    let mut joined = [0; 32];
    let mut top = 0;
    while top < 32 {
        let mut bit = 0;
        while bit < 5 {
            if top >> bit & 1 == 1 {
                joined[top] ^= each[bit];
            }
            bit += 1;
        }
        top += 1;
    }
    joined
};

fn step(sum: u32, value: u8) -> u32 {
    (sum & 0x1ffffff) << 5 ^ value as u32 ^ GENERATORS[(sum >> 25) as usize]
}

fn polynomial(hrp: &[u8]) -> u32 {
    let sum = hrp.iter().fold(1, |sum, c| step(sum, c >> 5));
    hrp.iter().fold(step(sum, 0), |sum, c| step(sum, c & 31))
}

fn wanted(version: u8) -> u32 {
    if version == 0 { 1 } else { 0x2bc830a3 }
}

fn is_program(opcode: u8, size: usize) -> bool {
    match opcode {
        0 => size == 20 || size == 32,
        0x51..=0x60 => (2..=40).contains(&size),
        _ => false,
    }
}

pub fn write(hrp: &[u8], script: &[u8], into: &mut [u8; 90]) -> Option<usize> {
    let [opcode, size, program @ ..] = script else {
        return None;
    };
    if *size as usize != program.len() || !is_program(*opcode, program.len()) {
        return None;
    }
    let version = opcode.saturating_sub(0x50);
    into[..hrp.len()].copy_from_slice(hrp);
    into[hrp.len()] = b'1';
    let mut len = hrp.len() + 1;
    let mut sum = polynomial(hrp);
    let mut put = |symbol: u8| {
        into[len] = LETTERS[symbol as usize];
        len += 1;
        sum = step(sum, symbol);
    };
    put(version);
    let (mut value, mut count) = (0u32, 0);
    for byte in program {
        value = value << 8 | *byte as u32;
        count += 8;
        while count >= 5 {
            count -= 5;
            put((value >> count) as u8 & 31);
        }
        value &= (1 << count) - 1;
    }
    if count > 0 {
        put((value << (5 - count)) as u8 & 31);
    }
    for _ in 0..6 {
        sum = step(sum, 0);
    }
    sum ^= wanted(version);
    for at in 0..6 {
        into[len] = LETTERS[(sum >> (25 - 5 * at)) as usize & 31];
        len += 1;
    }
    Some(len)
}

pub fn read(hrp: &[u8], text: &[u8], into: &mut [u8; 42]) -> Option<usize> {
    if text.len() > 90 || text.len() < hrp.len() + 8 {
        return None;
    }
    let (mut small, mut large) = (false, false);
    let (prefix, rest) = text.split_at(hrp.len());
    for (byte, wanted) in prefix.iter().zip(hrp) {
        small |= byte.is_ascii_lowercase();
        large |= byte.is_ascii_uppercase();
        if byte.to_ascii_lowercase() != *wanted {
            return None;
        }
    }
    if rest[0] != b'1' {
        return None;
    }
    let mut sum = polynomial(hrp);
    let mut script = *into;
    let mut symbol_of = |byte: u8| -> Option<u8> {
        small |= byte.is_ascii_lowercase();
        large |= byte.is_ascii_uppercase();
        let symbol = *SYMBOLS.get(byte as usize)?;
        if symbol == 32 || small && large {
            return None;
        }
        sum = step(sum, symbol);
        Some(symbol)
    };
    let version = symbol_of(rest[1])?;
    let (data, check) = rest[2..].split_at_checked(rest.len() - 8)?;
    let opcode = if version == 0 { 0 } else { version + 0x50 };
    let size = data.len() * 5 / 8;
    if !is_program(opcode, size) {
        return None;
    }
    script[0] = opcode;
    script[1] = size as u8;
    let (mut value, mut count, mut len) = (0u32, 0, 2);
    for byte in data {
        value = value << 5 | symbol_of(*byte)? as u32;
        count += 5;
        if count >= 8 {
            count -= 8;
            script[len] = (value >> count) as u8;
            len += 1;
            value &= (1 << count) - 1;
        }
    }
    for byte in check {
        symbol_of(*byte)?;
    }
    if sum != wanted(version) || value != 0 || count >= 5 {
        return None;
    }
    *into = script;
    Some(len)
}

fn once(hrp: &[u8], script: &[u8], is_read: bool) -> u8 {
    let mut text = [0; 90];
    let Some(len) = write(hrp, script, &mut text) else {
        return 0;
    };
    if !is_read {
        return text[len - 1];
    }
    let mut room = [0; 42];
    read(hrp, &text[..len], &mut room).map_or(0, |size| room[size - 1])
}

fn main() {
    for row in std::io::stdin().lock().lines() {
        let row = row.unwrap();
        let words: Vec<&str> = row.split(' ').collect();
        let ["repeat", work, hrp, word, times] = words[..] else {
            panic!("no row");
        };
        let digits = (0..word.len()).step_by(2);
        let mut script: Vec<u8> = digits.map(|at| u8::from_str_radix(&word[at..at + 2], 16).unwrap()).collect();
        let mut sum = 0u32;
        for turn in 0..times.parse::<u32>().unwrap() {
            *script.last_mut().unwrap() = (turn % 256) as u8;
            sum = sum.wrapping_add(once(hrp.as_bytes(), &script, work == "both") as u32);
        }
        println!("{sum}");
    }
}
