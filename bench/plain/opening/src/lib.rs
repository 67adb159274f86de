//! The files of a store in plain Rust: the current one is read, the kept changes are gone back over, the oldest index is
//! tested whole, and each change by what it touches.
mod keeps;
mod step;

use keeps::keeps;
use rows::read::Reader;
use rows::rows::{Change, Index};
use rows::sound::is_sound;
use std::collections::VecDeque;
use std::io;
use std::path::Path;
use step::step;

const HEAD: usize = 26;

fn number<const N: usize>(bytes: &[u8], at: usize) -> Option<u64> {
    let mut held = [0; 8];
    held[..N].copy_from_slice(bytes.get(at..at + N)?);
    Some(u64::from_le_bytes(held))
}

/// The open file that has the greater generation.
pub fn current(folder: &Path) -> io::Result<Vec<u8>> {
    let mut found = Vec::new();
    for name in ["a.ox", "b.ox"] {
        let file = std::fs::read(folder.join(name))?;
        if file.first() == Some(&1) && number::<8>(&file, 10) > number::<8>(&found, 10) {
            found = file;
        }
    }
    Ok(found)
}

/// Goes on over a change, and answers whether it leaves a sound index.
fn goes_on(index: &mut Index, change: &Change) -> bool {
    let is_kept = keeps(index, change);
    step(index, change, false) && (is_kept || is_sound(index))
}

fn body(bytes: &[u8]) -> Option<(Index, VecDeque<Change>)> {
    let mut reader = Reader(bytes);
    let mut index = reader.index().ok()?;
    let count = number::<4>(reader.0, 0)?;
    reader.0 = &reader.0[4..];
    let changes: VecDeque<Change> = (0..count).map(|_| reader.change().ok()).collect::<Option<_>>()?;
    let is_one = reader.0.is_empty()
        && changes.iter().all(|change| step(&mut index, change, true))
        && is_sound(&index)
        && changes.iter().rev().all(|change| goes_on(&mut index, change));
    is_one.then_some((index, changes))
}

/// The index that a file stands for, and the changes of its newest blocks, the newest first.
pub fn restored(file: &[u8]) -> Option<(Index, VecDeque<Change>)> {
    let (depth, size) = (number::<2>(file, 8)? as usize, number::<8>(file, 18)? as usize);
    let mut at = HEAD + size;
    let (mut index, mut changes) = body(file.get(HEAD..at)?)?;
    while *file.get(at)? == 1 {
        let size = number::<4>(file, at + 1)? as usize;
        match file.get(at + 5..at + 5 + size)? {
            [1, rows @ ..] => {
                let change = Reader(rows).change().ok()?;
                if !goes_on(&mut index, &change) {
                    return None;
                }
                changes.push_front(change);
                changes.truncate(depth);
            }
            _ => step(&mut index, &changes.pop_front()?, true).then_some(())?,
        }
        at += 5 + size;
    }
    Some((index, changes))
}
