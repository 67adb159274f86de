//! A store in plain Rust: an index, and two files as docs/FORMATS.md, 'Files with gates', has them.
use crate::rows;
use fold_blocks::feed::Chain;
use fold_blocks::Hash;
use index::Whole;
use std::collections::VecDeque;
use std::fs::File;
use std::io;
use std::os::unix::fs::FileExt;
use std::path::Path;

const MOST_RECORDS: usize = 64;
const HEAD: usize = 26;

/// An index, the rows of what its kept blocks changed, the newest first, and two files.
pub struct Store {
    files: [File; 2],
    /// Which of them is current, and whether the other one is open.
    current: usize,
    is_other_open: bool,
    generation: u64,
    records: usize,
    /// The place of the last gate.
    gate: u64,
    pub whole: Whole,
    depth: usize,
    changes: VecDeque<Vec<u8>>,
}

fn put(file: &File, bytes: &[u8], at: u64) -> io::Result<()> {
    file.write_all_at(bytes, at)?;
    file.sync_data()
}

impl Store {
    /// A regtest store of two new files in a folder, of whose blocks so many can be taken back.
    pub fn make(folder: &Path, depth: u16) -> io::Result<Store> {
        let files = [File::create_new(folder.join("a.ox"))?, File::create_new(folder.join("b.ox"))?];
        put(&files[1], &[0], 0)?;
        files[0].write_all_at(&[0], 0)?;
        let mut store = Store {
            files,
            current: 0,
            is_other_open: false,
            generation: 1,
            records: 0,
            gate: 0,
            whole: Whole::new(depth.into()),
            depth: depth.into(),
            changes: VecDeque::new(),
        };
        store.fill()?;
        Ok(store)
    }

    /// The index and what is kept, with a closed gate behind them.
    fn body_and_gate(&self) -> Vec<u8> {
        let mut body = rows::index(&self.whole);
        body.extend_from_slice(&(self.changes.len() as u32).to_le_bytes());
        self.changes.iter().for_each(|change| body.extend_from_slice(change));
        body.push(0);
        body
    }

    /// Writes the current file behind its closed gate, and opens that once it is on the disk.
    fn fill(&mut self) -> io::Result<()> {
        let (file, body) = (&self.files[self.current], self.body_and_gate());
        let size = body.len() - 1;
        let numbers = [self.generation.to_le_bytes(), (size as u64).to_le_bytes()].concat();
        let front = [&b"oxidx\x02\x01"[..], &(self.depth as u16).to_le_bytes(), &numbers].concat();
        file.write_all_at(&front, 1)?;
        put(file, &body, HEAD as u64)?;
        put(file, &[1], 0)?;
        (self.records, self.gate) = (0, (HEAD + size) as u64);
        Ok(())
    }

    /// Puts the other file in the place of the current one.
    fn turn(&mut self) -> io::Result<()> {
        self.current = 1 - self.current;
        if self.is_other_open {
            put(&self.files[self.current], &[0], 0)?;
        }
        self.generation += 1;
        self.is_other_open = true;
        self.fill()
    }

    /// Writes a record behind the last gate, and opens that gate once the record is on the disk.
    fn append(&mut self, payload: &[u8]) -> io::Result<()> {
        let record = [&(payload.len() as u32).to_le_bytes()[..], payload, &[0]].concat();
        put(&self.files[self.current], &record, self.gate + 1)?;
        put(&self.files[self.current], &[1], self.gate)?;
        self.gate += record.len() as u64;
        self.records += 1;
        Ok(())
    }

    fn write(&mut self, payload: &[u8]) -> io::Result<()> {
        match self.records < MOST_RECORDS {
            true => self.append(payload),
            false => self.turn(),
        }
    }
}

impl Chain for Store {
    fn connect(&mut self, block: &[u8]) -> Option<()> {
        self.whole.connect(block)?;
        let change = rows::newest_change(&self.whole)?;
        let payload = [&[1], &change[..]].concat();
        self.changes.truncate(self.depth - 1);
        self.changes.push_front(change);
        self.write(&payload).ok()
    }

    fn disconnect(&mut self) -> Option<()> {
        self.whole.disconnect()?;
        self.changes.pop_front();
        self.write(&[0]).ok()
    }

    fn hashes(&self) -> &[Hash] {
        &self.whole.index.hashes
    }
}
