//! A journal, as docs/journal-format.md says.

use std::fs::File;
use std::io::{self, Read};
use std::ops::Range;
use std::os::unix::fs::FileExt;

const MAGICS: [&[u8]; 2] = [b"UCONJR01", b"UCONJR02"];
const MAGIC_BYTES: usize = 8;
/// Of a gate and a length.
const HEAD_BYTES: usize = 5;
const PAYLOAD_BYTES: usize = 16_777_215;
/// A file of fewer bytes is one whose making was stopped.
const LEAST_BYTES: usize = MAGIC_BYTES + 2;

pub struct Journal {
    file: File,
    /// All that was in the file as it was opened.
    pub old: Vec<u8>,
    /// Where the payloads of the records that count stand in `old`.
    pub payloads: Vec<Range<usize>>,
    /// The number and the gate of a record that counts and is too long.
    pub too_long: Option<(usize, usize)>,
    gate: usize,
    buffer: Vec<u8>,
}

pub fn gate_of(payload: &Range<usize>) -> usize {
    payload.start - HEAD_BYTES
}

impl Journal {
    /// Opens a file and reads it, without a change to it. None where it is no journal.
    pub fn open(path: &str) -> io::Result<Option<Journal>> {
        let mut file = File::options().read(true).write(true).create(true).truncate(false).open(path)?;
        file.sync_data()?;
        let mut old = Vec::new();
        file.read_to_end(&mut old)?;
        if old.len() >= LEAST_BYTES && !MAGICS.contains(&&old[..MAGIC_BYTES]) {
            return Ok(None);
        }
        let mut journal =
            Journal { file, old, payloads: Vec::new(), too_long: None, gate: MAGIC_BYTES, buffer: Vec::new() };
        journal.find_payloads();
        Ok(Some(journal))
    }

    fn find_payloads(&mut self) {
        if self.old.len() < LEAST_BYTES {
            return;
        }
        while let [1, a, b, c, d, rest @ ..] = &self.old[self.gate..] {
            let len = u32::from_be_bytes([*a, *b, *c, *d]) as usize;
            if len >= rest.len() {
                break;
            }
            if len > PAYLOAD_BYTES {
                self.too_long = Some((self.payloads.len(), self.gate));
                break;
            }
            let start = self.gate + HEAD_BYTES;
            self.payloads.push(start..start + len);
            self.gate = start + len;
        }
    }

    /// Makes the file anew where its making was stopped, and closes its last gate.
    pub fn mend(&mut self) -> io::Result<()> {
        if self.old.len() < LEAST_BYTES {
            self.file.set_len(0)?;
            self.write([MAGICS[1], &[0]].concat().as_slice(), 0)?;
        }
        self.file.set_len(self.gate as u64 + 1)?;
        self.file.sync_data()?;
        self.write(&[0], self.gate)
    }

    fn write(&self, bytes: &[u8], at: usize) -> io::Result<()> {
        self.file.write_all_at(bytes, at as u64)?;
        self.file.sync_data()
    }

    /// Adds a payload made of parts: the record behind a closed gate, and then the gate.
    pub fn append(&mut self, parts: &[&[u8]]) -> io::Result<()> {
        let len: usize = parts.iter().map(|part| part.len()).sum();
        self.buffer.clear();
        self.buffer.extend_from_slice(&(len as u32).to_be_bytes());
        parts.iter().for_each(|part| self.buffer.extend_from_slice(part));
        self.buffer.push(0);
        self.write(&self.buffer, self.gate + 1)?;
        self.write(&[1], self.gate)?;
        self.gate += HEAD_BYTES + len;
        Ok(())
    }
}
