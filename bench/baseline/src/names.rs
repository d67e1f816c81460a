//! Names and texts, each kept once and known by a number, so that a step compares numbers and no bytes.

pub type NameId = u32;

/// The bytes of all names in one buffer, found through an open hash table of at most half its size.
pub struct Names {
    bytes: Vec<u8>,
    places: Vec<(u32, u32)>,
    hashes: Vec<u32>,
    // The number of a name and 1, and 0 where there is none.
    table: Vec<u32>,
}

fn hash(name: &[u8]) -> u32 {
    const FACTOR: u64 = 0x9E37_79B9_7F4A_7C15;
    let mut hash = name.len() as u64;
    let mut words = name.chunks_exact(8);
    for word in &mut words {
        let word = u64::from_le_bytes(word.try_into().unwrap());
        hash = (hash.rotate_left(5) ^ word).wrapping_mul(FACTOR);
    }
    let rest = words.remainder().iter().rev().fold(0, |rest, byte| rest << 8 | u64::from(*byte));
    ((hash.rotate_left(5) ^ rest).wrapping_mul(FACTOR) >> 32) as u32
}

impl Names {
    pub fn new() -> Names {
        Names { bytes: Vec::new(), places: Vec::new(), hashes: Vec::new(), table: vec![0; 1024] }
    }

    pub fn len(&self) -> usize {
        self.places.len()
    }

    pub fn get(&self, name: NameId) -> &[u8] {
        let (start, len) = self.places[name as usize];
        &self.bytes[start as usize..(start + len) as usize]
    }

    /// The number of these bytes, a new one where they are met for the first time.
    pub fn intern(&mut self, name: &[u8]) -> NameId {
        let hash = hash(name);
        let mask = self.table.len() - 1;
        let mut slot = hash as usize & mask;
        while self.table[slot] != 0 {
            let known = self.table[slot] - 1;
            if self.hashes[known as usize] == hash && self.get(known) == name {
                return known;
            }
            slot = (slot + 1) & mask;
        }
        let fresh = self.places.len() as u32;
        self.places.push((self.bytes.len() as u32, name.len() as u32));
        self.bytes.extend_from_slice(name);
        self.hashes.push(hash);
        self.table[slot] = fresh + 1;
        if self.places.len() * 2 > self.table.len() {
            self.grow();
        }
        fresh
    }

    fn grow(&mut self) {
        let len = self.table.len() * 2;
        self.table = vec![0; len];
        for (name, hash) in self.hashes.iter().enumerate() {
            let mut slot = *hash as usize & (len - 1);
            while self.table[slot] != 0 {
                slot = (slot + 1) & (len - 1);
            }
            self.table[slot] = name as u32 + 1;
        }
    }
}
