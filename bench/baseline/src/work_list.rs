//! A set of session numbers that gives its least one.

/// Bits in words, below three rows in which a bit tells that a word of the row below is not 0. The highest row is one word.
#[derive(Default)]
pub struct WorkList {
    rows: [Vec<u64>; 3],
    top: u64,
    // No word of the lowest row before this one has a bit.
    lowest: usize,
}

impl WorkList {
    /// For numbers up to 2^20.
    const WORDS: [usize; 3] = [(1 << 14) + 1, (1 << 8) + 1, (1 << 2) + 1];

    pub fn new() -> WorkList {
        WorkList { rows: WorkList::WORDS.map(|words| vec![0; words]), top: 0, lowest: 0 }
    }

    #[inline(always)]
    pub fn put(&mut self, number: u32) {
        let word = (number >> 6) as usize;
        if self.rows[0][word] == 0 {
            self.rows[1][word >> 6] |= 1 << (word & 63);
            self.rows[2][word >> 12] |= 1 << (word >> 6 & 63);
            self.top |= 1 << (word >> 12);
        }
        self.rows[0][word] |= 1 << (number & 63);
        self.lowest = self.lowest.min(word);
    }

    #[inline(always)]
    pub fn has(&self, number: u32) -> bool {
        self.rows[0][(number >> 6) as usize] >> (number & 63) & 1 != 0
    }

    #[inline(always)]
    pub fn least(&mut self) -> Option<u32> {
        if self.rows[0][self.lowest] == 0 {
            if self.top == 0 {
                return None;
            }
            let third = self.top.trailing_zeros();
            let second = third << 6 | self.rows[2][third as usize].trailing_zeros();
            let first = second << 6 | self.rows[1][second as usize].trailing_zeros();
            self.lowest = first as usize;
        }
        Some((self.lowest as u32) << 6 | self.rows[0][self.lowest].trailing_zeros())
    }

    #[inline(always)]
    pub fn take(&mut self, number: u32) {
        let word = (number >> 6) as usize;
        self.rows[0][word] &= !(1 << (number & 63));
        if self.rows[0][word] != 0 {
            return;
        }
        self.rows[1][word >> 6] &= !(1 << (word & 63));
        if self.rows[1][word >> 6] != 0 {
            return;
        }
        self.rows[2][word >> 12] &= !(1 << (word >> 6 & 63));
        if self.rows[2][word >> 12] == 0 {
            self.top &= !(1 << (word >> 12));
        }
    }
}
