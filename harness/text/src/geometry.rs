//! Geometry: the six numbers that are handed to every call, and the paper's rules for them.

#[derive(Clone, Copy, PartialEq, Eq, Debug, Hash)]
pub struct Geometry {
    /// 0 Bit, 1 Word(1), 4 Word(4)
    pub granularity: u8,
    /// bytes of a size or an offset
    pub s: u8,
    /// bytes of a block number
    pub c: u8,
    /// the mark: 1 where a unit that is programmed is not programmed again, 0 where it may be
    pub strict: u32,
    /// bytes of a block
    pub size: u32,
    /// number of blocks
    pub count: u32,
}

impl Geometry {
    /// Whether every rule holds (else 6).
    pub fn good(self) -> bool {
        [0, 1, 4].contains(&self.granularity)
            && (1..=3).contains(&self.s)
            && (1..=3).contains(&self.c)
            && (64..=65_536).contains(&self.size)
            && self.size % 4 == 0
            && self.count >= 1
            && self.size as u64 * self.count as u64 <= 16_777_216
            && self.size as u64 <= 1 << (8 * self.s)
            && self.count as u64 <= 1 << (8 * self.c)
            && (self.strict == 0 || self.marked())
    }

    /// Whether it has the mark, which goes with the words only.
    pub fn marked(self) -> bool {
        self.strict == 1 && self.granularity != 0
    }

    /// As the C interface takes it.
    pub fn numbers(self) -> [u32; 6] {
        [self.granularity as u32, self.s as u32, self.c as u32, self.strict, self.size, self.count]
    }

    /// The length that an image must have.
    pub fn room(self) -> usize {
        self.size as usize * self.count as usize
    }
}
