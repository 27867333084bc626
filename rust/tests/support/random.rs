//! Random numbers from a seed (SplitMix64), so that a test that fails can be run again.
#![allow(dead_code)]

pub struct Random(pub u64);

impl Random {
    /// Any 64 bits.
    pub fn next(&mut self) -> u64 {
        self.0 = self.0.wrapping_add(0x9e37_79b9_7f4a_7c15);
        let a = (self.0 ^ (self.0 >> 30)).wrapping_mul(0xbf58_476d_1ce4_e5b9);
        let b = (a ^ (a >> 27)).wrapping_mul(0x94d0_49bb_1331_11eb);
        b ^ (b >> 31)
    }

    /// A number below `n`, which is not 0.
    pub fn below(&mut self, n: usize) -> usize {
        (self.next() % n as u64) as usize
    }

    /// Yes once in `n` times.
    pub fn once_in(&mut self, n: usize) -> bool {
        self.below(n) == 0
    }

    /// Yes or no.
    pub fn either(&mut self) -> bool {
        self.once_in(2)
    }

    /// One of them.
    pub fn one_of<T: Copy>(&mut self, all: &[T]) -> T {
        all[self.below(all.len())]
    }

    /// A number of 32 bits: small, at an edge, or any.
    pub fn number(&mut self) -> u32 {
        match self.below(4) {
            0 => self.below(6) as u32,
            1 => self.below(100) as u32,
            2 => self.one_of(&[0, 1, 65_535, 65_536, 65_537, 0x7fff_ffff, 0x8000_0000, u32::MAX - 1, u32::MAX]),
            _ => self.next() as u32,
        }
    }

    /// A count: small, at an edge, or any.
    pub fn count(&mut self) -> usize {
        match self.below(4) {
            0 => self.below(70),
            1 => self.one_of(&[63, 64, 65, 65_535, 65_536, 65_537, usize::MAX / 2, usize::MAX - 1, usize::MAX]),
            2 => self.below(70_000),
            _ => self.next() as usize,
        }
    }

    /// The length of a buffer: mostly short, at times about the most that a sound state allows, or over it.
    pub fn length(&mut self) -> usize {
        match self.below(16) {
            0 => 0,
            1 | 2 => self.below(300),
            3 => self.one_of(&[65_535, 65_536, 65_536, 65_537, 70_000]),
            _ => self.below(70),
        }
    }

    /// So many bytes.
    pub fn bytes(&mut self, length: usize) -> Vec<u8> {
        let mut all = Vec::with_capacity(length + 8);
        while all.len() < length {
            all.extend_from_slice(&self.next().to_le_bytes());
        }
        all.truncate(length);
        all
    }
}
