//! Random inputs, with edges among them.

/// Steele, Lea and Flood's SplitMix64.
pub struct Random(u64);

impl Random {
    /// The inputs of one case of a part of the tests.
    pub fn of_case(seed: u64, part: u64, case: u64) -> Random {
        let mut random = Random(seed ^ part.wrapping_mul(0x9e37_79b9) ^ case.rotate_left(32));
        random.next();
        random
    }

    pub fn next(&mut self) -> u64 {
        self.0 = self.0.wrapping_add(0x9e37_79b9_7f4a_7c15);
        let z = (self.0 ^ (self.0 >> 30)).wrapping_mul(0xbf58_476d_1ce4_e5b9);
        let z = (z ^ (z >> 27)).wrapping_mul(0x94d0_49bb_1331_11eb);
        z ^ (z >> 31)
    }

    /// A number below `end`.
    pub fn below(&mut self, end: u64) -> u64 {
        self.next() % end
    }

    /// A number from `low` to `high`.
    pub fn between(&mut self, low: u64, high: u64) -> u64 {
        low + self.below(high - low + 1)
    }

    /// True once in so many times.
    pub fn once_in(&mut self, times: u64) -> bool {
        self.below(times) == 0
    }

    pub fn pick<A: Copy>(&mut self, of: &[A]) -> A {
        of[self.below(of.len() as u64) as usize]
    }

    pub fn bytes(&mut self, len: usize) -> Vec<u8> {
        let mut bytes = Vec::with_capacity(len + 8);
        while bytes.len() < len {
            bytes.extend(self.next().to_le_bytes());
        }
        bytes.truncate(len);
        bytes
    }

    pub fn array<const N: usize>(&mut self) -> [u8; N] {
        self.bytes(N).try_into().unwrap()
    }

    pub fn words(&mut self, len: usize) -> Vec<u64> {
        (0..len).map(|_| self.next()).collect()
    }

    /// A number with few or many bits.
    pub fn wide(&mut self) -> u64 {
        let bits = self.below(64);
        self.next() >> bits
    }

    /// A depth, memory level or count that is refused now and then: one that is wanted, or an edge.
    pub fn or_edge(&mut self, wanted: u64, highest: u64) -> u64 {
        if !self.once_in(8) {
            return wanted;
        }
        let edges = [0, 1, highest - 1, highest, highest + 1, 63, 64, 128, 1 << 32, (1 << 32) + wanted, u64::MAX];
        self.pick(&edges)
    }

    /// An edition: 1 or 2, or one that does not exist now and then.
    pub fn edition(&mut self) -> u64 {
        let wanted = self.between(1, 2);
        self.or_edge(wanted, 2)
    }

    /// A length near one that is wanted.
    pub fn near(&mut self, wanted: usize) -> usize {
        match self.below(12) {
            0 => 0,
            1 => wanted.saturating_sub(1),
            2 => self.below(wanted as u64 + 1) as usize,
            3 => wanted + 1,
            4 | 5 => wanted + self.below(100) as usize,
            _ => wanted,
        }
    }

    /// One byte changed.
    pub fn damage(&mut self, bytes: &mut [u8]) {
        if !bytes.is_empty() {
            let at = self.below(bytes.len() as u64) as usize;
            let bit = self.below(8);
            bytes[at] ^= 1 << bit;
        }
    }
}
