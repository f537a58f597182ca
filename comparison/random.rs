//! Numbers that look random and are the same in each run.

pub struct Random(u64);

impl Random {
    /// The numbers of one case of an operation.
    pub fn of_case(seed: u64, operation: &str, index: u64) -> Random {
        let mut r = Random(seed);
        for byte in operation.bytes() {
            r.0 = r.next() ^ byte as u64;
        }
        r.0 = r.next() ^ index;
        r
    }

    /// SplitMix64.
    pub fn next(&mut self) -> u64 {
        self.0 = self.0.wrapping_add(0x9e37_79b9_7f4a_7c15);
        let mut z = self.0;
        z = (z ^ (z >> 30)).wrapping_mul(0xbf58_476d_1ce4_e5b9);
        z = (z ^ (z >> 27)).wrapping_mul(0x94d0_49bb_1331_11eb);
        z ^ (z >> 31)
    }

    /// Below `n`, which is not 0.
    pub fn below(&mut self, n: u64) -> u64 {
        self.next() % n
    }

    pub fn index(&mut self, n: usize) -> usize {
        self.below(n as u64) as usize
    }

    /// From `a` to `b`, both included.
    pub fn from_to(&mut self, a: u64, b: u64) -> u64 {
        a + self.below(b - a + 1)
    }

    /// True once in `n` times.
    pub fn one_in(&mut self, n: u64) -> bool {
        self.below(n) == 0
    }

    pub fn pick<T: Clone>(&mut self, from: &[T]) -> T {
        from[self.index(from.len())].clone()
    }

    /// From `a` to `b`, often at an end or next to it.
    pub fn edgy(&mut self, a: u64, b: u64) -> u64 {
        match self.below(6) {
            0 => a,
            1 => b,
            2 => (a + 1).min(b),
            3 => b.saturating_sub(1).max(a),
            _ => self.from_to(a, b),
        }
    }

    /// A number whose size is random too.
    pub fn any(&mut self) -> u64 {
        let bits = self.below(65);
        if bits == 0 {
            0
        } else {
            self.next() >> (64 - bits)
        }
    }

    pub fn bytes(&mut self, n: usize) -> Vec<u8> {
        (0..n).map(|_| self.next() as u8).collect()
    }

    pub fn words(&mut self, n: usize) -> Vec<u64> {
        (0..n).map(|_| self.next()).collect()
    }
}
