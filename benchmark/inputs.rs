//! What is measured: the same in each run.

/// Numbers that look random (xorshift).
pub struct Random(pub u64);

impl Random {
    pub fn below(&mut self, n: u64) -> u32 {
        self.0 ^= self.0 << 13;
        self.0 ^= self.0 >> 7;
        self.0 ^= self.0 << 17;
        (self.0 % n) as u32
    }

    pub fn one_in(&mut self, n: u64) -> bool {
        self.below(n) == 0
    }
}

pub fn put(s: &mut [u8], at: usize, x: u32) {
    s[at..at + 4].copy_from_slice(&x.to_le_bytes());
}

/// Valid settings: intervals of 1,000 ms, n = 10, p = 3, all weights, C and U one half, DL 4 ms, Jt 2 ms; all objectives 0.
pub fn settings(pr: u32) -> Vec<u8> {
    let mut s = vec![0u8; 64];
    put(&mut s, 0, 1_000);
    s[4..7].copy_from_slice(&[10, 3, 7]);
    put(&mut s, 8, 500_000);
    put(&mut s, 12, 500_000);
    put(&mut s, 16, 4_000_000);
    put(&mut s, 20, 2_000_000);
    put(&mut s, 48, pr);
    s
}

/// An interval of `sent` frames of which so many are lost and late.
fn interval(
    r: &mut Random,
    number: u32,
    sent: u32,
    lost: u32,
    late: u32,
    maintenance: bool,
) -> [u8; 48] {
    let mut v = [0u8; 48];
    let got = sent - lost;
    let pairs = got.saturating_sub(1 + r.below(2));
    let (mut least, mut most) = (0, 0);
    if got > 0 {
        least = 1_000_000 + r.below(100_000);
        most = least + r.below(5_000_000);
    }
    let sum = least as u64 * got as u64 + r.below(1 + (most - least) as u64 * got as u64) as u64;
    for (k, x) in [
        number,
        sent,
        lost,
        late,
        pairs,
        r.below(1 + pairs as u64 / 2),
    ]
    .into_iter()
    .enumerate()
    {
        put(&mut v, 4 * k, x);
    }
    v[24..32].copy_from_slice(&sum.to_le_bytes());
    put(&mut v, 32, least);
    put(&mut v, 36, most);
    v[40] = maintenance as u8;
    v
}

/// Intervals of a second, some frames lost now and then; every hour a second in which all are lost, every day an outage of a minute and an hour
/// of maintenance.
pub fn calm(count: u32) -> Vec<u8> {
    let mut r = Random(88_172_645_463_325_252);
    let of = |k: u32| {
        let out = k % 3_600 == 1_800 || k % 86_400 < 60;
        let lost = if out { 10 } else { r.one_in(50) as u32 };
        interval(
            &mut r,
            k,
            10,
            lost,
            0,
            (7_200..10_800).contains(&(k % 86_400)),
        )
    };
    (0..count).flat_map(of).collect()
}

/// Each mark high or not as a coin falls, one interval in 16 in maintenance.
pub fn random(count: u32) -> Vec<u8> {
    let mut r = Random(0x9e37_79b9_7f4a_7c15);
    let of = |k: u32| {
        let lost = if r.one_in(2) {
            6 + r.below(5)
        } else {
            r.below(5)
        };
        let late = r.below(1 + 10 - lost as u64);
        let maintenance = r.one_in(16);
        interval(&mut r, k, 10, lost, late, maintenance)
    };
    (0..count).flat_map(of).collect()
}

/// The two sequences that every row of intervals is measured on.
pub fn months(count: u32) -> [(&'static str, Vec<u8>); 2] {
    [("calm month", calm(count)), ("random marks", random(count))]
}

/// The length of a buffer and an offset for an output of `size`, now and then one byte too few.
pub fn room(r: &mut Random, size: usize) -> (usize, usize) {
    let at = r.below(8) as usize;
    let length = at + size + r.below(4) as usize;
    if r.one_in(20) {
        return (at + size.saturating_sub(1), at);
    }
    (length, at)
}

/// A few damages, often none: bytes turned or cut off.
pub fn damage(r: &mut Random, s: &mut Vec<u8>) {
    for _ in 0..r.below(3) {
        if !s.is_empty() {
            let at = r.below(s.len() as u64) as usize;
            s[at] = if r.one_in(2) {
                r.below(256) as u8
            } else {
                s[at] ^ (1 << r.below(8))
            };
        }
    }
    if r.one_in(10) {
        s.truncate(r.below(1 + s.len() as u64) as usize);
    }
}
