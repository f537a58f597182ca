//! The records of docs/RECORDS.md in plain Rust: read with every rule, without a branch until the verdict.

pub const INTERVALS: u32 = 3_000_000;
pub const FRAMES: u32 = 1_024;
pub const LARGEST: u32 = 4_000_000_000;
const MILLION: u32 = 1_000_000;

/// A refusal as one word.
pub fn refused(number: u64, place: usize) -> u64 {
    (number << 32) + place as u64
}

#[inline(always)]
pub fn u32_at(s: &[u8], at: usize) -> u32 {
    u32::from_le_bytes(s[at..at + 4].try_into().unwrap())
}

#[inline(always)]
pub fn u64_at(s: &[u8], at: usize) -> u64 {
    u64::from_le_bytes(s[at..at + 8].try_into().unwrap())
}

pub fn has_room(len: usize, at: usize, size: usize) -> bool {
    size <= len && at <= len - size
}

/// What labels depend on, with each weight as a mask.
#[derive(Clone, Copy)]
pub struct Label {
    pub length: u32,
    pub n: u32,
    pub p: u32,
    pub c: u64,
    pub u: u64,
    pub dl: u32,
    pub jt: u32,
    pub loss: u32,
    pub delay: u32,
    pub variation: u32,
}

/// All ones where a weight has the bit.
fn mask(weights: u32, bit: u32) -> u32 {
    if weights & bit == 0 { 0 } else { u32::MAX }
}

impl Label {
    /// Of the fields in their order.
    #[inline(always)]
    pub fn of(
        length: u32,
        n: u32,
        p: u32,
        weights: u32,
        c: u32,
        u: u32,
        dl: u32,
        jt: u32,
    ) -> Option<Label> {
        let meets = (100..=60_000).contains(&length)
            & (1..=64).contains(&n)
            & ((p == 0) | ((2 <= p) & (p < n)))
            & (1..=7).contains(&weights)
            & (1..MILLION).contains(&c)
            & (1..MILLION).contains(&u)
            & (dl <= LARGEST)
            & (jt <= LARGEST);
        meets.then(|| Label {
            length,
            n,
            p,
            c: c as u64,
            u: u as u64,
            dl,
            jt,
            loss: mask(weights, 1),
            delay: mask(weights, 2),
            variation: mask(weights, 4),
        })
    }

    /// Of the 24 bytes in which they stand.
    #[inline(always)]
    pub fn read(s: &[u8]) -> Option<Label> {
        let field = |at| u32_at(s, at);
        let (n, p, weights) = (s[4] as u32, s[5] as u32, s[6] as u32);
        Label::of(
            field(0),
            n,
            p,
            weights,
            field(8),
            field(12),
            field(16),
            field(20),
        )
        .filter(|_| s[7] == 0)
    }
}

pub struct Settings {
    pub label: Label,
    pub percentile: u32,
    pub delay: u32,
    pub range: u32,
}

pub fn settings(s: &[u8]) -> Option<Settings> {
    if s.len() != 64 {
        return None;
    }
    let label = Label::read(s)?;
    let field = |at| u32_at(s, at);
    let meets = (field(24) <= MILLION)
        & (field(28) <= MILLION)
        & (field(32) <= MILLION)
        & (field(36) <= LARGEST)
        & ((label.p != 0) | (field(44) == 0))
        & (1..=MILLION).contains(&field(48))
        & (field(52) <= LARGEST)
        & (field(56) <= LARGEST)
        & (field(60) == 0);
    meets.then(|| Settings {
        label,
        percentile: field(48),
        delay: field(52),
        range: field(56),
    })
}

#[derive(Clone, Copy)]
pub struct Interval {
    pub number: u32,
    pub sent: u32,
    pub lost: u32,
    pub late: u32,
    pub pairs: u32,
    pub jumpy: u32,
    pub sum: u64,
    pub least: u32,
    pub most: u32,
    pub maintenance: bool,
}

/// The whole product.
#[inline(always)]
pub fn times(a: u32, b: u32) -> u64 {
    a as u64 * b as u64
}

impl Interval {
    #[inline(always)]
    pub fn delivered(&self) -> u32 {
        self.sent.wrapping_sub(self.lost)
    }

    /// With nothing delivered, sum ≤ most × 0 makes the sum 0, and least ≤ most the least.
    #[inline(always)]
    pub fn read(r: &[u8; 48]) -> Option<Interval> {
        let tail = u64_at(r, 40);
        let v = Interval {
            number: u32_at(r, 0),
            sent: u32_at(r, 4),
            lost: u32_at(r, 8),
            late: u32_at(r, 12),
            pairs: u32_at(r, 16),
            jumpy: u32_at(r, 20),
            sum: u64_at(r, 24),
            least: u32_at(r, 32),
            most: u32_at(r, 36),
            maintenance: tail == 1,
        };
        let got = v.delivered();
        let meets = (v.number < INTERVALS)
            & (v.sent <= FRAMES)
            & (v.lost <= v.sent)
            & (v.late <= got)
            & (v.jumpy <= v.pairs)
            & (v.pairs < got.max(1))
            & (v.least <= v.most)
            & (v.most <= LARGEST)
            & ((got != 0) | (v.most == 0))
            & (times(v.least, got) <= v.sum)
            & (v.sum <= times(v.most, got))
            & (tail <= 1);
        meets.then_some(v)
    }

    #[inline(always)]
    pub fn high_loss(&self, l: &Label) -> bool {
        times(self.lost, MILLION) > l.c * self.sent as u64
    }

    /// D is 1 exactly where frames were sent and nothing of them is weighed.
    #[inline(always)]
    pub fn high_composite(&self, l: &Label) -> bool {
        let failed = (self.lost & l.loss) + (self.late & l.delay) + (self.jumpy & l.variation);
        let all = (self.sent & l.loss) + (self.delivered() & l.delay) + (self.pairs & l.variation);
        (times(failed, MILLION) > l.u * all as u64) | ((all == 0) & (self.sent != 0))
    }
}

/// The records of a stretch.
pub fn intervals(s: &[u8]) -> &[[u8; 48]] {
    s.as_chunks().0
}
