//! The records of fixed size, settings, frames and intervals: read from bytes, or None where a rule of theirs is broken.

pub const INTERVALS: u64 = 3_000_000;
pub const FRAMES: u64 = 1_024;
pub const LARGEST_DELAY: u64 = 4_000_000_000;
pub const MILLION: u64 = 1_000_000;

fn byte(s: &[u8], at: usize) -> u64 {
    s[at] as u64
}

/// The little-endian number in `size` bytes from `at` on.
fn number(s: &[u8], at: usize, size: usize) -> u64 {
    let mut value = 0;
    for k in (0..size).rev() {
        value = value * 256 + byte(s, at + k);
    }
    value
}

fn word(s: &[u8], at: usize) -> u64 {
    number(s, at, 4)
}

fn all_zero(s: &[u8]) -> bool {
    s.iter().all(|&b| b == 0)
}

#[derive(Clone, Copy, Debug, PartialEq, Eq)]
pub struct LabelSettings {
    pub length: u64,
    pub n: u64,
    pub p: u64,
    pub weights: u64,
    pub c: u64,
    pub u: u64,
    pub dl: u64,
    pub jt: u64,
}

impl LabelSettings {
    pub fn meets_rules(&self) -> bool {
        (100..=60_000).contains(&self.length)
            && (1..=64).contains(&self.n)
            && (self.p == 0 || (2 <= self.p && self.p < self.n))
            && (1..=7).contains(&self.weights)
            && (1..=999_999).contains(&self.c)
            && (1..=999_999).contains(&self.u)
            && self.dl <= LARGEST_DELAY
            && self.jt <= LARGEST_DELAY
    }

    /// 1 where lost frames count for the composite indicator, else 0.
    pub fn loss_weight(&self) -> u64 {
        self.weights % 2
    }

    /// 1 where late frames count for the composite indicator, else 0.
    pub fn delay_weight(&self) -> u64 {
        self.weights / 2 % 2
    }

    /// 1 where jumpy pairs count for the composite indicator, else 0.
    pub fn variation_weight(&self) -> u64 {
        self.weights / 4 % 2
    }
}

#[derive(Clone, Copy, Debug, PartialEq, Eq)]
pub struct Settings {
    pub label: LabelSettings,
    pub least_availability: u64,
    pub least_composite: u64,
    pub most_loss: u64,
    pub most_mean: u64,
    pub most_high: u64,
    pub most_runs: u64,
    pub percentile: u64,
    pub most_delay: u64,
    pub most_range: u64,
}

pub fn read_settings(s: &[u8]) -> Option<Settings> {
    if s.len() != 64 {
        return None;
    }
    let label = LabelSettings {
        length: word(s, 0),
        n: byte(s, 4),
        p: byte(s, 5),
        weights: byte(s, 6),
        c: word(s, 8),
        u: word(s, 12),
        dl: word(s, 16),
        jt: word(s, 20),
    };
    let settings = Settings {
        label,
        least_availability: word(s, 24),
        least_composite: word(s, 28),
        most_loss: word(s, 32),
        most_mean: word(s, 36),
        most_high: word(s, 40),
        most_runs: word(s, 44),
        percentile: word(s, 48),
        most_delay: word(s, 52),
        most_range: word(s, 56),
    };
    let good = label.meets_rules()
        && s[7] == 0
        && settings.least_availability <= MILLION
        && settings.least_composite <= MILLION
        && settings.most_loss <= MILLION
        && settings.most_mean <= LARGEST_DELAY
        && (label.p != 0 || settings.most_runs == 0)
        && (1..=MILLION).contains(&settings.percentile)
        && settings.most_delay <= LARGEST_DELAY
        && settings.most_range <= LARGEST_DELAY
        && all_zero(&s[60..64]);
    if good {
        Some(settings)
    } else {
        None
    }
}

#[derive(Clone, Copy, Debug, PartialEq, Eq)]
pub struct Frame {
    pub time: u64,
    pub delay: u64,
    pub lost: bool,
}

pub fn read_frame(s: &[u8]) -> Option<Frame> {
    if s.len() != 16 {
        return None;
    }
    let time = number(s, 0, 8);
    let delay = word(s, 8);
    let state = byte(s, 12);
    if delay > LARGEST_DELAY || state > 1 || !all_zero(&s[13..16]) || (state == 1 && delay != 0) {
        return None;
    }
    Some(Frame { time, delay, lost: state == 1 })
}

#[derive(Clone, Copy, Debug, PartialEq, Eq)]
pub struct Interval {
    pub number: u64,
    pub sent: u64,
    pub lost: u64,
    pub late: u64,
    pub pairs: u64,
    pub jumpy: u64,
    pub sum: u64,
    pub least: u64,
    pub most: u64,
    pub maintenance: bool,
}

impl Interval {
    pub fn delivered(&self) -> u64 {
        self.sent - self.lost
    }

    pub fn write(&self) -> Vec<u8> {
        let mut bytes = Vec::new();
        for value in [self.number, self.sent, self.lost, self.late, self.pairs, self.jumpy] {
            bytes.extend((value as u32).to_le_bytes());
        }
        bytes.extend(self.sum.to_le_bytes());
        bytes.extend((self.least as u32).to_le_bytes());
        bytes.extend((self.most as u32).to_le_bytes());
        bytes.push(self.maintenance as u8);
        bytes.extend([0; 7]);
        bytes
    }
}

pub fn read_interval(s: &[u8]) -> Option<Interval> {
    if s.len() != 48 {
        return None;
    }
    let maintenance = byte(s, 40);
    if maintenance > 1 || !all_zero(&s[41..48]) {
        return None;
    }
    let i = Interval {
        number: word(s, 0),
        sent: word(s, 4),
        lost: word(s, 8),
        late: word(s, 12),
        pairs: word(s, 16),
        jumpy: word(s, 20),
        sum: number(s, 24, 8),
        least: word(s, 32),
        most: word(s, 36),
        maintenance: maintenance == 1,
    };
    if i.number >= INTERVALS || i.sent > FRAMES || i.lost > i.sent {
        return None;
    }
    let delivered = i.delivered();
    let most_pairs = if delivered == 0 { 0 } else { delivered - 1 };
    if i.late > delivered || i.pairs > most_pairs || i.jumpy > i.pairs {
        return None;
    }
    let delays = if delivered == 0 {
        i.sum == 0 && i.least == 0 && i.most == 0
    } else {
        i.least <= i.most
            && i.most <= LARGEST_DELAY
            && i.least as u128 * delivered as u128 <= i.sum as u128
            && i.sum as u128 <= i.most as u128 * delivered as u128
    };
    if delays {
        Some(i)
    } else {
        None
    }
}
