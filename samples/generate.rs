//! Writes the samples, the same bytes each time: samples/month, a month of a circuit in intervals of a minute; examples/outage, two days with an
//! outage across midnight; and document 01's example for the program, which crates/evaluate/stdout is the output of. Run it at the repository's root:
//!     rustc --edition 2024 -O -o target/generate samples/generate.rs && target/generate

use std::fs;

/// xorshift64*, seeded.
struct Random(u64);

impl Random {
    fn next(&mut self) -> u64 {
        self.0 ^= self.0 >> 12;
        self.0 ^= self.0 << 25;
        self.0 ^= self.0 >> 27;
        self.0.wrapping_mul(0x2545_f491_4f6c_dd1d)
    }

    /// A number from `low` to `high`.
    fn within(&mut self, low: u32, high: u32) -> u32 {
        low + (self.next() >> 33) as u32 % (high - low + 1)
    }
}

/// A settings record: n, p and weights as the shape, then the words from C on.
fn settings(length: u32, shape: [u8; 3], words: [u32; 13]) -> Vec<u8> {
    let mut bytes = length.to_le_bytes().to_vec();
    bytes.extend(shape);
    bytes.push(0);
    bytes.extend(words.iter().flat_map(|word| word.to_le_bytes()));
    bytes.extend([0; 4]);
    bytes
}

/// Settings as an operator sets them: n 10, p 3, all weights, C and U one half, late above 20 ms, jumpy above 5 ms. Then least availability and composite,
/// most loss, mean delay, high loss intervals and runs; percentile, its delay and its range.
fn operator(availability: u32, composite: u32) -> Vec<u8> {
    let label = [500_000, 500_000, 20_000_000, 5_000_000];
    let objectives = [availability, composite, 2_000, 12_000_000, 60, 20];
    let delays = [999_000, 25_000_000, 20_000_000];
    let words: Vec<u32> = [&label[..], &objectives, &delays].concat();
    settings(60_000, [10, 3, 7], words.try_into().unwrap())
}

/// What a stretch of intervals is like.
#[derive(Clone, Copy, PartialEq)]
enum Kind {
    Calm,
    /// most frames are lost
    Down,
    /// more than half of them are lost, but the composite indicator stays below one half
    Dip,
    /// nothing much is lost, but most is late and jumpy
    Slow,
    /// nothing is sent
    Silent,
}

#[derive(Clone, Copy)]
struct Plan {
    kind: Kind,
    maintenance: bool,
}

/// An interval record; `delays` are their sum, the least and the most.
fn written(numbers: [u32; 6], delays: (u64, u32, u32), maintenance: bool) -> Vec<u8> {
    let mut bytes: Vec<u8> = numbers.iter().flat_map(|x| x.to_le_bytes()).collect();
    bytes.extend(delays.0.to_le_bytes());
    bytes.extend(delays.1.to_le_bytes());
    bytes.extend(delays.2.to_le_bytes());
    bytes.extend([u8::from(maintenance), 0, 0, 0, 0, 0, 0, 0]);
    bytes
}

/// One interval of 600 frames.
fn record(number: u32, plan: Plan, random: &mut Random) -> Vec<u8> {
    let sent = if plan.kind == Kind::Silent { 0 } else { 600 };
    let lost = match plan.kind {
        Kind::Calm | Kind::Slow => random.within(0, 40) / 40,
        Kind::Down => random.within(480, 600),
        Kind::Dip => random.within(310, 340),
        Kind::Silent => 0,
    };
    let delivered = sent - lost;
    // each lost frame takes up to two pairs with it
    let pairs = (delivered.max(1) - 1).saturating_sub(lost.min(delivered / 4));
    let (late, jumpy) = match plan.kind {
        Kind::Slow => (
            delivered - random.within(0, 40),
            pairs - random.within(0, 150),
        ),
        Kind::Calm => (random.within(0, 60) / 60, random.within(0, 3)),
        _ => (delivered / 20, pairs / 20),
    };
    // the delay swings by the hour of the day, and is three times as long in a slow stretch
    let hour = number / 60 % 24;
    let slow = if plan.kind == Kind::Slow { 3 } else { 1 };
    let mean = slow * (7_500_000 + 120_000 * (12 - hour.abs_diff(12)) + random.within(0, 400_000));
    let delays = if delivered == 0 {
        (0, 0, 0)
    } else {
        let least = mean - mean / 4 - random.within(0, 200_000);
        let most = mean + mean / 3 + random.within(0, 2_000_000);
        (u64::from(mean) * u64::from(delivered), least, most)
    };
    written(
        [number, sent, lost, late, pairs, jumpy],
        delays,
        plan.maintenance,
    )
}

fn mark(plans: &mut [Plan], from: usize, count: usize, kind: Kind) {
    for plan in plans.iter_mut().skip(from).take(count) {
        plan.kind = kind;
    }
}

fn records(plans: &[Plan], random: &mut Random) -> Vec<u8> {
    (0..)
        .zip(plans)
        .flat_map(|(number, plan)| record(number, *plan, random))
        .collect()
}

const CALM: Plan = Plan {
    kind: Kind::Calm,
    maintenance: false,
};

/// Thirty days: outages, short dips, slow hours, silence, four nights of maintenance, and a dip that is still open at the end.
fn month(random: &mut Random) -> Vec<u8> {
    let mut plans = vec![CALM; 43_200];
    for _ in 0..28 {
        let at = random.within(0, 42_900) as usize;
        mark(&mut plans, at, random.within(1, 7) as usize, Kind::Dip);
    }
    for _ in 0..4 {
        let at = random.within(0, 42_000) as usize;
        mark(&mut plans, at, random.within(12, 90) as usize, Kind::Down);
    }
    for _ in 0..3 {
        let at = random.within(0, 42_000) as usize;
        mark(&mut plans, at, random.within(20, 180) as usize, Kind::Slow);
    }
    mark(&mut plans, 20_160, 15, Kind::Silent);
    // two hours on four nights; the circuit goes down in the second, and before it
    for week in 0..4 {
        let night = week * 7 * 1_440 + 120;
        for plan in &mut plans[night..night + 120] {
            plan.maintenance = true;
        }
    }
    mark(&mut plans, 7 * 1_440 + 110, 40, Kind::Down);
    mark(&mut plans, 43_194, 6, Kind::Dip);
    records(&plans, random)
}

/// Two days of 1,440 intervals. The outage takes the last seven of the first day and the first six of the second.
fn outage(random: &mut Random) -> Vec<u8> {
    let mut plans = vec![CALM; 2_880];
    mark(&mut plans, 400, 2, Kind::Dip);
    mark(&mut plans, 1_433, 13, Kind::Down);
    mark(&mut plans, 2_200, 4, Kind::Dip);
    records(&plans, random)
}

/// The same intervals, numbered from 0.
fn renumbered(intervals: &[u8]) -> Vec<u8> {
    let each = (0_u32..).zip(intervals.chunks(48));
    each.flat_map(|(number, record)| [&number.to_le_bytes(), &record[4..]].concat())
        .collect()
}

/// HHHLLL of document 01, with n 3, p 2, the loss weight alone and the objectives of its example.
fn example() -> (Vec<u8>, Vec<u8>) {
    let words = [
        500_000, 500_000, 0, 0, 500_000, 500_001, 0, 1_000, 0, 0, 1, 0, 0,
    ];
    let interval = |number: u32| match number {
        0..3 => written([number, 10, 10, 0, 0, 0], (0, 0, 0), false),
        _ => written([number, 10, 0, 0, 0, 0], (10_000, 1_000, 1_000), false),
    };
    (
        settings(1_000, [3, 2, 1], words),
        (0..6).flat_map(interval).collect(),
    )
}

fn main() -> std::io::Result<()> {
    let put = |directory: &str, name: &str, bytes: &[u8]| {
        fs::create_dir_all(directory)?;
        fs::write(format!("{directory}/{name}"), bytes)
    };
    put("samples/month", "settings.rec", &operator(998_500, 996_000))?;
    put(
        "samples/month",
        "intervals.rec",
        &month(&mut Random(20_260_101)),
    )?;
    let days = outage(&mut Random(4));
    let (first, second) = days.split_at(1_440 * 48);
    put(
        "examples/outage",
        "settings.rec",
        &operator(999_000, 999_000),
    )?;
    put("examples/outage", "part1.rec", first)?;
    put("examples/outage", "part2.rec", second)?;
    put("examples/outage", "part2-alone.rec", &renumbered(second))?;
    let (settings, intervals) = example();
    put("crates/evaluate/data", "settings.rec", &settings)?;
    put("crates/evaluate/data", "intervals.rec", &intervals)
}
