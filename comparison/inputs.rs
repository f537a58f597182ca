//! Settings, frames and intervals, valid and damaged.
#![allow(dead_code)]
use crate::random::Random;
use second::labels::{high_composite, high_loss};
use second::records::*;

pub fn put(s: &mut [u8], at: usize, value: u64) {
    s[at..at + 4].copy_from_slice(&(value as u32).to_le_bytes());
}

/// The u32 fields of the settings: offset, least, most.
pub const SETTINGS_FIELDS: [(usize, u64, u64); 14] = [
    (0, 100, 60_000),
    (8, 1, 999_999),
    (12, 1, 999_999),
    (16, 0, LARGEST_DELAY),
    (20, 0, LARGEST_DELAY),
    (24, 0, MILLION),
    (28, 0, MILLION),
    (32, 0, MILLION),
    (36, 0, LARGEST_DELAY),
    (40, 0, u32::MAX as u64),
    (44, 0, u32::MAX as u64),
    (48, 1, MILLION),
    (52, 0, LARGEST_DELAY),
    (56, 0, LARGEST_DELAY),
];

pub fn valid_settings(r: &mut Random) -> Vec<u8> {
    let mut s = vec![0; 64];
    for (at, least, most) in SETTINGS_FIELDS {
        put(&mut s, at, r.edgy(least, most));
    }
    for at in [8, 12] {
        if !r.one_in(4) {
            let part = r.pick(&[
                100_000, 250_000, 333_333, 374_999, 375_000, 500_000, 666_666, 900_000,
            ]);
            put(&mut s, at, part);
        }
    }
    for at in [16, 20] {
        if !r.one_in(4) {
            put(&mut s, at, r.below(2_000));
        }
    }
    for at in [40, 44] {
        if !r.one_in(4) {
            put(&mut s, at, r.below(4));
        }
    }
    let n = if r.one_in(4) {
        r.from_to(1, 64)
    } else {
        r.from_to(1, 6)
    };
    let p = if n < 3 || r.one_in(4) {
        0
    } else {
        r.edgy(2, n - 1)
    };
    s[4] = n as u8;
    s[5] = p as u8;
    s[6] = r.from_to(1, 7) as u8;
    if p == 0 {
        put(&mut s, 44, 0);
    }
    assert!(
        read_settings(&s).is_some(),
        "settings that should be valid: {s:?}"
    );
    s
}

/// Each way to damage settings: every field past each limit, every spare byte, and other lengths.
pub fn settings_damages() -> Vec<fn(&mut Random, &mut Vec<u8>)> {
    vec![
        |r, s| {
            let (at, least, most) = r.pick(&SETTINGS_FIELDS);
            let below = least.wrapping_sub(1 + r.below(least.max(1)));
            let above = most + 1 + r.below((u32::MAX as u64 - most).max(1));
            put(s, at, if r.one_in(2) { below } else { above });
        },
        |r, s| {
            let (at, least, most) = r.pick(&SETTINGS_FIELDS);
            put(
                s,
                at,
                if r.one_in(2) {
                    least.wrapping_sub(1)
                } else {
                    most + 1
                },
            );
        },
        |r, s| s[4] = r.pick(&[0, 65, 128, 255]),
        |r, s| s[5] = r.pick(&[1, s[4].wrapping_sub(1), s[4], s[4].wrapping_add(1), 255]),
        |r, s| s[6] = r.pick(&[0, 8, 9, 128, 255]),
        |r, s| s[7] = 1 + r.below(255) as u8,
        |r, s| s[60 + r.index(4)] = 1 + r.below(255) as u8,
        |r, s| {
            s[5] = 0;
            put(s, 44, 1 + r.below(u32::MAX as u64));
        },
        |r, s| s.truncate(r.index(64)),
        |r, s| {
            let more = 1 + r.index(70);
            s.extend(r.bytes(more));
        },
        |_, s| s.truncate(63),
        |_, s| s.push(0),
        |r, s| {
            let at = r.index(64);
            s[at] = r.next() as u8;
        },
    ]
}

/// Settings for a case: mostly valid, else damaged in one way.
pub fn settings(r: &mut Random, damaged_one_in: u64) -> Vec<u8> {
    let mut s = valid_settings(r);
    if r.one_in(damaged_one_in) {
        let damage = r.pick(&settings_damages());
        damage(r, &mut s);
    }
    s
}

pub fn frame_bytes(time: u64, delay: u64, lost: bool) -> Vec<u8> {
    let mut bytes = time.to_le_bytes().to_vec();
    bytes.extend_from_slice(&(delay as u32).to_le_bytes());
    bytes.push(lost as u8);
    bytes.extend_from_slice(&[0; 3]);
    bytes
}

/// Valid frames of an interval, in strictly increasing time.
pub fn valid_frames(r: &mut Random, s: &LabelSettings, number: u64, count: usize) -> Vec<u8> {
    let length = s.length * 1_000_000;
    let from = number.wrapping_mul(length);
    let step = length / (count as u64 + 1);
    let narrow = r.one_in(3);
    let lossy = r.pick(&[1, 2, 4, 20, 1_000_000]);
    let mut bytes = Vec::new();
    for k in 0..count as u64 {
        let last = k + 1 == count as u64;
        let time = match r.below(8) {
            0 if k == 0 => 0,
            1 if last => length - 1,
            _ if narrow => k,
            _ => k * step + r.below(step),
        };
        let lost = lossy != 1_000_000 && r.one_in(lossy);
        let delay = match r.below(6) {
            0 => s.dl,
            1 => s.dl + 1,
            2 => r.edgy(0, LARGEST_DELAY),
            3 => s.jt,
            4 => s.jt + 1,
            _ => r.below(3_000),
        };
        let delay = delay.min(LARGEST_DELAY);
        bytes.extend(frame_bytes(
            from.wrapping_add(time),
            if lost { 0 } else { delay },
            lost,
        ));
    }
    bytes
}

/// Which record of `size` bytes to damage; or none, and the length is damaged.
fn record_to_damage(r: &mut Random, bytes: &mut Vec<u8>, size: usize) -> Option<usize> {
    let count = bytes.len() / size;
    if count == 0 || r.one_in(12) {
        let cut = r.index(bytes.len() + 1);
        bytes.truncate(cut);
        let more = r.index(2 * size);
        bytes.extend(r.bytes(more));
        return None;
    }
    Some(if r.one_in(4) {
        count - 1
    } else {
        r.index(count)
    })
}

/// Damages one frame of several, or their order or number.
pub fn damage_frames(r: &mut Random, s: &LabelSettings, number: u64, bytes: &mut Vec<u8>) {
    let length = s.length * 1_000_000;
    let Some(k) = record_to_damage(r, bytes, 16) else {
        return;
    };
    let frame = 16 * k;
    let set_time = |bytes: &mut Vec<u8>, time: u64| {
        bytes[frame..frame + 8].copy_from_slice(&time.to_le_bytes())
    };
    let from = number.wrapping_mul(length);
    match r.below(12) {
        0 => put(bytes, frame + 8, LARGEST_DELAY + 1 + r.below(3)),
        1 => put(bytes, frame + 8, r.any()),
        2 => bytes[frame + 12] = r.next() as u8,
        3 => bytes[frame + 13 + r.index(3)] = 1 + r.below(255) as u8,
        4 => bytes[frame + 12] = 1,
        5 => set_time(bytes, from.wrapping_sub(1 + r.below(2))),
        6 => set_time(bytes, from.wrapping_add(length - 1 + r.below(3))),
        7 => set_time(bytes, r.any()),
        8 if k > 0 => bytes.copy_within(frame - 16..frame - 8, frame),
        9 if k > 0 => (0..16).for_each(|i| bytes.swap(frame - 16 + i, frame + i)),
        10 => set_time(bytes, from),
        _ => bytes[frame + r.index(16)] ^= 1 << r.below(8),
    }
}

/// A valid interval, with number 0.
pub fn valid_interval(r: &mut Random, s: &LabelSettings) -> Interval {
    let sent = if r.one_in(3) {
        r.edgy(0, FRAMES)
    } else {
        r.below(12)
    };
    let limit = s.c * sent / MILLION;
    let lost = match r.below(5) {
        0 => 0,
        1 => sent,
        2 => limit,
        3 => limit + 1,
        _ => r.below(sent + 1),
    };
    let lost = lost.min(sent);
    let delivered = sent - lost;
    let late = r.edgy(0, delivered);
    let pairs = r.edgy(0, delivered.saturating_sub(1));
    let jumpy = r.edgy(0, pairs);
    let (mut least, mut most, mut sum) = (0, 0, 0);
    if delivered > 0 {
        let top = if r.one_in(3) { LARGEST_DELAY } else { 5_000 };
        least = r.edgy(0, top);
        most = r.edgy(least, top);
        sum = r.edgy(least * delivered, most * delivered);
    }
    let i = Interval {
        number: 0,
        sent,
        lost,
        late,
        pairs,
        jumpy,
        sum,
        least,
        most,
        maintenance: false,
    };
    assert!(
        read_interval(&i.write()).is_some(),
        "an interval that should be valid: {i:?}"
    );
    i
}

/// Marks in runs, with many lengths next to n.
fn run_marks(r: &mut Random, n: u64, count: usize) -> Vec<bool> {
    let style = r.below(5);
    let mut marks = Vec::new();
    let mut mark = r.one_in(2);
    while marks.len() < count {
        let length = match style {
            0 => 1,
            1 => r.from_to(1, n + 1),
            2 => n,
            3 => r.pick(&[1, n.saturating_sub(1).max(1), n, n + 1, 2 * n]),
            _ => r.from_to(1, 3 * n + 3),
        };
        for _ in 0..length {
            marks.push(if style == 0 { r.one_in(2) } else { mark });
        }
        mark = !mark;
    }
    marks.truncate(count);
    marks
}

/// Valid intervals numbered from `first`, with marks that come in runs on both tracks.
pub fn valid_intervals(
    r: &mut Random,
    s: &LabelSettings,
    first: u64,
    count: usize,
) -> Vec<Interval> {
    let pool: Vec<Interval> = (0..48).map(|_| valid_interval(r, s)).collect();
    let of_marks = |loss: bool, composite: bool| -> Vec<Interval> {
        let fits = |i: &&Interval| high_loss(s, i) == loss && high_composite(s, i) == composite;
        let found: Vec<Interval> = pool.iter().filter(fits).copied().collect();
        let half = |i: &&Interval| high_loss(s, i) == loss;
        let near: Vec<Interval> = pool.iter().filter(half).copied().collect();
        if !found.is_empty() {
            found
        } else if !near.is_empty() {
            near
        } else {
            pool.clone()
        }
    };
    let classes = [
        of_marks(false, false),
        of_marks(false, true),
        of_marks(true, false),
        of_marks(true, true),
    ];
    let loss = run_marks(r, s.n, count);
    let composite = if r.one_in(4) {
        loss.clone()
    } else {
        run_marks(r, s.n, count)
    };
    let maintenance = match r.below(4) {
        0 => vec![false; count],
        1 => run_marks(r, s.p.max(1), count),
        2 => (0..count).map(|_| r.one_in(6)).collect(),
        _ => (0..count).map(|_| r.one_in(2)).collect(),
    };
    (0..count)
        .map(|k| {
            let class = &classes[2 * loss[k] as usize + composite[k] as usize];
            let mut i = class[r.index(class.len())];
            i.number = first + k as u64;
            i.maintenance = maintenance[k];
            i
        })
        .collect()
}

/// How many intervals a case has: all that can be numbered in cases 10 and 11, else few and now and then many.
pub fn interval_count(r: &mut Random, index: u64) -> usize {
    match index {
        10 | 11 => INTERVALS as usize,
        12 => 200_000,
        _ if r.one_in(4_000) => r.index(300_000),
        _ if r.one_in(100) => r.index(5_000),
        _ => some_count(r, 400),
    }
}

/// One interval more than can be numbered.
pub fn beyond_the_last(r: &mut Random, label: &LabelSettings) -> Vec<u8> {
    Interval {
        number: INTERVALS,
        ..valid_interval(r, label)
    }
    .write()
}

pub fn written(intervals: &[Interval]) -> Vec<u8> {
    intervals.iter().flat_map(|i| i.write()).collect()
}

/// Damages one interval record of several, or their order or number. `Some` fields are set just past their rules.
pub fn damage_intervals(r: &mut Random, bytes: &mut Vec<u8>) {
    let Some(k) = record_to_damage(r, bytes, 48) else {
        return;
    };
    if k > 0 && r.one_in(8) {
        (0..48).for_each(|i| bytes.swap(48 * k - 48 + i, 48 * k + i));
    } else {
        damage_interval(r, &mut bytes[48 * k..48 * k + 48]);
    }
}

/// Damages one interval record: each field at the edge of each rule, or any byte.
pub fn damage_interval(r: &mut Random, record: &mut [u8]) {
    let word = |record: &[u8], at: usize| {
        u32::from_le_bytes(record[at..at + 4].try_into().unwrap()) as u64
    };
    let sum = u64::from_le_bytes(record[24..32].try_into().unwrap());
    let (sent, lost) = (word(record, 4), word(record, 8));
    let delivered = sent.wrapping_sub(lost);
    let (least, most) = (word(record, 32), word(record, 36));
    match r.below(16) {
        0 => put(
            record,
            0,
            r.pick(&[0, INTERVALS - 1, INTERVALS, INTERVALS + 1, u32::MAX as u64]),
        ),
        1 => put(
            record,
            0,
            word(record, 0).wrapping_add(r.pick(&[1, u64::MAX, 2])),
        ),
        2 => put(
            record,
            4,
            r.pick(&[
                FRAMES,
                FRAMES + 1,
                u32::MAX as u64,
                sent.wrapping_sub(1),
                lost.wrapping_sub(1),
            ]),
        ),
        3 => put(
            record,
            8,
            r.pick(&[sent, sent + 1, u32::MAX as u64, lost + 1]),
        ),
        4 => put(
            record,
            12,
            r.pick(&[delivered, delivered.wrapping_add(1), u32::MAX as u64]),
        ),
        5 => put(
            record,
            16,
            r.pick(&[delivered.wrapping_sub(1), delivered, u32::MAX as u64]),
        ),
        6 => put(
            record,
            20,
            r.pick(&[word(record, 16), word(record, 16) + 1, u32::MAX as u64]),
        ),
        7 => {
            let low = least.wrapping_mul(delivered);
            let high = most.wrapping_mul(delivered);
            let any = r.any();
            let value = r.pick(&[
                low,
                low.wrapping_sub(1),
                high,
                high.wrapping_add(1),
                u64::MAX,
                any,
                sum ^ 1 << 63,
            ]);
            record[24..32].copy_from_slice(&value.to_le_bytes());
        }
        8 => put(
            record,
            32,
            r.pick(&[most, most + 1, least + 1, u32::MAX as u64]),
        ),
        9 => put(
            record,
            36,
            r.pick(&[
                least.wrapping_sub(1),
                least,
                LARGEST_DELAY,
                LARGEST_DELAY + 1,
                u32::MAX as u64,
            ]),
        ),
        10 => record[40] = r.pick(&[2, 3, 128, 255]),
        11 | 12 => record[41 + r.index(7)] = 1 << r.below(8),
        13 => {
            // nothing delivered, but delays
            put(record, 8, sent);
            (12..24).for_each(|i| record[i] = 0);
        }
        14 => record[r.index(48)] ^= 1 << r.below(8),
        _ => {
            let at = r.index(48);
            record[at] = r.next() as u8;
        }
    }
}

/// A number of records, mostly small.
pub fn some_count(r: &mut Random, most: u64) -> usize {
    let size = match r.below(10) {
        0 => 0,
        1..=5 => r.below(12),
        6..=8 => r.below(100),
        _ => r.below(most + 1),
    };
    size.min(most) as usize
}

/// Bytes as text, cut where they are many.
pub fn hex(bytes: &[u8]) -> String {
    let shown: String = bytes
        .iter()
        .take(6_144)
        .map(|b| format!("{b:02x}"))
        .collect();
    let more = if bytes.len() > 6_144 { ".." } else { "" };
    format!("{} bytes {shown}{more}", bytes.len())
}

/// The cases whose number stands for one large input: nothing in them is damaged otherwise.
pub fn large(index: u64) -> bool {
    (10..16).contains(&index)
}

/// How many faults to put into a case: mostly none or one, at times several.
pub fn faults(r: &mut Random, index: u64) -> u64 {
    if large(index) {
        0
    } else {
        r.pick(&[0, 0, 0, 1, 1, 2, 4])
    }
}

/// A number of words for an output of `size` words, at times too small.
pub fn words_of_room(r: &mut Random, size: usize) -> usize {
    match r.below(20) {
        0 => 0,
        1 => size - 1,
        2 => size + 1,
        3 => size + 5,
        _ => size,
    }
}
