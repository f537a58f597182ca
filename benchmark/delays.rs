//! `mip_delays`: percentile delay and range of a list.
use crate::inputs::{self, Random};
use crate::records::{self, LARGEST, refused};
use crate::{Row, library};

const N: usize = 1_000_000;

/// Every check, then `nth` gives the delay at an index of the sorted list, and the least.
fn plain(s: &[u8], list: &[u32], answers: &mut [u64], nth: fn(&[u32], usize) -> (u32, u32)) -> u64 {
    let Some(settings) = records::settings(s) else {
        return refused(1, 0);
    };
    if answers.len() < 4 {
        return refused(3, 0);
    }
    if list.len() > N {
        return refused(4, 0);
    }
    if list.iter().fold(0, |most, d| most.max(*d)) > LARGEST {
        return refused(5, list.iter().position(|d| *d > LARGEST).unwrap());
    }
    let (percentile, least) = match list.len() {
        0 => (0, 0),
        n => nth(
            list,
            (settings.percentile as usize * n).div_ceil(1_000_000) - 1,
        ),
    };
    let range = percentile - least;
    let met = [percentile <= settings.delay, range <= settings.range];
    answers[..4].copy_from_slice(&[
        percentile as u64,
        range as u64,
        met[0] as u64,
        met[1] as u64,
    ]);
    0
}

fn by_selection(list: &[u32], index: usize) -> (u32, u32) {
    let mut copy = list.to_vec();
    let (below, found, _) = copy.select_nth_unstable(index);
    let least = below.iter().copied().min().unwrap_or(*found);
    (*found, least)
}

/// Counts in 2,048 buckets over the list's span, then those of the one bucket that holds the index.
fn by_buckets(list: &[u32], index: usize) -> (u32, u32) {
    let least = list.iter().fold(u32::MAX, |least, d| least.min(*d));
    let most = list.iter().fold(0, |most, d| most.max(*d));
    let shift = (32 - (most - least).leading_zeros()).saturating_sub(11);
    // four counters to a bucket, so that equal delays do not wait for one another
    let mut counts = vec![[0u32; 4]; 2_048];
    let (fours, rest) = list.as_chunks::<4>();
    for four in fours {
        for (lane, d) in four.iter().enumerate() {
            counts[((d - least) >> shift & 2_047) as usize][lane] += 1;
        }
    }
    for d in rest {
        counts[((d - least) >> shift & 2_047) as usize][0] += 1;
    }
    let (mut bucket, mut below) = (0, 0);
    loop {
        let here = counts[bucket].iter().sum::<u32>() as usize;
        if index < below + here {
            break;
        }
        below += here;
        bucket += 1;
    }
    if shift == 0 {
        return (least + bucket as u32, least);
    }
    let mut left = Vec::with_capacity(counts[bucket].iter().sum::<u32>() as usize);
    left.extend(
        list.iter()
            .copied()
            .filter(|d| ((d - least) >> shift) as usize == bucket),
    );
    (*left.select_nth_unstable(index - below).1, least)
}

fn lists() -> Vec<(&'static str, Vec<u32>)> {
    let mut r = Random(88_172_645_463_325_252);
    let largest = LARGEST as u64;
    let random: Vec<u32> = (0..N).map(|_| r.below(largest + 1)).collect();
    let mut sorted = random.clone();
    sorted.sort_unstable();
    let mut falling = sorted.clone();
    falling.reverse();
    let equal = vec![777_777; N];
    let ties: Vec<u32> = (0..N).map(|_| r.below(16) * 1_000_000).collect();
    let two: Vec<u32> = (0..N).map(|_| r.below(2) * LARGEST).collect();
    let narrow: Vec<u32> = (0..N).map(|_| 5_000_000 + r.below(300_000)).collect();
    let mut one_far = narrow.clone();
    one_far[77] = LARGEST;
    // small delays just where the library looks for its sample, so that it is of no use
    let mut misled = random.clone();
    (0..16_384).for_each(|i| misled[i * N / 16_384] = i as u32 % 1_000);
    let short: Vec<u32> = random[..1_000].to_vec();
    let short_narrower: Vec<u32> = short.iter().map(|d| d / 4).collect();
    let middling: Vec<u32> = random[..30_000].to_vec();
    vec![
        ("1,000,000 random", random),
        ("1,000,000 sorted", sorted),
        ("1,000,000 falling", falling),
        ("1,000,000 equal", equal),
        ("1,000,000 of 16 values", ties),
        ("1,000,000 of 2 values", two),
        ("1,000,000 narrow", narrow),
        ("1,000,000 narrow, one far", one_far),
        ("1,000,000 random, misled", misled),
        ("30,000 random", middling),
        ("1,000 random", short),
        ("1,000 random, a quarter as large", short_narrower),
    ]
}

pub fn rows(measure: &mut dyn FnMut(&Row)) {
    let s = inputs::settings(999_000);
    for (name, list) in &lists() {
        let way = |nth: fn(&[u32], usize) -> (u32, u32)| -> crate::Run {
            let s = &s;
            Box::new(move |out| {
                plain(s, list, &mut out.words, nth);
            })
        };
        measure(&Row {
            name: format!("mip_delays, {name}"),
            items: ("delay", list.len()),
            leaves: (0, 4),
            library: Box::new(|out| {
                library::delays(&s, list, &mut out.words);
            }),
            plain: vec![("select", way(by_selection)), ("buckets", way(by_buckets))],
            reads: None,
        });
    }
}

/// A list of any length, span and order, now and then with delays that are too large.
fn any_list(r: &mut Random, n: usize) -> Vec<u32> {
    let largest = LARGEST as u64;
    let span = [1, 3, 1_000, 50_000_000, largest + 1][r.below(5) as usize];
    let base = r.below(largest + 2 - span);
    let mut list: Vec<u32> = (0..n).map(|_| base + r.below(span)).collect();
    if r.one_in(3) {
        list.sort_unstable();
    }
    if n > 0 && r.one_in(4) {
        for past in [0, 1, u32::MAX - LARGEST] {
            let at = r.below(n as u64) as usize;
            list[at] = LARGEST + past * r.one_in(8) as u32;
        }
    }
    list
}

/// Settings with any Pr and objectives near a listed delay, now and then damaged.
fn any_settings(r: &mut Random, list: &[u32]) -> Vec<u8> {
    let pr = [1, 500_000, 999_000, 1_000_000, 1 + r.below(1_000_000)][r.below(5) as usize];
    let mut s = inputs::settings(pr);
    if !list.is_empty() {
        let near = list[r.below(list.len() as u64) as usize];
        inputs::put(&mut s, 52, near);
        inputs::put(&mut s, 56, near / 2);
    }
    if r.one_in(8) {
        inputs::damage(r, &mut s);
    }
    s
}

pub fn compare() {
    let mut r = Random(0x9e37_79b9_7f4a_7c15);
    for round in 0..50_000 {
        let n = match round {
            0 => N,
            1 => N + 1,
            _ if round % 250 == 0 => 30_000 + r.below(80_000) as usize,
            _ => r.below(40) as usize,
        };
        let list = any_list(&mut r, n);
        let s = any_settings(&mut r, &list);
        let room = if r.one_in(10) {
            r.below(4)
        } else {
            4 + r.below(3)
        };
        let words: Vec<u64> = (7..7 + room as u64).collect();
        let mut outs = [words.clone(), words.clone(), words];
        let told = [
            library::delays(&s, &list, &mut outs[0]),
            plain(&s, &list, &mut outs[1], by_selection),
            plain(&s, &list, &mut outs[2], by_buckets),
        ];
        assert!(
            told.iter().all(|w| *w == told[0]) && outs.iter().all(|o| *o == outs[0]),
            "delays, round {round}: {told:x?}"
        );
    }
}
