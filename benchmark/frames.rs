//! `mip_interval`: the frames of one interval to its record.
use crate::inputs::{self, Random};
use crate::records::*;
use crate::{Out, Row, library};

/// The first frame at fault.
#[cold]
fn fault(frames: &[[u8; 16]], from: u64, to: u64) -> u64 {
    let mut earliest = 0;
    for (k, f) in frames.iter().enumerate() {
        let (time, delay, state) = (u64_at(f, 0), u32_at(f, 8), u32_at(f, 12));
        if delay > LARGEST || state > 1 || (state == 1 && delay != 0) {
            return refused(5, k);
        }
        if time < from || to <= time {
            return refused(6, k);
        }
        if time < earliest {
            return refused(7, k);
        }
        earliest = time + 1;
    }
    unreachable!("a frame is at fault")
}

/// All frames are looked at without a branch; where one is at fault it is looked for afterwards.
fn plain(s: &[u8], r: &[u8], number: u64, maintenance: u64, out: &mut [u8], at: usize) -> u64 {
    let Some(settings) = settings(s) else {
        return refused(1, 0);
    };
    if r.len() % 16 != 0 {
        return refused(2, 0);
    }
    if !has_room(out.len(), at, 48) {
        return refused(3, 0);
    }
    let frames: &[[u8; 16]] = r.as_chunks().0;
    if frames.len() > FRAMES as usize {
        return refused(4, 0);
    }
    if number >= INTERVALS as u64 || maintenance > 1 {
        return refused(5, 0);
    }
    let l = settings.label;
    let length = l.length as u64 * 1_000_000;
    let from = number * length;
    let mut good = true;
    let (mut lost, mut late, mut pairs, mut jumpy, mut sum) = (0, 0, 0, 0, 0u64);
    let (mut least, mut most) = (u32::MAX, 0);
    let (mut earliest, mut before, mut delay_before) = (from, 1, 0);
    for f in frames {
        let (time, delay, state) = (u64_at(f, 0), u32_at(f, 8), u32_at(f, 12));
        good &= (delay <= LARGEST) & (state <= 1) & ((state == 0) | (delay == 0));
        good &= (earliest <= time) & (time < from + length);
        let pair = state | before == 0;
        lost += state;
        late += (delay > l.dl) as u32;
        pairs += pair as u32;
        jumpy += (pair & (delay.abs_diff(delay_before) > l.jt)) as u32;
        sum += delay as u64;
        // a lost frame has no least delay
        least = least.min(delay | state.wrapping_neg());
        most = most.max(delay);
        (earliest, before, delay_before) = (time.wrapping_add(1), state, delay);
    }
    if !good {
        return fault(frames, from, from + length);
    }
    let sent = frames.len() as u32;
    if sent == lost {
        least = 0;
    }
    let part = &mut out[at..at + 48];
    for (k, x) in [number as u32, sent, lost, late, pairs, jumpy]
        .into_iter()
        .enumerate()
    {
        inputs::put(part, 4 * k, x);
    }
    part[24..32].copy_from_slice(&sum.to_le_bytes());
    inputs::put(part, 32, least);
    inputs::put(part, 36, most);
    part[40..48].copy_from_slice(&maintenance.to_le_bytes());
    0
}

/// Frames of interval 5 in increasing time, with delays from 1 ms on over `span` ns; one in so many is lost.
fn frames(r: &mut Random, count: u64, lost: u64, span: u64) -> Vec<u8> {
    let mut all = Vec::new();
    for k in 0..count {
        let time =
            5_000_000_000 + k * (1_000_000_000 / count) + r.below(1_000_000_000 / count) as u64;
        let state = r.one_in(lost) as u32;
        let delay = if state == 1 {
            0
        } else {
            1_000_000 + r.below(span)
        };
        all.extend(time.to_le_bytes());
        all.extend(delay.to_le_bytes());
        all.extend(state.to_le_bytes());
    }
    all
}

const CALLS: usize = 800;

pub fn rows(measure: &mut dyn FnMut(&Row)) {
    let s = inputs::settings(999_000);
    let mut r = Random(3);
    for (name, lost) in [("1 in 1,000 lost", 1_000), ("half of them lost", 2)] {
        let f = frames(&mut r, FRAMES as u64, lost, 6_000_000);
        type Call = fn(&[u8], &[u8], u64, u64, &mut [u8], usize) -> u64;
        let calls = |call: Call, out: &mut Out| {
            for _ in 0..CALLS {
                out.words[0] = call(&s, std::hint::black_box(&f), 5, 0, &mut out.bytes, 0);
            }
        };
        measure(&Row {
            name: format!("mip_interval, 1,024 frames, {name}"),
            items: ("call", CALLS),
            leaves: (48, 1),
            library: Box::new(|out| calls(library::interval, out)),
            plain: vec![("one pass", Box::new(|out| calls(plain, out)))],
            reads: None,
        });
    }
}

pub fn compare() {
    let mut r = Random(4);
    for round in 0..50_000 {
        let count = if round < 20 {
            FRAMES as u64 + round % 2
        } else {
            1 + r.below(20) as u64
        };
        let span = [6_000_000, LARGEST as u64 - 999_999][r.below(2) as usize];
        let mut f = frames(&mut r, count, 3, span);
        let mut s = inputs::settings(999_000);
        inputs::damage(&mut r, &mut f);
        if r.one_in(8) {
            inputs::damage(&mut r, &mut s);
        }
        let number = if r.one_in(20) {
            3_000_000 - r.below(2) as u64
        } else {
            5
        };
        let maintenance = r.below(20) as u64 / 9;
        let (length, at) = inputs::room(&mut r, 48);
        let (mut a, mut b) = (vec![7; length], vec![7; length]);
        let words = (
            library::interval(&s, &f, number, maintenance, &mut a, at),
            plain(&s, &f, number, maintenance, &mut b, at),
        );
        assert!(
            words.0 == words.1 && a == b,
            "frames, round {round}: {words:x?}"
        );
    }
}
