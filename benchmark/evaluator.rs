//! `mip_step`: the running evaluator of a circuit, fed a month.
use crate::inputs::{self, Random};
use crate::records::*;
use crate::{Row, library};

/// Fields that are words: any may be too large for its field.
#[inline(always)]
fn label_of(e: &[u64; 13]) -> Option<Label> {
    let large = e[..8].iter().fold(0, |all, w| all | w) >> 32 != 0;
    let l = Label::of(
        e[0] as u32,
        e[1] as u32,
        e[2] as u32,
        e[3] as u32,
        e[4] as u32,
        e[5] as u32,
        e[6] as u32,
        e[7] as u32,
    );
    l.filter(|_| !large)
}

/// Whether marks of the number fed can leave a track so.
#[inline(always)]
fn can_hold(n: u64, fed: u64, label: u64, pending: u64) -> bool {
    (label <= 1) & (pending < n) & (pending.wrapping_add(n & label.wrapping_sub(1)) <= fed)
}

/// The track after a mark, as label and pending, and what it settled, as count and label; without a branch, since marks are hard to foresee.
#[inline(always)]
fn turned(n: u64, label: u64, pending: u64, high: bool) -> ([u64; 2], [u64; 2]) {
    let (says, count) = (!high as u64, pending + 1);
    let settles = (((says == label) | (n <= count)) as u64).wrapping_neg();
    let either = |a: u64, b: u64| a & settles | b & !settles;
    (
        [either(says, label), either(0, count)],
        [either(count, 0), either(says, 2)],
    )
}

#[inline(never)]
fn step(evaluator: &mut [u64], r: &[u8], settled: &mut [u64]) -> u64 {
    let Ok(record) = <&[u8; 48]>::try_from(r) else {
        return refused(2, 0);
    };
    let Some(e) = evaluator.first_chunk_mut::<13>() else {
        return refused(2, 0);
    };
    let Some(answer) = settled.first_chunk_mut::<4>() else {
        return refused(3, 0);
    };
    let (n, fed) = (e[1], e[8]);
    let held =
        (fed <= INTERVALS as u64) & can_hold(n, fed, e[9], e[10]) & can_hold(n, fed, e[11], e[12]);
    let Some(l) = label_of(e).filter(|_| held) else {
        return refused(5, 0);
    };
    let Some(v) = Interval::read(record) else {
        return refused(5, 0);
    };
    if v.number as u64 != fed {
        return refused(7, 0);
    }
    let (loss, a) = turned(n, e[9], e[10], v.high_loss(&l));
    let (composite, b) = turned(n, e[11], e[12], v.high_composite(&l));
    e[8] = fed + 1;
    [e[9], e[10], e[11], e[12]] = [loss[0], loss[1], composite[0], composite[1]];
    *answer = [a[0], a[1], b[0], b[1]];
    0
}

type Step = fn(&mut [u64], &[u8], &mut [u64]) -> u64;

/// Feeds all records: the words of the evaluator are left, behind them a sum over all that was settled.
fn feed(step: Step, s: &[u8], r: &[u8], words: &mut [u64]) {
    let (evaluator, sum) = words.split_at_mut(13);
    assert!(library::start(s, evaluator) == 0);
    let mut settled = [0; 4];
    sum[0] = 0;
    for record in r.chunks_exact(48) {
        assert!(step(evaluator, record, &mut settled) == 0);
        sum[0] =
            sum[0].wrapping_add(settled[0] * (2 + settled[1]) + 7 * settled[2] * (2 + settled[3]));
    }
}

pub fn rows(measure: &mut dyn FnMut(&Row)) {
    let s = inputs::settings(999_000);
    for (name, r) in inputs::months(INTERVALS) {
        measure(&Row {
            name: format!("mip_step, 3,000,000 steps, {name}"),
            items: ("step", INTERVALS as usize),
            leaves: (0, 14),
            library: Box::new(|out| feed(library::step, &s, &r, &mut out.words)),
            plain: vec![("struct", Box::new(|out| feed(step, &s, &r, &mut out.words)))],
            reads: Some(&r),
        });
    }
}

pub fn compare() {
    let mut r = Random(2);
    let records = inputs::random(40);
    for round in 0..100_000 {
        let mut s = inputs::settings(999_000);
        s[4..6].copy_from_slice(&[1 + r.below(12) as u8, 0]);
        let mut evaluator = vec![9; 14];
        assert!(library::start(&s, &mut evaluator) == 0);
        let fed = r.below(40);
        for k in 0..fed as usize {
            assert!(library::step(&mut evaluator, &records[48 * k..48 * k + 48], &mut [0; 4]) == 0);
        }
        let mut record = records[48 * fed as usize..48 * fed as usize + 48].to_vec();
        match r.below(6) {
            0 => inputs::damage(&mut r, &mut record),
            1 => evaluator[r.below(13) as usize] = r.below(70) as u64,
            2 => evaluator[r.below(13) as usize] = (1 << 32) + r.below(70) as u64,
            3 => evaluator[r.below(13) as usize] ^= 1 << r.below(64),
            4 if r.one_in(10) => evaluator.truncate(r.below(14) as usize),
            _ => {}
        }
        let length = if r.one_in(20) { r.below(4) as usize } else { 5 };
        let (mut other, mut a, mut b) = (evaluator.clone(), vec![7; length], vec![7; length]);
        let words = (
            library::step(&mut evaluator, &record, &mut a),
            step(&mut other, &record, &mut b),
        );
        assert!(
            words.0 == words.1 && evaluator == other && a == b,
            "evaluator, round {round}: {words:x?}"
        );
    }
}
