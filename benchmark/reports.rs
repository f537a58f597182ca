//! `mip_report` and `mip_verdicts`: the report of the middle one of three summaries, and the verdicts of a set of such.
use crate::inputs::{self, Random};
use crate::records::*;
use crate::summaries::{self, AVAILABLE, Figures, SIZE, Summary, Track, UNAVAILABLE};
use crate::{Out, Row, library};

const THREE: usize = 3 * SIZE;

/// What the last run of known intervals is.
#[derive(Clone, Copy)]
struct Open {
    high: bool,
    len: u32,
    /// The label before it.
    label: u32,
}

impl Open {
    /// The label of the run where it grows no more.
    fn shut(&self, n: u32) -> u32 {
        if n <= self.len {
            AVAILABLE + self.high as u32
        } else {
            self.label
        }
    }

    /// A run behind it.
    fn push(&mut self, n: u32, high: bool, len: u32) {
        if self.high == high {
            self.len += len;
        } else {
            self.label = self.shut(n);
            (self.high, self.len) = (high, len);
        }
    }

    /// A middle and a run behind it, which begins a new one.
    fn pass(&mut self, n: u32, label: u32, high: bool, len: u32) {
        self.label = if label == 0 { self.shut(n) } else { label };
        (self.high, self.len) = (high, len);
    }
}

/// The labels, by all that is known, of the period's first run, which what is inherited behind it shares, and of its last run, 0 where it is
/// undecided. Nothing before and behind the period is added up: only marks and lengths of runs are looked at.
fn labels(n: u32, before: &Track, period: &Track, after: &Track) -> (u32, u32) {
    let mut open = Open {
        high: false,
        len: 0,
        label: AVAILABLE,
    };
    let mut first = 0;
    for (k, t) in [before, period].into_iter().enumerate() {
        match t {
            Track::Nothing => {}
            Track::One(r) => open.push(n, r.high, r.len),
            Track::Many(l, m, t) => {
                open.push(n, l.high, l.len);
                if k == 1 {
                    first = open.shut(n);
                }
                open.pass(n, m.label, t.high, t.len);
            }
        }
    }
    let ends = match after {
        Track::Nothing => true,
        Track::One(r) | Track::Many(r, _, _) => {
            let same = r.high == open.high;
            open.len += if same { r.len } else { 0 };
            same & matches!(after, Track::One(_))
        }
    };
    let last = open.shut(n);
    let undecided = ends & (open.len < n) & (last != AVAILABLE + open.high as u32);
    (first, if undecided { 0 } else { last })
}

/// Intervals that are available, unavailable and undecided.
fn counts((first, last): (u32, u32), period: &Track) -> [u64; 3] {
    let mut by = [0u64; 3];
    match period {
        Track::Nothing => {}
        Track::One(r) => by[last as usize] += r.load.count as u64,
        Track::Many(l, m, t) => {
            by[first as usize] += l.load.count as u64 + m.inherited.load.count as u64;
            by[AVAILABLE as usize] += m.available.load.count as u64;
            by[UNAVAILABLE as usize] += m.unavailable as u64;
            by[last as usize] += t.load.count as u64;
        }
    }
    let [undecided, available, unavailable] = by;
    [available, unavailable, undecided]
}

/// The figures of its available intervals.
fn available((first, last): (u32, u32), p: u32, period: &Track) -> Figures {
    let mut all = Figures::default();
    match period {
        Track::Nothing => {}
        Track::One(r) => {
            if last == AVAILABLE {
                all = r.figures(p);
            }
        }
        Track::Many(l, m, t) => {
            all = m.available;
            if first == AVAILABLE {
                all.add(&l.figures(p));
                all.add(&m.inherited);
            }
            if last == AVAILABLE {
                all.add(&t.figures(p));
            }
        }
    }
    all
}

/// The figures of its undecided intervals: they are all in its last run.
fn undecided((_, last): (u32, u32), p: u32, period: &Track) -> Figures {
    match period {
        Track::One(r) | Track::Many(_, _, r) if last == 0 => r.figures(p),
        _ => Figures::default(),
    }
}

/// The fifteen words of a report, and the figures of its undecided intervals.
#[inline(always)]
fn figures(before: &Summary, period: &Summary, after: &Summary) -> ([u64; 15], Figures) {
    let Label { n, p, .. } = period.label;
    let given = [0, 1].map(|k| labels(n, &before.tracks[k], &period.tracks[k], &after.tracks[k]));
    let [loss, composite] = [0, 1].map(|k| counts(given[k], &period.tracks[k]));
    let f = available(given[0], p, &period.tracks[0]);
    let length = (period.after - period.first) as u64;
    let words = [
        length,
        length - loss.iter().sum::<u64>(),
        loss[0],
        loss[1],
        loss[2],
        f.high as u64,
        f.runs as u64,
        f.load.sent,
        f.load.lost,
        f.load.sum,
        f.load.least() as u64,
        f.load.most as u64,
        composite[0],
        composite[1],
        composite[2],
    ];
    (words, undecided(given[0], p, &period.tracks[0]))
}

/// The report of three summaries, the first of which is counted as the one at `base`; or why there is none.
#[inline(always)]
fn three(wanted: Option<&[u8]>, s: &[u8; THREE], base: usize) -> Result<([u64; 15], Figures), u64> {
    let part = |k: usize| -> &[u8; SIZE] { s[k * SIZE..][..SIZE].try_into().unwrap() };
    let read = |k: usize| summaries::read(part(k)).ok_or(refused(5, base + k));
    let (a, b, c) = (read(0)?, read(1)?, read(2)?);
    let label = |k: usize| &part(k)[8..32];
    if wanted.is_some_and(|w| w != label(0)) {
        return Err(refused(8, base));
    }
    if let Some(k) = [1, 2].into_iter().find(|k| label(*k) != label(k - 1)) {
        return Err(refused(8, base + k));
    }
    let starts = [(0, a.first), (a.after, b.first), (b.after, c.first)];
    if let Some(k) = starts.iter().position(|(end, start)| end != start) {
        return Err(refused(7, base + k));
    }
    Ok(figures(&a, &b, &c))
}

fn report(s: &[u8], out: &mut [u64]) -> u64 {
    let Ok(s) = s.try_into() else {
        return refused(2, 0);
    };
    if out.len() < 15 {
        return refused(3, 0);
    }
    match three(None, s, 0) {
        Ok((words, _)) => {
            out[..15].copy_from_slice(&words);
            0
        }
        Err(word) => word,
    }
}

/// Which objectives are met by the figures that they ask for.
fn met(objectives: &[u64; 6], loss: [u64; 2], composite: [u64; 2], f: [u64; 5]) -> [bool; 6] {
    let [
        availability,
        least_composite,
        most_loss,
        mean,
        most_high,
        most_runs,
    ] = *objectives;
    let [high, runs, sent, lost, sum] = f;
    let enough =
        |objective: u64, [good, bad]: [u64; 2]| objective * (good + bad) <= good * 1_000_000;
    [
        enough(availability, loss),
        enough(least_composite, composite),
        lost * 1_000_000 <= most_loss * sent,
        sum <= mean * (sent - lost),
        high <= most_high,
        runs <= most_runs,
    ]
}

/// 0 not met, 1 met, 2 not yet: the undecided intervals are taken as available, and as unavailable.
fn judge(objectives: &[u64; 6], r: &[u64; 15], u: &Figures) -> [u64; 6] {
    let f = [r[5], r[6], r[7], r[8], r[9]];
    let more = [
        f[0] + u.high as u64,
        f[1] + u.runs as u64,
        f[2] + u.load.sent,
        f[3] + u.load.lost,
        f[4] + u.load.sum,
    ];
    let a = met(
        objectives,
        [r[2] + r[4], r[3]],
        [r[12] + r[14], r[13]],
        more,
    );
    let b = met(objectives, [r[2], r[3] + r[4]], [r[12], r[13] + r[14]], f);
    std::array::from_fn(|k| if a[k] == b[k] { a[k] as u64 } else { 2 })
}

fn verdicts(s: &[u8], pairs: u64, r: &[u8], out: &mut [u64]) -> u64 {
    if settings(s).is_none() {
        return refused(1, 0);
    }
    if !(1..=64).contains(&pairs) {
        return refused(9, 0);
    }
    if r.len() != pairs as usize * THREE {
        return refused(2, 0);
    }
    if out.len() < 6 {
        return refused(3, 0);
    }
    let objectives = std::array::from_fn(|k| u32_at(s, 24 + 4 * k) as u64);
    let mut all = [1; 6];
    for (k, r) in r.as_chunks::<THREE>().0.iter().enumerate() {
        match three(Some(&s[..24]), r, 3 * k) {
            Ok((words, undecided)) => {
                let one = judge(&objectives, &words, &undecided);
                for (x, y) in all.iter_mut().zip(one) {
                    *x = if (*x == 0) | (y == 0) { 0 } else { y.max(*x) };
                }
            }
            Err(word) => return word,
        }
    }
    out[..6].copy_from_slice(&all);
    0
}

const PERIODS: usize = 1024;

/// For each minute but the last: all before it, the minute, and the next one.
fn periods(s: &[u8], r: &[u8]) -> Vec<u8> {
    let minutes = summaries::made(s, &r[..48 * 60 * (PERIODS + 1)], 60);
    let mut before = [0; SIZE];
    assert!(library::summary(s, 0, &[], &mut before, 0) == 0);
    let mut all = Vec::new();
    for k in 0..PERIODS {
        for part in [&before, &minutes[k], &minutes[k + 1]] {
            all.extend_from_slice(part);
        }
        let left = before;
        assert!(library::join(&left, &minutes[k], &mut before, 0) == 0);
    }
    all
}

pub fn rows(measure: &mut dyn FnMut(&Row)) {
    let s = inputs::settings(999_000);
    let count = 60 * (PERIODS as u32 + 1);
    let inputs = inputs::months(count).map(|(name, r)| (name, periods(&s, &r)));
    for (name, all) in &inputs {
        let reports = |call: fn(&[u8], &mut [u64]) -> u64, out: &mut Out| {
            for (k, part) in all.chunks(THREE).enumerate() {
                let (word, figures) = out.words[16 * k..16 * (k + 1)].split_first_mut().unwrap();
                *word = call(part, figures);
            }
        };
        measure(&Row {
            name: format!("mip_report, 1,024 periods of a minute, {name}"),
            items: ("report", PERIODS),
            leaves: (0, 16 * PERIODS),
            library: Box::new(move |out| reports(library::report, out)),
            plain: vec![("by labels", Box::new(move |out| reports(report, out)))],
            reads: None,
        });
    }
    for (name, all) in &inputs {
        type Call = fn(&[u8], u64, &[u8], &mut [u64]) -> u64;
        let s = &s;
        let sets = move |call: Call, out: &mut Out| {
            for (k, part) in all.chunks(64 * THREE).enumerate() {
                let (word, answers) = out.words[7 * k..7 * (k + 1)].split_first_mut().unwrap();
                *word = call(s, 64, part, answers);
            }
        };
        measure(&Row {
            name: format!("mip_verdicts, 16 calls of 64 pairs, {name}"),
            items: ("pair", PERIODS),
            leaves: (0, 7 * PERIODS / 64),
            library: Box::new(move |out| sets(library::verdicts, out)),
            plain: vec![("by labels", Box::new(move |out| sets(verdicts, out)))],
            reads: None,
        });
    }
}

/// Three adjoining summaries of few records, now and then damaged.
fn some(r: &mut Random, s: &[u8]) -> Vec<u8> {
    let count = r.below(60);
    let skipped = r.below(40) as usize;
    let mut records = if r.one_in(3) {
        inputs::calm(count)
    } else {
        inputs::random(count + skipped as u32)[48 * skipped..].to_vec()
    };
    for (k, record) in records.as_chunks_mut::<48>().0.iter_mut().enumerate() {
        inputs::put(record, 0, k as u32);
    }
    let mut cuts = [0, 0].map(|_| r.below(1 + count as u64) as usize);
    cuts.sort();
    let mut all = vec![0; THREE];
    for (k, (from, to)) in [(0, cuts[0]), (cuts[0], cuts[1]), (cuts[1], count as usize)]
        .into_iter()
        .enumerate()
    {
        let part = &records[48 * from..48 * to];
        assert!(library::summary(s, from as u64, part, &mut all, k * SIZE) == 0);
    }
    let (at, word) = (SIZE * r.below(3) as usize, 32 + 4 * r.below(108) as usize);
    match r.below(24) {
        0 => all.copy_within(at..at + SIZE, SIZE * r.below(2) as usize),
        1 => inputs::damage(r, &mut all),
        2 => inputs::put(&mut all, at + word, r.below(4)),
        3 | 4 => {
            let near = u32_at(&all, at + word)
                .wrapping_add(r.below(5))
                .wrapping_sub(2);
            inputs::put(&mut all, at + word, near);
        }
        5 => inputs::put(&mut all, at + 8 + 4 * r.below(6) as usize, 1 + r.below(200)),
        6 => inputs::put(&mut all, at + 4 * r.below(2) as usize, r.below(60)),
        _ => {}
    }
    all
}

pub fn compare() {
    let mut r = Random(7);
    for round in 0..20_000 {
        let mut s = inputs::settings(999_000);
        s[4] = 3 + r.below(12) as u8;
        s[5] = [0, 2][r.below(2) as usize];
        for at in [24, 28, 32] {
            let objective = [0, 500_000, 1_000_000, r.below(1_000_001)][r.below(4) as usize];
            inputs::put(&mut s, at, objective);
        }
        inputs::put(&mut s, 36, r.below(6_000_000));
        inputs::put(&mut s, 40, r.below(20));
        if s[5] != 0 {
            inputs::put(&mut s, 44, r.below(4));
        }
        let pairs = 1 + r.below(4) as u64;
        let mut all: Vec<u8> = (0..pairs).flat_map(|_| some(&mut r, &s)).collect();
        let first = all[..THREE.min(all.len())].to_vec();
        if r.one_in(20) {
            inputs::damage(&mut r, &mut s);
        }
        if r.one_in(20) {
            inputs::damage(&mut r, &mut all);
        }
        let asked = match r.below(40) {
            0 => 0,
            1 => 65,
            2 => pairs + 1,
            _ => pairs,
        };
        let room = |r: &mut Random, size: usize| vec![7; size + 1 - 2 * r.one_in(20) as usize];
        let mut a = room(&mut r, 15);
        let mut b = a.clone();
        let words = (library::report(&first, &mut a), report(&first, &mut b));
        assert!(
            words.0 == words.1 && a == b,
            "report, round {round}: {words:x?} {a:?} {b:?}"
        );
        let mut a = room(&mut r, 6);
        let mut b = a.clone();
        let words = (
            library::verdicts(&s, asked, &all, &mut a),
            verdicts(&s, asked, &all, &mut b),
        );
        assert!(
            words.0 == words.1 && a == b,
            "verdicts, round {round}: {words:x?} {a:?} {b:?}"
        );
    }
}
