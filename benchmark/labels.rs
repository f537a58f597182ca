//! `mip_labels`: the label bytes of a stretch.
use crate::inputs::{self, Random};
use crate::records::*;
use crate::{Row, library};

/// One track while its labels are settled: the last label, how many behind it are undecided.
#[derive(Clone, Copy)]
struct Lane {
    unavailable: bool,
    pending: usize,
}

impl Lane {
    const START: Lane = Lane {
        unavailable: false,
        pending: 0,
    };

    /// The mark of interval k: settles those that it can, in every second byte.
    #[inline(always)]
    fn mark(&mut self, n: usize, lane: usize, k: usize, high: bool, labels: &mut [u8]) {
        let count = self.pending + 1;
        if (high == self.unavailable) | (n <= count) {
            for i in k + 1 - count..=k {
                labels[2 * i + lane] = !high as u8;
            }
            *self = Lane {
                unavailable: high,
                pending: 0,
            };
        } else {
            self.pending = count;
        }
    }

    fn end(self, lane: usize, count: usize, labels: &mut [u8]) {
        for i in count - self.pending..count {
            labels[2 * i + lane] = 2;
        }
    }
}

/// The label settings and the records, or the refusal that goes before that of any record.
fn opened<'a>(
    s: &[u8],
    r: &'a [u8],
    len: usize,
    at: usize,
) -> Result<(Label, &'a [[u8; 48]]), u64> {
    let settings = settings(s).ok_or(refused(1, 0))?;
    if r.len() % 48 != 0 {
        return Err(refused(2, 0));
    }
    let records = intervals(r);
    if !has_room(len, at, 2 * records.len()) {
        return Err(refused(3, 0));
    }
    Ok((settings.label, records))
}

/// Nothing may be written before all records are known to be good: the labels are written into memory of their own, and copied.
fn by_copy(s: &[u8], r: &[u8], out: &mut [u8], at: usize) -> u64 {
    let (l, records) = match opened(s, r, out.len(), at) {
        Ok(x) => x,
        Err(word) => return word,
    };
    let mut lanes = [Lane::START; 2];
    let mut labels = vec![0; 2 * records.len()];
    for (k, record) in records.iter().enumerate() {
        let Some(v) = Interval::read(record) else {
            return refused(5, k);
        };
        if v.number as usize != k {
            return refused(7, k);
        }
        let (loss, composite) = (v.high_loss(&l), v.high_composite(&l));
        if (lanes[0].pending | lanes[1].pending == 0)
            & (loss == lanes[0].unavailable)
            & (composite == lanes[1].unavailable)
        {
            labels[2 * k] = !loss as u8;
            labels[2 * k + 1] = !composite as u8;
        } else {
            lanes[0].mark(l.n as usize, 0, k, loss, &mut labels);
            lanes[1].mark(l.n as usize, 1, k, composite, &mut labels);
        }
    }
    for lane in 0..2 {
        lanes[lane].end(lane, records.len(), &mut labels);
    }
    out[at..at + labels.len()].copy_from_slice(&labels);
    0
}

/// What a mark does to a track, without a branch: the byte of the label that it settles, or none. It settles all that are undecided.
#[inline(always)]
fn settled(n: usize, lane: &mut Lane, high: bool) -> u8 {
    let count = lane.pending + 1;
    let settles = (high == lane.unavailable) | (n <= count);
    lane.unavailable = high & settles | lane.unavailable & !settles;
    lane.pending = count & (settles as usize).wrapping_sub(1);
    !high as u8 | (!settles as u8).wrapping_neg()
}

const NONE: u8 = u8::MAX;

/// Forwards what each mark settles is kept, backwards each interval takes the label that is settled at it or next behind it.
fn backwards(s: &[u8], r: &[u8], out: &mut [u8], at: usize) -> u64 {
    let (l, records) = match opened(s, r, out.len(), at) {
        Ok(x) => x,
        Err(word) => return word,
    };
    let (mut loss, mut composite) = (Lane::START, Lane::START);
    let mut events = Vec::with_capacity(records.len());
    for (k, record) in records.iter().enumerate() {
        let Some(v) = Interval::read(record) else {
            return refused(5, k);
        };
        if v.number as usize != k {
            return refused(7, k);
        }
        events.push([
            settled(l.n as usize, &mut loss, v.high_loss(&l)),
            settled(l.n as usize, &mut composite, v.high_composite(&l)),
        ]);
    }
    let labels: &mut [[u8; 2]] = out[at..at + 2 * records.len()].as_chunks_mut().0;
    let mut next = [2; 2];
    for (label, event) in labels.iter_mut().zip(&events).rev() {
        for lane in 0..2 {
            next[lane] = if event[lane] == NONE {
                next[lane]
            } else {
                event[lane]
            };
        }
        *label = next;
    }
    0
}

pub fn rows(measure: &mut dyn FnMut(&Row)) {
    let s = inputs::settings(999_000);
    for (name, r) in inputs::months(INTERVALS) {
        measure(&Row {
            name: format!("mip_labels, 3,000,000 intervals, {name}"),
            items: ("record", INTERVALS as usize),
            leaves: (2 * INTERVALS as usize, 1),
            library: Box::new(|out| out.words[0] = library::labels(&s, &r, &mut out.bytes, 0)),
            plain: vec![
                (
                    "copied",
                    Box::new(|out| out.words[0] = by_copy(&s, &r, &mut out.bytes, 0)),
                ),
                (
                    "backwards",
                    Box::new(|out| out.words[0] = backwards(&s, &r, &mut out.bytes, 0)),
                ),
            ],
            reads: Some(&r),
        });
    }
}

pub fn compare() {
    let mut r = Random(1);
    for round in 0..20_000 {
        let count = r.below(40);
        let mut records = if r.one_in(2) {
            inputs::random(count)
        } else {
            inputs::calm(count)
        };
        let mut s = inputs::settings(999_000);
        s[4..6].copy_from_slice(&[1 + r.below(12) as u8, 0]);
        inputs::damage(&mut r, &mut records);
        if r.one_in(4) {
            inputs::damage(&mut r, &mut s);
        }
        let (length, at) = inputs::room(&mut r, records.len() / 48 * 2);
        let mut outs = [vec![7; length], vec![7; length], vec![7; length]];
        let words = [
            library::labels(&s, &records, &mut outs[0], at),
            by_copy(&s, &records, &mut outs[1], at),
            backwards(&s, &records, &mut outs[2], at),
        ];
        assert!(
            words.iter().all(|w| *w == words[0]) && outs.iter().all(|o| *o == outs[0]),
            "labels, round {round}: {words:x?}"
        );
    }
}
