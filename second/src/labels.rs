//! Marks, high or not, and the labels of both tracks by the window recursion.

use crate::records::{read_interval, read_settings, Interval, LabelSettings, MILLION};
use crate::refusals::{refuse, room, whole, Answer, FIELD, ORDER, SETTINGS};

/// Numerator and denominator; the denominator is not 0.
#[derive(Clone, Copy, Debug)]
pub struct Fraction(pub u64, pub u64);

impl Fraction {
    pub fn exceeds(self, other: Fraction) -> bool {
        self.0 as u128 * other.1 as u128 > other.0 as u128 * self.1 as u128
    }
}

pub fn loss_ratio(i: &Interval) -> Fraction {
    if i.sent == 0 {
        return Fraction(0, 1);
    }
    Fraction(i.lost, i.sent)
}

pub fn composite_indicator(s: &LabelSettings, i: &Interval) -> Fraction {
    let (fl, fd, fdv) = (s.loss_weight(), s.delay_weight(), s.variation_weight());
    if i.sent == 0 {
        return Fraction(0, 1);
    }
    if fl == 0 && i.delivered() == 0 {
        return Fraction(1, 1);
    }
    if fl == 0 && fd == 0 && i.pairs == 0 {
        return Fraction(1, 1);
    }
    Fraction(i.lost * fl + i.late * fd + i.jumpy * fdv, i.sent * fl + i.delivered() * fd + i.pairs * fdv)
}

pub fn high_loss(s: &LabelSettings, i: &Interval) -> bool {
    loss_ratio(i).exceeds(Fraction(s.c, MILLION))
}

pub fn high_composite(s: &LabelSettings, i: &Interval) -> bool {
    composite_indicator(s, i).exceeds(Fraction(s.u, MILLION))
}

#[derive(Clone, Copy, Debug, PartialEq, Eq)]
pub enum Label {
    Unavailable,
    Available,
    Undecided,
}

impl Label {
    pub fn byte(self) -> u8 {
        match self {
            Label::Unavailable => 0,
            Label::Available => 1,
            Label::Undecided => 2,
        }
    }
}

/// The labels of the first `count` intervals, true for available. A mark is true for high. All the windows must be marked:
/// `marks` holds at least count + n - 1 marks, or count is 0.
pub fn by_windows(n: usize, marks: &[bool], count: usize) -> Vec<bool> {
    let mut labels = Vec::with_capacity(count);
    let mut available = true;
    for k in 0..count {
        let window = &marks[k..k + n];
        if available {
            available = !window.iter().all(|&high| high);
        } else {
            available = window.iter().all(|&high| !high);
        }
        labels.push(available);
    }
    labels
}

/// The labels of the known intervals: undecided where two continuations differ.
///
/// Continuations by n - 1 marks give every known interval its whole window. Of them two suffice, all high and none high. Let k be the
/// first interval that any two continuations label differently; the label before it is sure. Say it is available: then the known marks
/// from k on are all high, fewer than n. With all high behind, k becomes unavailable and the known ones after k, being high, stay so.
/// With none high behind, the windows of k and of each known one after it hold a mark that is not high, and all stay available. So the
/// two differ at k and at every known interval after it, and the others before k agree under all continuations. With the label
/// before k unavailable the same holds with high and not high exchanged.
pub fn settle(n: usize, known: &[bool]) -> Vec<Label> {
    let continued = |high: bool| {
        let mut marks = known.to_vec();
        marks.extend(vec![high; n - 1]);
        by_windows(n, &marks, known.len())
    };
    let one = continued(true);
    let other = continued(false);
    let mut labels = Vec::with_capacity(known.len());
    for k in 0..known.len() {
        labels.push(match (one[k], other[k]) {
            (true, true) => Label::Available,
            (false, false) => Label::Unavailable,
            _ => Label::Undecided,
        });
    }
    labels
}

/// The labels of the stretch from 0: loss, then composite.
pub fn both_tracks(s: &LabelSettings, intervals: &[Interval]) -> (Vec<Label>, Vec<Label>) {
    let loss: Vec<bool> = intervals.iter().map(|i| high_loss(s, i)).collect();
    let composite: Vec<bool> = intervals.iter().map(|i| high_composite(s, i)).collect();
    (settle(s.n as usize, &loss), settle(s.n as usize, &composite))
}

/// The intervals of records that must be numbered first, first + 1 and so on.
pub fn read_stretch(records: &[&[u8]], first: u64) -> Answer<Vec<Interval>> {
    let mut intervals = Vec::new();
    for (place, record) in records.iter().enumerate() {
        let Some(i) = read_interval(record) else {
            return refuse(FIELD, place);
        };
        if i.number != first + place as u64 {
            return refuse(ORDER, place);
        }
        intervals.push(i);
    }
    Ok(intervals)
}

/// Two bytes for each interval, its loss label and then its composite label.
pub fn labels(settings: &[u8], intervals: &[u8], room_length: usize, at: usize) -> Answer<Vec<u8>> {
    let Some(s) = read_settings(settings) else {
        return refuse(SETTINGS, 0);
    };
    let records = whole(intervals, 48)?;
    room(room_length, at, 2 * records.len())?;
    let stretch = read_stretch(&records, 0)?;
    let (loss, composite) = both_tracks(&s.label, &stretch);
    let mut bytes = Vec::new();
    for k in 0..stretch.len() {
        bytes.push(loss[k].byte());
        bytes.push(composite[k].byte());
    }
    Ok(bytes)
}
