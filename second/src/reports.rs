//! The report of a period, by going over its intervals.

use crate::labels::{both_tracks, high_loss, Label};
use crate::records::{Interval, LabelSettings};
use crate::refusals::{refuse, room_for_words, Answer, LENGTH};
use crate::summaries::{all_valid, equal_settings, from_zero, Summary, SUMMARY_BYTES};

#[derive(Clone, Copy, Debug, Default, PartialEq, Eq)]
pub struct Report {
    pub length: u64,
    pub maintenance: u64,
    pub available: u64,
    pub unavailable: u64,
    pub undecided: u64,
    pub high: u64,
    pub runs: u64,
    pub sent: u64,
    pub lost: u64,
    pub sum: u64,
    pub least: u64,
    pub most: u64,
    pub acceptable: u64,
    pub unacceptable: u64,
    pub undecided_composite: u64,
}

impl Report {
    pub fn words(&self) -> [u64; 15] {
        [
            self.length,
            self.maintenance,
            self.available,
            self.unavailable,
            self.undecided,
            self.high,
            self.runs,
            self.sent,
            self.lost,
            self.sum,
            self.least,
            self.most,
            self.acceptable,
            self.unacceptable,
            self.undecided_composite,
        ]
    }
}

/// The report of the period from `from` to before `to`; `known` are all the known intervals, from 0 on.
pub fn report_of(s: &LabelSettings, known: &[Interval], from: usize, to: usize) -> Report {
    let (loss, composite) = both_tracks(s, known);
    counted(s, known, &loss, &composite, from, to)
}

/// The same report with the undecided intervals of the period, on both tracks, all taken as `label`.
pub fn report_taking(s: &LabelSettings, known: &[Interval], from: usize, to: usize, label: Label) -> Report {
    let (mut loss, mut composite) = both_tracks(s, known);
    take_undecided(&mut loss[from..to], label);
    take_undecided(&mut composite[from..to], label);
    counted(s, known, &loss, &composite, from, to)
}

fn take_undecided(labels: &mut [Label], label: Label) {
    for l in labels {
        if *l == Label::Undecided {
            *l = label;
        }
    }
}

/// The report of the period by these labels of the known intervals. No figure goes by both tracks.
fn counted(s: &LabelSettings, known: &[Interval], loss: &[Label], composite: &[Label], from: usize, to: usize) -> Report {
    let mut r = Report { length: (to - from) as u64, ..Report::default() };
    let mut delivering: Vec<&Interval> = Vec::new();
    let mut high = Vec::new();
    for k in from..to {
        let i = &known[k];
        high.push(loss[k] == Label::Available && !i.maintenance && high_loss(s, i));
        if i.maintenance {
            r.maintenance += 1;
            continue;
        }
        match loss[k] {
            Label::Available => {
                r.available += 1;
                r.sent += i.sent;
                r.lost += i.lost;
                r.sum += i.sum;
                if i.delivered() > 0 {
                    delivering.push(i);
                }
            }
            Label::Unavailable => r.unavailable += 1,
            Label::Undecided => r.undecided += 1,
        }
        match composite[k] {
            Label::Available => r.acceptable += 1,
            Label::Unavailable => r.unacceptable += 1,
            Label::Undecided => r.undecided_composite += 1,
        }
    }
    r.least = delivering.iter().map(|i| i.least).min().unwrap_or(0);
    r.most = delivering.iter().map(|i| i.most).max().unwrap_or(0);
    r.high = high.iter().filter(|&&h| h).count() as u64;
    if s.p > 0 {
        r.runs = high.split(|&h| !h).filter(|stretch| stretch.len() as u64 >= s.p).count() as u64;
    }
    r
}

/// All that three good summaries know, with the begin and the end of the middle one in it.
pub fn period_of_three(three: &[&Summary]) -> (Vec<Interval>, usize, usize) {
    let mut known = Vec::new();
    for summary in three {
        known.extend(&summary.intervals);
    }
    let from = three[0].intervals.len();
    (known, from, from + three[1].intervals.len())
}

/// The report of the middle one of three good summaries.
pub fn report_of_three(three: &[&Summary]) -> Report {
    let (known, from, to) = period_of_three(three);
    report_of(&three[0].settings, &known, from, to)
}

pub fn report(length: usize, records: &[Option<Summary>], room_words: usize) -> Answer<Report> {
    if length != 3 * SUMMARY_BYTES {
        return refuse(LENGTH, 0);
    }
    room_for_words(room_words, 15)?;
    let three = all_valid(records, 0)?;
    equal_settings(&three, 0)?;
    from_zero(&three, 0)?;
    Ok(report_of_three(&three))
}
