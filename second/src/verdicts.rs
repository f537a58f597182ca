//! Verdicts: reports against the objectives of the settings, for a set of ordered pairs.

use crate::labels::Label;
use crate::records::{read_settings, Interval, Settings, MILLION};
use crate::refusals::{refuse, room_for_words, Answer, LENGTH, MISMATCH, PAIRS, SETTINGS};
use crate::reports::{period_of_three, report_taking, Report};
use crate::summaries::{all_valid, equal_settings, from_zero, Summary, SUMMARY_BYTES};

#[derive(Clone, Copy, Debug, PartialEq, Eq)]
pub enum Verdict {
    NotMet,
    Met,
    NotYet,
}

impl Verdict {
    pub fn word(self) -> u64 {
        match self {
            Verdict::NotMet => 0,
            Verdict::Met => 1,
            Verdict::NotYet => 2,
        }
    }

    pub fn text(self) -> &'static str {
        match self {
            Verdict::NotMet => "not met",
            Verdict::Met => "met",
            Verdict::NotYet => "not yet",
        }
    }
}

fn product(a: u64, b: u64) -> u128 {
    a as u128 * b as u128
}

/// Whether a report without undecided intervals meets the objectives: availability, composite, loss, mean delay, high loss intervals,
/// runs.
pub fn met(s: &Settings, r: &Report) -> [bool; 6] {
    [
        product(r.available, MILLION) >= product(s.least_availability, r.available + r.unavailable),
        product(r.acceptable, MILLION) >= product(s.least_composite, r.acceptable + r.unacceptable),
        product(r.lost, MILLION) <= product(s.most_loss, r.sent),
        r.sum as u128 <= product(s.most_mean, r.sent - r.lost),
        r.high <= s.most_high,
        r.runs <= s.most_runs,
    ]
}

fn verdict(met_when_available: bool, met_when_unavailable: bool) -> Verdict {
    match (met_when_available, met_when_unavailable) {
        (true, true) => Verdict::Met,
        (false, false) => Verdict::NotMet,
        _ => Verdict::NotYet,
    }
}

/// The verdicts of one pair on the period from `from` to before `to`, in the order of `met`: the report is made twice, with the
/// undecided intervals of the period all available and with them all unavailable, and each is asked.
pub fn judge(s: &Settings, known: &[Interval], from: usize, to: usize) -> [Verdict; 6] {
    let available = met(s, &report_taking(&s.label, known, from, to, Label::Available));
    let unavailable = met(s, &report_taking(&s.label, known, from, to, Label::Unavailable));
    std::array::from_fn(|k| verdict(available[k], unavailable[k]))
}

pub fn verdicts(
    settings: &[u8],
    pairs: u64,
    length: usize,
    records: &[Option<Summary>],
    room_words: usize,
) -> Answer<[Verdict; 6]> {
    let Some(s) = read_settings(settings) else {
        return refuse(SETTINGS, 0);
    };
    if pairs < 1 || pairs > 64 {
        return refuse(PAIRS, 0);
    }
    let pairs = pairs as usize;
    if length != pairs * 3 * SUMMARY_BYTES {
        return refuse(LENGTH, 0);
    }
    room_for_words(room_words, 6)?;
    let mut judged = Vec::new();
    for pair in 0..pairs {
        let place = 3 * pair;
        let three = all_valid(&records[place..place + 3], place)?;
        if three[0].settings != s.label {
            return refuse(MISMATCH, place);
        }
        equal_settings(&three, place)?;
        from_zero(&three, place)?;
        let (known, from, to) = period_of_three(&three);
        judged.push(judge(&s, &known, from, to));
    }
    let mut set = [Verdict::Met; 6];
    for objective in 0..6 {
        let any = |v: Verdict| judged.iter().any(|j| j[objective] == v);
        if any(Verdict::NotMet) {
            set[objective] = Verdict::NotMet;
        } else if any(Verdict::NotYet) {
            set[objective] = Verdict::NotYet;
        }
    }
    Ok(set)
}
