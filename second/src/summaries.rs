//! Summaries of stretches, held as what made them, and their join.

use crate::labels::read_stretch;
use crate::records::{read_settings, Interval, LabelSettings, INTERVALS};
use crate::refusals::{refuse, room, whole, Answer, FIELD, LENGTH, MISMATCH, ORDER, SETTINGS};

#[derive(Clone, Debug, PartialEq, Eq)]
pub struct Summary {
    pub settings: LabelSettings,
    pub first: u64,
    pub intervals: Vec<Interval>,
}

impl Summary {
    /// The number after the last.
    pub fn after(&self) -> u64 {
        self.first + self.intervals.len() as u64
    }
}

pub const SUMMARY_BYTES: usize = 1_024;

pub fn summary(
    settings: &[u8],
    first: u64,
    intervals: &[u8],
    room_length: usize,
    at: usize,
) -> Answer<Summary> {
    let Some(s) = read_settings(settings) else {
        return refuse(SETTINGS, 0);
    };
    let records = whole(intervals, 48)?;
    room(room_length, at, SUMMARY_BYTES)?;
    if first > INTERVALS {
        return refuse(FIELD, 0);
    }
    let intervals = read_stretch(&records, first)?;
    Ok(Summary { settings: s.label, first, intervals })
}

/// The summaries, or FIELD at the first record that breaks its rules.
pub fn all_valid(records: &[Option<Summary>], first_place: usize) -> Answer<Vec<&Summary>> {
    let mut summaries = Vec::new();
    for (k, record) in records.iter().enumerate() {
        let Some(summary) = record else {
            return refuse(FIELD, first_place + k);
        };
        summaries.push(summary);
    }
    Ok(summaries)
}

/// MISMATCH at the first summary whose label settings are not those of the one before.
pub fn equal_settings(summaries: &[&Summary], first_place: usize) -> Answer<()> {
    for k in 1..summaries.len() {
        if summaries[k].settings != summaries[k - 1].settings {
            return refuse(MISMATCH, first_place + k);
        }
    }
    Ok(())
}

/// ORDER at the first summary that does not begin where the one before ends.
pub fn adjoining(summaries: &[&Summary], first_place: usize) -> Answer<()> {
    for k in 1..summaries.len() {
        if summaries[k].first != summaries[k - 1].after() {
            return refuse(ORDER, first_place + k);
        }
    }
    Ok(())
}

/// ORDER at the first summary where it does not start at 0, then as for adjoining ones.
pub fn from_zero(summaries: &[&Summary], first_place: usize) -> Answer<()> {
    if !summaries.is_empty() && summaries[0].first != 0 {
        return refuse(ORDER, first_place);
    }
    adjoining(summaries, first_place)
}

pub fn join(
    lengths: [usize; 2],
    records: &[Option<Summary>; 2],
    room_length: usize,
    at: usize,
) -> Answer<Summary> {
    if lengths[0] != SUMMARY_BYTES || lengths[1] != SUMMARY_BYTES {
        return refuse(LENGTH, 0);
    }
    room(room_length, at, SUMMARY_BYTES)?;
    let two = all_valid(records, 0)?;
    equal_settings(&two, 0)?;
    adjoining(&two, 0)?;
    let mut intervals = two[0].intervals.clone();
    intervals.extend(&two[1].intervals);
    Ok(Summary { settings: two[0].settings, first: two[0].first, intervals })
}
