//! Percentile delay and range of a list of delays, by sorting it.

use crate::records::{read_settings, LARGEST_DELAY, MILLION};
use crate::refusals::{refuse, room_for_words, Answer, FIELD, FULL, SETTINGS};

#[derive(Clone, Copy, Debug, PartialEq, Eq)]
pub struct Delays {
    pub percentile: u64,
    pub range: u64,
    pub percentile_met: bool,
    pub range_met: bool,
}

impl Delays {
    pub fn words(&self) -> [u64; 4] {
        [self.percentile, self.range, self.percentile_met as u64, self.range_met as u64]
    }
}

pub fn delays(settings: &[u8], list: &[u32], room_words: usize) -> Answer<Delays> {
    let Some(s) = read_settings(settings) else {
        return refuse(SETTINGS, 0);
    };
    room_for_words(room_words, 4)?;
    if list.len() as u64 > 1_000_000 {
        return refuse(FULL, 0);
    }
    if let Some(place) = list.iter().position(|&d| d as u64 > LARGEST_DELAY) {
        return refuse(FIELD, place);
    }
    let mut sorted: Vec<u64> = list.iter().map(|&d| d as u64).collect();
    sorted.sort();
    // Let k be the first place with enough delays up to and with it. At or below its delay are k + 1 delays or more, which is enough; at
    // or below a lesser listed delay are at most k, which is not.
    let needed = s.percentile as u128 * sorted.len() as u128;
    let found = (0..sorted.len()).find(|&k| needed <= MILLION as u128 * (k as u128 + 1));
    let percentile = found.map_or(0, |k| sorted[k]);
    let range = percentile - sorted.first().copied().unwrap_or(0);
    Ok(Delays {
        percentile,
        range,
        percentile_met: percentile <= s.most_delay,
        range_met: range <= s.most_range,
    })
}
