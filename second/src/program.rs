//! What the program prints for the content of its two files, each None where it cannot be read.

use crate::labels::read_stretch;
use crate::records::read_settings;
use crate::refusals::{refuse, whole, Answer, SETTINGS};
use crate::reports::report_of;
use crate::verdicts::judge;

fn answer(settings: &[u8], intervals: &[u8]) -> Answer<String> {
    let Some(s) = read_settings(settings) else {
        return refuse(SETTINGS, 0);
    };
    let stretch = read_stretch(&whole(intervals, 48)?, 0)?;
    let r = report_of(&s.label, &stretch, 0, stretch.len());
    let v = judge(&s, &stretch, 0, stretch.len());
    let mut lines = vec![
        format!("length {} maintenance {}", r.length, r.maintenance),
        format!("available {} unavailable {} undecided {}", r.available, r.unavailable, r.undecided),
        format!("high {} runs {}", r.high, r.runs),
        format!("sent {} lost {}", r.sent, r.lost),
        format!("delay {} {} {}", r.sum, r.least, r.most),
        format!("composite {} {} {}", r.acceptable, r.unacceptable, r.undecided_composite),
    ];
    for (k, name) in ["availability", "composite", "loss", "mean", "high", "runs"].iter().enumerate() {
        lines.push(format!("{} {}", name, v[k].text()));
    }
    Ok(lines.join("\n") + "\n")
}

pub fn evaluate(settings: Option<Vec<u8>>, intervals: Option<Vec<u8>>) -> String {
    let Some(settings) = settings else {
        return "no file settings.rec\n".to_string();
    };
    let Some(intervals) = intervals else {
        return "no file intervals.rec\n".to_string();
    };
    match answer(&settings, &intervals) {
        Ok(text) => text,
        Err(refusal) => format!("refused {} {}\n", refusal.number, refusal.place),
    }
}
