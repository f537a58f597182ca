//! Records of former limits: a largest delay of 1,000,000,000 ns, and up to 4,096 frames in an interval. The archive of revision d924379,
//! the last with those limits, wrote the summaries, the report and the verdicts in comparison/former from the settings and intervals there.
//! No field of a summary goes by a limit: one that meets the rules means what it meant.
use crate::fullest::fullest;
use crate::inputs::*;
use crate::library::*;
use crate::random::Random;
use crate::summaries::{SIZE, answers, joined, model, stretch, taken};
use second::records::*;

const SETTINGS: &[u8] = include_bytes!("former/settings.rec");
/// Sixty intervals of at most 1,024 frames, numbered from 0, with delays up to the former largest.
const RECORDS: &[u8] = include_bytes!("former/intervals.rec");
/// Before, period and after, cut at these numbers.
const THREE: &[u8] = include_bytes!("former/three.sum");
const CUTS: [usize; 4] = [0, 13, 59, 60];
/// The three joined.
const JOINED: &[u8] = include_bytes!("former/joined.sum");
/// The fifteen words of the report on the three, and the six of the verdicts.
const ANSWERS: &[u8] = include_bytes!("former/answers.words");
/// The summary of one interval of 1,025 frames.
const CROWDED: &[u8] = include_bytes!("former/crowded.sum");
/// The summary of two intervals in one run, of 1,500 frames and of 500.
const MIXED: &[u8] = include_bytes!("former/mixed.sum");

pub fn case(_: &mut Random, _: u64) -> Result<(), String> {
    let intervals: Vec<Interval> = RECORDS
        .chunks(48)
        .map(|record| read_interval(record).expect("a valid interval"))
        .collect();
    same_bytes_and_answers(&intervals)?;
    beside_the_largest(&intervals)?;
    crowded_refused()?;
    mixed_taken()
}

/// The same intervals give the same summaries, and the kept summaries the same join, report and verdicts.
fn same_bytes_and_answers(intervals: &[Interval]) -> Result<(), String> {
    let summaries: Vec<&[u8]> = THREE.chunks(SIZE).collect();
    let mut models = Vec::new();
    for k in 0..3 {
        let (from, to) = (CUTS[k], CUTS[k + 1]);
        if stretch(SETTINGS, from as u64, &RECORDS[48 * from..48 * to])? != summaries[k] {
            return Err(format!("summary {k} is made with other bytes"));
        }
        models.push(Some(model(SETTINGS, from as u64, &intervals[from..to])));
    }
    let whole = stretch(SETTINGS, 0, RECORDS)?;
    let left = joined(&joined(summaries[0], summaries[1])?, summaries[2])?;
    let right = joined(summaries[0], &joined(summaries[1], summaries[2])?)?;
    if whole != JOINED || left != JOINED || right != JOINED {
        return Err("the whole has other bytes".to_string());
    }
    let (figures, six) = answers(SETTINGS, THREE, &models)?;
    let words = figures.iter().chain(&six).flat_map(|w| w.to_le_bytes());
    if words.collect::<Vec<u8>>() != ANSWERS {
        return Err(format!("the answers are {figures:?} and {six:?}"));
    }
    Ok(())
}

/// Kept summaries go together with new ones of the largest delay, side by side and joined.
fn beside_the_largest(intervals: &[Interval]) -> Result<(), String> {
    let from = intervals.len() as u64;
    let more: Vec<Interval> = (from..from + 40).map(fullest).collect();
    let to = from + more.len() as u64;
    let new = stretch(SETTINGS, from, &written(&more))?;
    let end = stretch(SETTINGS, to, &[])?;
    let models = [
        Some(model(SETTINGS, 0, intervals)),
        Some(model(SETTINGS, from, &more)),
        Some(model(SETTINGS, to, &[])),
    ];
    answers(SETTINGS, &[JOINED, &new, &end].concat(), &models)?;
    let start = stretch(SETTINGS, 0, &[])?;
    let models = [
        Some(model(SETTINGS, 0, &[])),
        Some(model(SETTINGS, 0, &[intervals, &more].concat())),
        Some(model(SETTINGS, to, &[])),
    ];
    let three = [start, joined(JOINED, &new)?, end];
    answers(SETTINGS, &three.concat(), &models)?;
    Ok(())
}

/// More frames than an interval may have are refused at their place, for no other reason, and nothing is written.
fn crowded_refused() -> Result<(), String> {
    let (start, end) = (stretch(SETTINGS, 0, &[])?, stretch(SETTINGS, 1, &[])?);
    let three = [&start[..], CROWDED, &end].concat();
    let (mut out, mut words) = ([7; SIZE], [7; 15]);
    let told = [
        join(CROWDED, &end, &mut out, 0),
        join(&start, CROWDED, &mut out, 0),
        report(&three, &mut words),
        verdicts(SETTINGS, 1, &three, &mut words),
    ];
    if told != [0, 1, 1, 1].map(|place| (5 << 32) + place) || out != [7; SIZE] || words != [7; 15] {
        return Err(format!("1,025 frames: {told:x?}"));
    }
    // the number sent, on each track
    let mut fewer = CROWDED.to_vec();
    put(&mut fewer, 72, FRAMES);
    put(&mut fewer, 288, FRAMES);
    if taken(CROWDED) || !taken(&fewer) {
        return Err("not the frames alone decide".to_string());
    }
    Ok(())
}

/// A run that has no more frames than its intervals may have is taken as a whole.
fn mixed_taken() -> Result<(), String> {
    let of = |number: u64, sent: u64, delay: u64| Interval {
        number,
        sent,
        lost: 0,
        late: 0,
        pairs: 0,
        jumpy: 0,
        sum: sent * delay,
        least: delay,
        most: delay,
        maintenance: false,
    };
    let three = [
        stretch(SETTINGS, 0, &[])?,
        MIXED.to_vec(),
        stretch(SETTINGS, 2, &[])?,
    ];
    let models = [
        Some(model(SETTINGS, 0, &[])),
        Some(model(
            SETTINGS,
            0,
            &[of(0, 1_500, 1_000), of(1, 500, 2_000)],
        )),
        Some(model(SETTINGS, 2, &[])),
    ];
    answers(SETTINGS, &three.concat(), &models)?;
    Ok(())
}
