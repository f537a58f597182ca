//! A whole circuit of the fullest intervals: as many of them as can be numbered, in each as many frames as there may be, each with the
//! largest delay. No sum of delays is larger, and no product of a mean objective. It takes most of a gigabyte.
use crate::inputs::*;
use crate::random::Random;
use crate::summaries::{answers, joined, model, stretch, taken};
use second::records::*;

/// n = 10, p = 3, all weights. The largest delay is late, which takes the composite indicator just above U.
fn settings(mean: u64) -> Vec<u8> {
    let mut s = vec![0; 64];
    put(&mut s, 0, 1_000);
    s[4..7].copy_from_slice(&[10, 3, 7]);
    put(&mut s, 8, 500_000);
    put(&mut s, 12, 333_333);
    put(&mut s, 16, LARGEST_DELAY - 1);
    put(&mut s, 20, LARGEST_DELAY);
    put(&mut s, 36, mean);
    put(&mut s, 48, 1);
    s
}

pub fn fullest(number: u64) -> Interval {
    Interval {
        number,
        sent: FRAMES,
        lost: 0,
        late: FRAMES,
        pairs: FRAMES - 1,
        jumpy: 0,
        sum: FRAMES * LARGEST_DELAY,
        least: LARGEST_DELAY,
        most: LARGEST_DELAY,
        maintenance: false,
    }
}

const FIGURES: [u64; 15] = [
    3_000_000,                  // length
    0,                          // in maintenance
    3_000_000,                  // available
    0,                          // unavailable
    0,                          // undecided
    0,                          // high loss intervals
    0,                          // runs
    3_072_000_000,              // sent
    0,                          // lost
    12_288_000_000_000_000_000, // sum of the delays
    4_000_000_000,              // least
    4_000_000_000,              // most
    0,                          // acceptable
    3_000_000,                  // unacceptable
    0,                          // undecided
];

/// Summarised in four stretches and joined from either side it has the bytes of the uncut circuit. Its figures are those above, and it meets
/// a mean of the largest delay and none below.
pub fn case(_: &mut Random, _: u64) -> Result<(), String> {
    let s = settings(LARGEST_DELAY);
    past_the_limits(&s)?;
    let intervals: Vec<Interval> = (0..INTERVALS).map(fullest).collect();
    let records = written(&intervals);
    let part =
        |from: u64, to: u64| stretch(&s, from, &records[48 * from as usize..48 * to as usize]);
    let whole = part(0, INTERVALS)?;
    let [a, b, c, d] = [
        part(0, 1)?,
        part(1, 1_000_000)?,
        part(1_000_000, INTERVALS - 1)?,
        part(INTERVALS - 1, INTERVALS)?,
    ];
    let from_left = joined(&joined(&joined(&a, &b)?, &c)?, &d)?;
    let from_right = joined(&a, &joined(&b, &joined(&c, &d)?)?)?;
    if from_left != whole || from_right != whole {
        return Err("joined it has other bytes than uncut".to_string());
    }
    let three = [part(0, 0)?, from_left, part(INTERVALS, INTERVALS)?].concat();
    let models = [
        Some(model(&s, 0, &[])),
        Some(model(&s, 0, &intervals)),
        Some(model(&s, INTERVALS, &[])),
    ];
    for (mean, met) in [(LARGEST_DELAY, 1), (LARGEST_DELAY - 1, 0)] {
        let (figures, six) = answers(&settings(mean), &three, &models)?;
        if figures != FIGURES || six[3] != met {
            return Err(format!("held to a mean of {mean}: {figures:?} {six:?}"));
        }
    }
    Ok(())
}

/// Of the loss track's first run, in the summary of one interval: most at byte 64, least at 68 and sent at 72, at their limits and one past.
fn past_the_limits(s: &[u8]) -> Result<(), String> {
    let spread = Interval {
        sum: 0,
        least: 0,
        ..fullest(0)
    };
    for (interval, at, limit) in [
        (spread, 64, LARGEST_DELAY),
        (fullest(0), 68, LARGEST_DELAY),
        (Interval { most: 0, ..spread }, 72, FRAMES),
    ] {
        let mut bytes = stretch(s, 0, &interval.write())?;
        put(&mut bytes, at, limit);
        let within = taken(&bytes);
        put(&mut bytes, at, limit + 1);
        if !within || taken(&bytes) {
            return Err(format!("a summary's limit at byte {at} is another"));
        }
    }
    Ok(())
}
