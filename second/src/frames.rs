//! From the frames of one interval to its record.

use crate::records::{read_frame, read_settings, Frame, Interval, FRAMES, INTERVALS, MILLION};
use crate::refusals::{refuse, room, whole, Answer, FIELD, FULL, ORDER, OUTSIDE, SETTINGS};

/// The 48 bytes of the record.
pub fn interval(
    settings: &[u8],
    frames: &[u8],
    number: u64,
    maintenance: u64,
    room_length: usize,
    at: usize,
) -> Answer<Vec<u8>> {
    let Some(s) = read_settings(settings) else {
        return refuse(SETTINGS, 0);
    };
    let records = whole(frames, 16)?;
    room(room_length, at, 48)?;
    if records.len() as u64 > FRAMES {
        return refuse(FULL, 0);
    }
    if number >= INTERVALS || maintenance > 1 {
        return refuse(FIELD, 0);
    }
    let length = s.label.length as u128 * MILLION as u128;
    let begin = number as u128 * length;
    let end = (number as u128 + 1) * length;
    let mut read: Vec<Frame> = Vec::new();
    for (place, record) in records.iter().enumerate() {
        let Some(frame) = read_frame(record) else {
            return refuse(FIELD, place);
        };
        let time = frame.time as u128;
        if time < begin || end <= time {
            return refuse(OUTSIDE, place);
        }
        if place > 0 && frame.time <= read[place - 1].time {
            return refuse(ORDER, place);
        }
        read.push(frame);
    }
    let delivered: Vec<u64> = read.iter().filter(|f| !f.lost).map(|f| f.delay).collect();
    let pairs: Vec<&[Frame]> = read.windows(2).filter(|w| !w[0].lost && !w[1].lost).collect();
    let made = Interval {
        number,
        sent: read.len() as u64,
        lost: read.iter().filter(|f| f.lost).count() as u64,
        late: delivered.iter().filter(|&&d| d > s.label.dl).count() as u64,
        pairs: pairs.len() as u64,
        jumpy: pairs.iter().filter(|w| w[0].delay.abs_diff(w[1].delay) > s.label.jt).count() as u64,
        sum: delivered.iter().sum(),
        least: delivered.iter().copied().min().unwrap_or(0),
        most: delivered.iter().copied().max().unwrap_or(0),
        maintenance: maintenance == 1,
    };
    Ok(made.write())
}
