//! `mip_interval`.
use crate::inputs::*;
use crate::library::*;
use crate::random::Random;
use second::records::*;

/// All frames delivered, with delays as far apart as can be, in turn.
fn farthest(frames: &mut [u8]) {
    for (k, frame) in frames.chunks_mut(16).enumerate() {
        put(frame, 8, k as u64 % 2 * LARGEST_DELAY);
        frame[12] = 0;
    }
}

pub fn case(r: &mut Random, index: u64) -> Result<(), String> {
    let mut valid = valid_settings(r);
    match index {
        // delays that are as far apart as can be differ by more than Jt, and do not
        14 => put(&mut valid, 20, LARGEST_DELAY - 1),
        15 => put(&mut valid, 20, LARGEST_DELAY),
        _ => (),
    }
    let label = read_settings(&valid).unwrap().label;
    let number = match r.below(8) {
        0 => r.pick(&[0, INTERVALS - 1]),
        1 => r.below(INTERVALS),
        _ => r.below(50),
    };
    let count = match index {
        10 => FRAMES as usize - 1,
        11 => FRAMES as usize,
        12 => FRAMES as usize + 1,
        13 => 5_000,
        14 | 15 => FRAMES as usize,
        _ if r.one_in(10) => r.from_to(FRAMES - 6, FRAMES + 7) as usize,
        _ => some_count(r, 600),
    };
    let mut frames = valid_frames(r, &label, number, count);
    if let 14 | 15 = index {
        farthest(&mut frames);
    }
    let mut s = valid;
    let mut asked = number;
    let mut maintenance = r.below(2);
    for _ in 0..faults(r, index) {
        match r.below(10) {
            0 => {
                let damage = r.pick(&settings_damages());
                if s.len() == 64 {
                    damage(r, &mut s);
                }
            }
            1 => {
                asked = r.pick(&[
                    INTERVALS,
                    INTERVALS - 1,
                    INTERVALS + 1,
                    u64::MAX,
                    1 << 32,
                    (1 << 32) + number,
                    1 << 63,
                    number + 1,
                ])
            }
            2 => maintenance = r.pick(&[2, 3, 256, 1 << 32, (1 << 32) + 1, u64::MAX]),
            _ => damage_frames(r, &label, number, &mut frames),
        }
    }
    let (length, at) = if large(index) { (48, 0) } else { room(r, 48) };
    let mut out = lent_bytes(r, length);
    let (s_was, frames_was) = (s.clone(), frames.clone());
    let got = interval(&s, &frames, asked, maintenance, out.part(), at);
    let expected = second::frames::interval(&s, &frames, asked, maintenance, length, at);
    let same = same_word(got, &expected).and_then(|_| out.as_answered("out", at, &expected));
    let kept = s == s_was && frames == frames_was;
    same.and(if kept { Ok(()) } else { Err("an input was changed".to_string()) }).map_err(|fault| {
        format!("{fault}\nsettings {}\nframes {}\nnumber {asked} maintenance {maintenance} room {length} at {at}", hex(&s), hex(&frames))
    })
}
