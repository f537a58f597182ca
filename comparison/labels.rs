//! `mip_labels`.
use crate::counts::met;
use crate::inputs::*;
use crate::library::*;
use crate::random::Random;
use second::records::*;

pub fn case(r: &mut Random, index: u64) -> Result<(), String> {
    let mut s = valid_settings(r);
    let label = read_settings(&s).unwrap().label;
    let count = interval_count(r, index);
    let mut records = written(&valid_intervals(r, &label, 0, count));
    if index == 11 {
        records.extend(beyond_the_last(r, &label));
    }
    for _ in 0..faults(r, index) {
        if r.one_in(10) && s.len() == 64 {
            let damage = r.pick(&settings_damages());
            damage(r, &mut s);
        } else {
            damage_intervals(r, &mut records);
        }
    }
    let size = records.len() / 48 * 2;
    let (length, at) = if large(index) {
        (size, 0)
    } else {
        room(r, size)
    };
    let mut out = lent_bytes(r, length);
    let got = labels(&s, &records, out.part(), at);
    let expected = second::labels::labels(&s, &records, length, at);
    if let Ok(bytes) = &expected {
        for label in 0..3 {
            for (lane, track) in ["loss", "composite"].into_iter().enumerate() {
                if bytes.iter().skip(lane).step_by(2).any(|b| *b == label) {
                    met(track, label as u64);
                }
            }
        }
    }
    same_word(got, &expected)
        .and_then(|_| out.as_answered("out", at, &expected))
        .map_err(|fault| {
            format!(
                "{fault}\nsettings {}\nintervals {}\nroom {length} at {at}",
                hex(&s),
                hex(&records)
            )
        })
}
