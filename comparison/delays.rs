//! `mip_delays`.
use crate::counts::met_each;
use crate::inputs::*;
use crate::library::*;
use crate::random::Random;
use second::records::LARGEST_DELAY;

fn list(r: &mut Random, index: u64) -> Vec<u32> {
    if !large(index) && r.one_in(20) {
        // too many, whatever they are
        let delay = r.pick(&[0, LARGEST_DELAY as u32, u32::MAX]);
        return vec![delay; 1_000_001 + r.index(3)];
    }
    let count = match index {
        // both sides of FULL, and the largest list
        10 => 1_000_000,
        11 => 1_000_001,
        12 => 999_999,
        13 => 1_000_000,
        _ if r.one_in(2_000) => r.index(1_000_002),
        _ if r.one_in(100) => r.index(100_000),
        _ if r.one_in(10) => r.index(5_000),
        _ => some_count(r, 400),
    };
    let spread = r.pick(&[1, 2, 16, 1_000, 300_000, LARGEST_DELAY + 1]);
    let base = r.below(LARGEST_DELAY + 2 - spread);
    let mut list: Vec<u32> = (0..count)
        .map(|_| (base + r.below(spread)) as u32)
        .collect();
    match r.below(6) {
        0 => list.sort(),
        1 => {
            list.sort();
            list.reverse();
        }
        2 if count > 0 => {
            let far = r.index(count);
            list[far] = r.pick(&[0, LARGEST_DELAY as u32]);
        }
        _ => (),
    }
    if count > 0 && !large(index) && r.one_in(4) {
        for _ in 0..1 + r.below(3) {
            let any = r.index(count);
            let place = r.pick(&[0, count - 1, any]);
            list[place] = r.pick(&[LARGEST_DELAY as u32, LARGEST_DELAY as u32 + 1, u32::MAX]);
        }
    }
    list
}

pub fn case(r: &mut Random, index: u64) -> Result<(), String> {
    let mut s = if large(index) {
        valid_settings(r)
    } else {
        settings(r, 8)
    };
    let list = list(r, index);
    if s.len() >= 60 && r.one_in(2) {
        // objectives at the edge of what is found
        put(&mut s, 52, LARGEST_DELAY);
        if let Ok(found) = second::delays::delays(&s, &list, 4) {
            put(
                &mut s,
                52,
                (found.percentile + r.below(3))
                    .saturating_sub(1)
                    .min(LARGEST_DELAY),
            );
            put(
                &mut s,
                56,
                (found.range + r.below(3))
                    .saturating_sub(1)
                    .min(LARGEST_DELAY),
            );
        }
    }
    let room = if large(index) { 4 } else { words_of_room(r, 4) };
    let mut answers = lent_words(r, room);
    let (s_was, list_was) = (s.clone(), list.clone());
    let got = delays(&s, &list, answers.part());
    let expected = second::delays::delays(&s, &list, room).map(|d| d.words().to_vec());
    if let Ok(four) = &expected {
        met_each(&["percentile", "range"], &four[2..]);
    }
    let same = same_word(got, &expected).and_then(|_| answers.as_answered("answers", 0, &expected));
    let kept = s == s_was && list == list_was;
    same.and(if kept {
        Ok(())
    } else {
        Err("an input was changed".to_string())
    })
    .map_err(|fault| {
        format!(
            "{fault}\nsettings {}\n{} delays {:?}\nroom {room}",
            hex(&s),
            list.len(),
            &list[..list.len().min(500)]
        )
    })
}
