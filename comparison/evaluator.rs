//! `mip_start` and `mip_step`.
use crate::counts::{met, met_each};
use crate::inputs::*;
use crate::library::*;
use crate::random::Random;
use second::evaluator::{EVALUATOR_WORDS, Evaluator, step_words};
use second::records::*;
use second::refusals::{Answer, FIELD};

pub fn start_case(r: &mut Random, _: u64) -> Result<(), String> {
    let s = settings(r, 3);
    let room = words_of_room(r, 13);
    let mut words = lent_words(r, room);
    let got = start(&s, words.part());
    let expected = second::evaluator::start(&s, room).map(|e| e.words().to_vec());
    same_word(got, &expected)
        .and_then(|_| words.as_answered("evaluator", 0, &expected))
        .map_err(|fault| format!("{fault}\nsettings {}\nroom {room}", hex(&s)))
}

/// Counts which label the step settled on each track.
fn count_settled(answer: &Answer<Vec<u64>>) {
    if let Ok(four) = answer {
        met_each(&["loss", "composite"], &[four[1], four[3]]);
    }
}

/// One step on these words, both ways; what the words are afterwards.
fn step_both(
    r: &mut Random,
    words: &[u64],
    record: &[u8],
    room: usize,
) -> Result<Vec<u64>, String> {
    let mut evaluator = lent_these(r, words);
    let mut settled = lent_words(r, room);
    let got = step(evaluator.part(), record, settled.part());
    let mut left = words.to_vec();
    let expected = step_words(&mut left, record, room).map(|four| four.to_vec());
    count_settled(&expected);
    if expected.as_ref().is_err_and(|r| r.number == FIELD) && Evaluator::of_words(words).is_none() {
        met("evaluator refused", FIELD as u64);
    }
    same_word(got, &expected)
        .and_then(|_| settled.as_answered("settled", 0, &expected))
        .and_then(|_| evaluator.holds("evaluator", 0, &left))
        .map_err(|fault| {
            format!(
                "{fault}\nevaluator {words:?}\nrecord {}\nroom {room}",
                hex(record)
            )
        })?;
    Ok(left)
}

/// Words near those of an evaluator that was fed.
fn some_words(r: &mut Random, index: u64) -> Vec<u64> {
    let s = read_settings(&valid_settings(r)).unwrap().label;
    let n = s.n;
    let fed = match index {
        10 => INTERVALS,
        11 => INTERVALS - 1,
        12 => INTERVALS + 1,
        _ if r.one_in(1_000) => r.edgy(0, INTERVALS),
        _ if r.one_in(20) => r.pick(&[INTERVALS + 1, 1 << 32, u64::MAX, 1 << 63]),
        _ => r.below(3 * n + 3),
    };
    let mut words = vec![s.length, n, s.p, s.weights, s.c, s.u, s.dl, s.jt, fed];
    for _ in 0..2 {
        let label = r.below(2);
        let most = if label == 1 {
            fed
        } else {
            fed.saturating_sub(n)
        };
        words.push(label);
        words.push(r.edgy(0, most.min(n - 1)));
    }
    for _ in 0..r.pick(&[0, 0, 0, 1, 1, 2]) {
        let k = r.index(13);
        let near = words[k].wrapping_add(r.pick(&[1, u64::MAX]));
        words[k] = r.pick(&[
            0,
            1,
            2,
            8,
            n - 1,
            n,
            n + 1,
            near,
            (1 << 32) + words[k],
            (1 << 8) + words[k],
            u64::MAX,
        ]);
        if k >= 9 && r.one_in(2) {
            words[k] = r.pick(&[fed, fed.wrapping_sub(n), fed.wrapping_sub(n - 1), n - 1, n]);
        }
    }
    words
}

pub fn step_case(r: &mut Random, index: u64) -> Result<(), String> {
    if index > 20 && r.one_in(3) {
        return feed_case(r);
    }
    let mut words = some_words(r, index);
    let s = read_settings(&valid_settings(r)).unwrap().label;
    let mut i = valid_interval(r, &s);
    i.number = words[8].min(u32::MAX as u64);
    let mut record = i.write();
    if r.one_in(4) {
        damage_interval(r, &mut record);
    }
    if r.one_in(20) {
        record.truncate(r.index(48));
    } else if r.one_in(20) {
        record.push(0);
    }
    match r.below(12) {
        0 => words.truncate(r.index(13)),
        1 => words.push(r.next()),
        _ => (),
    }
    let room = words_of_room(r, 4);
    step_both(r, &words, &record, room).map(|_| ())
}

/// A circuit from its start: each step against the second program's evaluator, which is fed the same records.
fn feed_case(r: &mut Random) -> Result<(), String> {
    let s = valid_settings(r);
    let label = read_settings(&s).unwrap().label;
    let count = 1 + r.index(60 + 3 * label.n as usize);
    let intervals = valid_intervals(r, &label, 0, count);
    let mut words = vec![0; EVALUATOR_WORDS];
    if start(&s, &mut words) != 0 {
        return Err(format!("start refuses\nsettings {}", hex(&s)));
    }
    let mut ours = second::evaluator::start(&s, EVALUATOR_WORDS)
        .map(Some)
        .unwrap();
    let (mut loss, mut composite) = (0, 0);
    for (k, i) in intervals.iter().enumerate() {
        let shown = |fault: String| {
            format!(
                "{fault}\nstep {k} of settings {}\nintervals {}",
                hex(&s),
                hex(&written(&intervals[..=k]))
            )
        };
        let mut record = i.write();
        if r.one_in(30) {
            damage_interval(r, &mut record);
            step_both(r, &words, &record, 4).map_err(shown)?;
        }
        let mut settled = lent_words(r, 4);
        let got = step(&mut words, &i.write(), settled.part());
        let expected = second::evaluator::step(&mut ours, &i.write()).map(|four| four.to_vec());
        count_settled(&expected);
        same_word(got, &expected)
            .and_then(|_| settled.as_answered("settled", 0, &expected))
            .map_err(shown)?;
        let left = ours.as_ref().unwrap().words();
        if words[..] != left[..] {
            return Err(shown(format!("the evaluator is {words:?}, not {left:?}")));
        }
        let four = expected.unwrap();
        loss += four[0];
        composite += four[2];
        let fed = k as u64 + 1;
        if loss + words[10] != fed || composite + words[12] != fed {
            return Err(shown(
                "settled plus undecided is not the number fed".to_string(),
            ));
        }
    }
    Ok(())
}
