//! Tests: both sides of each edge, each numbered refusal at both sides, and small cases in full.

use crate::delays::delays;
use crate::evaluator::{start, step, step_words, Evaluator};
use crate::frames::interval;
use crate::labels::*;
use crate::program::evaluate;
use crate::records::*;
use crate::refusals::*;
use crate::reports::{report, report_of, Report};
use crate::summaries::{join, summary, Summary};
use crate::verdicts::{judge, met, verdicts, Verdict};

fn base() -> Settings {
    Settings {
        label: LabelSettings { length: 1_000, n: 3, p: 2, weights: 1, c: 500_000, u: 500_000, dl: 4_000_000, jt: 2_000_000 },
        least_availability: 500_000,
        least_composite: 500_001,
        most_loss: 0,
        most_mean: 1_000,
        most_high: 0,
        most_runs: 0,
        percentile: 500_000,
        most_delay: 0,
        most_range: 0,
    }
}

fn bytes(s: &Settings) -> Vec<u8> {
    let l = &s.label;
    let mut b = Vec::new();
    b.extend((l.length as u32).to_le_bytes());
    b.extend([l.n as u8, l.p as u8, l.weights as u8, 0]);
    for v in [
        l.c,
        l.u,
        l.dl,
        l.jt,
        s.least_availability,
        s.least_composite,
        s.most_loss,
        s.most_mean,
        s.most_high,
        s.most_runs,
        s.percentile,
        s.most_delay,
        s.most_range,
        0,
    ] {
        b.extend((v as u32).to_le_bytes());
    }
    assert_eq!(b.len(), 64);
    b
}

fn good(s: &Settings) -> bool {
    let read = read_settings(&bytes(s));
    assert!(read.is_none() || read == Some(*s));
    read.is_some()
}

/// An interval for each letter, small ones in maintenance, numbered from `first`. A delay of 5,000,000 is late, one of 1,000 is not.
/// High loss are H, F and B. With weights 1 the composite goes along with the loss; with weights 2 its high ones are H, B, C and G.
/// G has the most frames with the largest delay.
fn stretch(first: u64, text: &str) -> Vec<Interval> {
    let one = |(k, letter): (usize, char)| {
        let (sent, lost, delay) = match letter.to_ascii_uppercase() {
            'H' => (10, 10, 0),
            'L' => (10, 0, 1_000),
            'F' => (10, 6, 1_000),
            'B' => (10, 6, 5_000_000),
            'C' => (10, 0, 5_000_000),
            'E' => (10, 5, 1_000),
            'G' => (1_024, 0, 4_000_000_000),
            'Z' => (0, 0, 0),
            _ => panic!("no such letter"),
        };
        Interval {
            number: first + k as u64,
            sent,
            lost,
            late: if delay > 4_000_000 { sent - lost } else { 0 },
            pairs: 0,
            jumpy: 0,
            sum: delay * (sent - lost),
            least: delay,
            most: delay,
            maintenance: letter.is_ascii_lowercase(),
        }
    };
    text.chars().enumerate().map(one).collect()
}

fn written(intervals: &[Interval]) -> Vec<u8> {
    intervals.iter().flat_map(|i| i.write()).collect()
}

fn made(s: &Settings, first: u64, text: &str) -> Summary {
    summary(&bytes(s), first, &written(&stretch(first, text)), 1_024, 0).unwrap()
}

fn loss_labels(s: &Settings, text: &str) -> String {
    let out = labels(&bytes(s), &written(&stretch(0, text)), 2 * text.len(), 0).unwrap();
    assert_eq!(out.len(), 2 * text.len());
    // Weights 1 and U = C: the tracks are equal.
    out.chunks(2).map(|c| { assert_eq!(c[0], c[1]); c[0].to_string() }).collect()
}

fn whole_period(s: &Settings, text: &str) -> Report {
    report_of(&s.label, &stretch(0, text), 0, text.len())
}

fn refused<T: std::fmt::Debug>(answer: Answer<T>) -> (u32, u64) {
    let refusal = answer.unwrap_err();
    (refusal.number, refusal.place)
}

fn frame(time: u64, delay: u64, state: u8) -> Vec<u8> {
    let mut b = time.to_le_bytes().to_vec();
    b.extend((delay as u32).to_le_bytes());
    b.extend([state, 0, 0, 0]);
    b
}

fn bits(length: usize) -> impl Iterator<Item = Vec<bool>> {
    (0..1_u32 << length).map(move |m| (0..length).map(|k| m >> k & 1 == 1).collect())
}

// The section of edges, line by line.

#[test]
fn label_lines() {
    let s = base();
    assert_eq!(loss_labels(&s, "HHHLLL"), "000111");
    assert_eq!(loss_labels(&s, "HHHLLH"), "000000");
    assert_eq!(loss_labels(&s, "HHHLL"), "00022");
    assert_eq!(loss_labels(&s, "HH"), "22");
    assert_eq!(loss_labels(&s, "LHHL"), "1111");
    assert_eq!(loss_labels(&s, ""), "");
    let r = whole_period(&s, "LHHL");
    assert_eq!((r.high, r.runs), (2, 1));
    let mut one = s;
    one.label.n = 1;
    one.label.p = 0;
    assert_eq!(loss_labels(&one, "HLH"), "010");
}

#[test]
fn maintenance_line() {
    let r = whole_period(&base(), "LhHL");
    assert_eq!((r.available, r.maintenance, r.high, r.runs), (3, 1, 1, 0));
    assert_eq!((r.length, r.sent, r.lost, r.acceptable), (4, 30, 10, 3));
}

#[test]
fn joined_line() {
    let s = base();
    let joined = join([1_024; 2], &[Some(made(&s, 0, "HH")), Some(made(&s, 2, "H"))], 1_024, 0).unwrap();
    assert_eq!(joined, made(&s, 0, "HHH"));
    let r = report(3_072, &[Some(made(&s, 0, "")), Some(joined), Some(made(&s, 3, ""))], 15).unwrap();
    assert_eq!((r.unavailable, r.length), (3, 3));
    let r = report(3_072, &[Some(made(&s, 0, "H")), Some(made(&s, 1, "H")), Some(made(&s, 2, "H"))], 15).unwrap();
    assert_eq!((r.unavailable, r.length), (1, 1));
}

#[test]
fn loss_line() {
    let s = base().label;
    let mut i = stretch(0, "H")[0];
    i.lost = 5;
    assert!(!high_loss(&s, &i));
    i.lost = 6;
    assert!(high_loss(&s, &i));
    i.lost = 0;
    i.sent = 0;
    assert!(!high_loss(&s, &i));
    assert!(!high_composite(&s, &i));
}

#[test]
fn composite_line() {
    let mut s = base();
    s.label.weights = 7;
    let ms = 1_000_000;
    let frames = [frame(0, ms, 0), frame(1, 5 * ms, 0), frame(2, 0, 1), frame(3, ms, 0)].concat();
    let out = interval(&bytes(&s), &frames, 0, 0, 48, 0).unwrap();
    let i = read_interval(&out).unwrap();
    assert_eq!((i.sent, i.lost, i.late, i.pairs, i.jumpy), (4, 1, 1, 1, 1));
    assert_eq!((i.sum, i.least, i.most, i.maintenance), (7 * ms, ms, 5 * ms, false));
    let d = composite_indicator(&s.label, &i);
    assert_eq!((d.0, d.1), (3, 8));
    s.label.u = 374_999;
    assert!(high_composite(&s.label, &i));
    s.label.u = 375_000;
    assert!(!high_composite(&s.label, &i));
    // At DL, not late, and at Jt, not jumpy.
    s.label.dl = 5 * ms;
    s.label.jt = 4 * ms;
    let i = read_interval(&interval(&bytes(&s), &frames, 0, 1, 48, 0).unwrap()).unwrap();
    assert_eq!((i.late, i.pairs, i.jumpy, i.maintenance), (0, 1, 0, true));
}

#[test]
fn no_pair_line() {
    let mut s = base();
    s.label.weights = 4;
    let i = read_interval(&interval(&bytes(&s), &frame(0, 7, 0), 0, 0, 48, 0).unwrap()).unwrap();
    let d = composite_indicator(&s.label, &i);
    assert_eq!((d.0, d.1), (1, 1));
    s.label.u = 999_999;
    assert!(high_composite(&s.label, &i));
    // Without loss weight and with nothing delivered D is 1, with the loss weight it is the quotient.
    let lost = stretch(0, "H")[0];
    for (weights, expected) in [(1, (10, 10)), (2, (1, 1)), (3, (10, 10)), (4, (1, 1)), (6, (1, 1)), (7, (10, 10))] {
        s.label.weights = weights;
        let d = composite_indicator(&s.label, &lost);
        assert_eq!((d.0, d.1), expected);
    }
    // Delay and variation, no pair: the quotient.
    s.label.weights = 6;
    let d = composite_indicator(&s.label, &i);
    assert_eq!((d.0, d.1), (0, 1));
}

#[test]
fn percentile_line() {
    let mut s = base();
    let list = [40, 10, 30, 20];
    for (pr, percentile) in [(500_000, 20), (500_001, 30), (1_000_000, 40), (1, 10), (250_000, 10), (250_001, 20)] {
        s.percentile = pr;
        let d = delays(&bytes(&s), &list, 4).unwrap();
        assert_eq!((d.percentile, d.range), (percentile, percentile - 10));
    }
    s.percentile = 1_000_000;
    s.most_delay = 40;
    s.most_range = 30;
    assert_eq!(delays(&bytes(&s), &list, 4).unwrap().words(), [40, 30, 1, 1]);
    s.most_delay = 39;
    assert_eq!(delays(&bytes(&s), &list, 4).unwrap().words(), [40, 30, 0, 1]);
    s.most_range = 29;
    assert_eq!(delays(&bytes(&s), &list, 4).unwrap().words(), [40, 30, 0, 0]);
    assert_eq!(delays(&bytes(&s), &[], 4).unwrap().words(), [0, 0, 1, 1]);
    s.most_delay = 0;
    assert_eq!(delays(&bytes(&s), &[], 4).unwrap().words(), [0, 0, 1, 1]);
}

#[test]
fn percentile_as_it_is_worded() {
    let mut s = base();
    let mut seed = 1_u64;
    for _ in 0..2_000 {
        let mut next = |m: u64| {
            seed = seed.wrapping_mul(6_364_136_223_846_793_005).wrapping_add(1_442_695_040_888_963_407);
            (seed >> 33) % m
        };
        let list: Vec<u32> = (0..next(7) + 1).map(|_| next(4) as u32).collect();
        s.percentile = 1 + next(1_000_000);
        let enough = |d: u32| {
            let below = list.iter().filter(|&&e| e <= d).count() as u64;
            s.percentile * list.len() as u64 <= MILLION * below
        };
        let least = list.iter().copied().filter(|&d| enough(d)).min().unwrap();
        let d = delays(&bytes(&s), &list, 4).unwrap();
        assert_eq!((d.percentile, d.range), (least as u64, (least - list.iter().min().unwrap()) as u64));
    }
}

#[test]
fn fifteen_of_seventeen_line() {
    let mut s = base();
    let r = Report { length: 17, available: 15, unavailable: 2, acceptable: 15, unacceptable: 2, ..Report::default() };
    s.least_availability = 882_352;
    s.least_composite = 882_352;
    assert_eq!(met(&s, &r)[..2], [true, true]);
    s.least_availability = 882_353;
    assert_eq!(met(&s, &r)[..2], [false, true]);
    s.least_composite = 882_353;
    assert_eq!(met(&s, &r)[..2], [false, false]);
}

// The program.

#[test]
fn program() {
    let s = base();
    let text = evaluate(Some(bytes(&s)), Some(written(&stretch(0, "HHHLLL"))));
    let expected = "length 6 maintenance 0
available 3 unavailable 3 undecided 0
high 0 runs 0
sent 30 lost 0
delay 30000 1000 1000
composite 3 3 0
availability met
composite not met
loss met
mean met
high met
runs met
";
    assert_eq!(text, expected);
    assert_eq!(evaluate(None, None), "no file settings.rec\n");
    assert_eq!(evaluate(Some(vec![]), None), "no file intervals.rec\n");
    assert_eq!(evaluate(Some(vec![]), Some(vec![1])), "refused 1 0\n");
    assert_eq!(evaluate(Some(bytes(&s)), Some(vec![1])), "refused 2 0\n");
    let mut file = written(&stretch(0, "HHH"));
    file[48] = 2;
    assert_eq!(evaluate(Some(bytes(&s)), Some(file.clone())), "refused 7 1\n");
    file[47] = 1;
    assert_eq!(evaluate(Some(bytes(&s)), Some(file.clone())), "refused 5 0\n");
    file.pop();
    assert_eq!(evaluate(Some(bytes(&s)), Some(file)), "refused 2 0\n");
    let empty = evaluate(Some(bytes(&s)), Some(vec![]));
    assert!(empty.starts_with("length 0 maintenance 0\navailable 0 unavailable 0 undecided 0\nhigh 0 runs 0\n"));
    assert!(empty.ends_with("availability met\ncomposite met\nloss met\nmean met\nhigh met\nruns met\n"));
    // Both undecided. The mean is met either way: nothing was delivered.
    let text = evaluate(Some(bytes(&s)), Some(written(&stretch(0, "HH"))));
    let expected = "length 2 maintenance 0
available 0 unavailable 0 undecided 2
high 0 runs 0
sent 0 lost 0
delay 0 0 0
composite 0 0 2
availability not yet
composite not yet
loss not yet
mean met
high not yet
runs not yet
";
    assert_eq!(text, expected);
    // The last two undecided, and no verdict that waits for them: availability is 2 of 5 at best.
    let text = evaluate(Some(bytes(&s)), Some(written(&stretch(0, "HHHLL"))));
    let expected = "length 5 maintenance 0
available 0 unavailable 3 undecided 2
high 0 runs 0
sent 0 lost 0
delay 0 0 0
composite 0 3 2
availability not met
composite not met
loss met
mean met
high met
runs met
";
    assert_eq!(text, expected);
}

// Labels in full for small n.

#[test]
fn two_continuations_suffice() {
    for n in 1..=4 {
        for length in 0..=8 {
            for known in bits(length) {
                let labels = settle(n, &known);
                for more in [n - 1, n + 1] {
                    let all: Vec<Vec<bool>> = bits(more)
                        .map(|tail| by_windows(n, &[known.clone(), tail].concat(), length))
                        .collect();
                    for k in 0..length {
                        let expected = if all.iter().all(|l| l[k]) {
                            Label::Available
                        } else if all.iter().all(|l| !l[k]) {
                            Label::Unavailable
                        } else {
                            Label::Undecided
                        };
                        assert_eq!(labels[k], expected);
                    }
                }
            }
        }
    }
}

/// Last settled label and number of undecided ones of the whole sequence.
fn left_in_full(n: usize, marks: &[bool]) -> (u64, u64) {
    let labels = settle(n, marks);
    let undecided = labels.iter().filter(|l| **l == Label::Undecided).count();
    assert!(labels[labels.len() - undecided..].iter().all(|l| *l == Label::Undecided));
    let last = if undecided == labels.len() { 1 } else { labels[labels.len() - undecided - 1].byte() };
    (last as u64, undecided as u64)
}

#[test]
fn evaluator_words_in_full() {
    for n in 1..=5_u64 {
        let mut s = base().label;
        s.n = n;
        s.p = 0;
        for fed in 0..=11_u64 {
            let mut reached = std::collections::BTreeSet::new();
            for marks in bits(fed as usize) {
                let left = left_in_full(n as usize, &marks);
                let words = Evaluator { settings: s, loss: marks.clone(), composite: marks }.words();
                assert_eq!(words, [s.length, n, 0, 1, s.c, s.u, s.dl, s.jt, fed, left.0, left.1, left.0, left.1]);
                reached.insert(left);
            }
            for label in 0..=2 {
                for undecided in 0..=fed + 2 {
                    let track = [label, undecided];
                    let mut words = [s.length, n, 0, 1, s.c, s.u, s.dl, s.jt, fed, track[0], track[1], 1, 0];
                    for swapped in [false, true] {
                        if swapped {
                            words[9..13].rotate_left(2);
                        }
                        let found = Evaluator::of_words(&words);
                        assert_eq!(found.is_some(), reached.contains(&(label, undecided)));
                        if let Some(e) = found {
                            assert_eq!((e.words(), e.loss.len() as u64), (words, fed));
                        }
                    }
                }
            }
        }
    }
}

#[test]
fn steps_in_full() {
    for n in 1..=4_u64 {
        let mut s = base();
        s.label.n = n;
        s.label.p = 0;
        for marks in bits(9) {
            let text: String = marks.iter().map(|&h| if h { 'H' } else { 'L' }).collect();
            let mut evaluator = Some(start(&bytes(&s), 13).unwrap());
            let mut words = [7; 15];
            words[..13].copy_from_slice(&evaluator.clone().unwrap().words());
            let mut settled: Vec<u64> = Vec::new();
            for (k, i) in stretch(0, &text).iter().enumerate() {
                let answer = step(&mut evaluator, &i.write()).unwrap();
                assert_eq!(step_words(&mut words, &i.write(), 4), Ok(answer));
                assert_eq!(words[..13], evaluator.clone().unwrap().words());
                assert_eq!((words[13], words[14]), (7, 7));
                assert_eq!(answer[..2], answer[2..]);
                assert_eq!(answer[0] == 0, answer[1] == 2);
                settled.extend(vec![answer[1]; answer[0] as usize]);
                let full = settle(n as usize, &marks[..k + 1]);
                let known: Vec<u64> = full.iter().map(|l| l.byte() as u64).filter(|&b| b != 2).collect();
                assert_eq!(settled, known);
                assert_eq!(settled.len() as u64 + words[10], words[8]);
            }
        }
    }
}

#[test]
fn evaluator_near_the_ceiling() {
    let s = base().label;
    let words = |fed: u64, a, b, c, d| [s.length, s.n, s.p, s.weights, s.c, s.u, s.dl, s.jt, fed, a, b, c, d];
    let mut full = words(3_000_000, 0, 2, 1, 1);
    assert!(Evaluator::of_words(&full).is_some());
    assert_eq!(refused(step_words(&mut full, &stretch(2_999_999, "H")[0].write(), 4)), (ORDER, 0));
    assert_eq!(refused(step_words(&mut full, &stretch(3_000_000, "H")[0].write(), 4)), (FIELD, 0));
    assert_eq!(full, words(3_000_000, 0, 2, 1, 1));
    assert!(Evaluator::of_words(&words(3_000_001, 0, 2, 1, 1)).is_none());
    assert!(Evaluator::of_words(&words(u64::MAX, 0, 2, 1, 1)).is_none());
    let mut last = words(2_999_999, 0, 2, 1, 2);
    assert_eq!(step_words(&mut last, &stretch(2_999_999, "H")[0].write(), 4), Ok([3, 0, 3, 0]));
    assert_eq!(last, words(3_000_000, 0, 0, 0, 0));
    let mut last = words(2_999_999, 0, 2, 1, 2);
    assert_eq!(step_words(&mut last, &stretch(2_999_999, "L")[0].write(), 4), Ok([3, 1, 3, 1]));
    assert_eq!(last, words(3_000_000, 1, 0, 1, 0));
}

// Records at both sides of their rules.

#[test]
fn settings_rules() {
    let s = base();
    assert!(good(&s));
    type Field = fn(&mut Settings) -> &mut u64;
    let cases: [(Field, &[u64], &[u64]); 17] = [
        (|s| &mut s.label.length, &[100, 60_000], &[99, 60_001, 0]),
        (|s| &mut s.label.n, &[3, 64], &[0, 2, 65]),
        (|s| &mut s.label.p, &[2], &[1, 3]),
        (|s| &mut s.label.weights, &[1, 7], &[0, 8]),
        (|s| &mut s.label.c, &[1, 999_999], &[0, 1_000_000]),
        (|s| &mut s.label.u, &[1, 999_999], &[0, 1_000_000]),
        (|s| &mut s.label.dl, &[0, 1_000_000_001, 4_000_000_000], &[4_000_000_001, 4_294_967_295]),
        (|s| &mut s.label.jt, &[0, 1_000_000_001, 4_000_000_000], &[4_000_000_001, 4_294_967_295]),
        (|s| &mut s.least_availability, &[0, 1_000_000], &[1_000_001]),
        (|s| &mut s.least_composite, &[0, 1_000_000], &[1_000_001]),
        (|s| &mut s.most_loss, &[0, 1_000_000], &[1_000_001]),
        (|s| &mut s.most_mean, &[0, 1_000_000_001, 4_000_000_000], &[4_000_000_001, 4_294_967_295]),
        (|s| &mut s.most_high, &[0, 4_294_967_295], &[]),
        (|s| &mut s.most_runs, &[0, 4_294_967_295], &[]),
        (|s| &mut s.percentile, &[1, 1_000_000], &[0, 1_000_001]),
        (|s| &mut s.most_delay, &[0, 1_000_000_001, 4_000_000_000], &[4_000_000_001, 4_294_967_295]),
        (|s| &mut s.most_range, &[0, 1_000_000_001, 4_000_000_000], &[4_000_000_001, 4_294_967_295]),
    ];
    for (field, yes, no) in cases {
        for (values, expected) in [(yes, true), (no, false)] {
            for &value in values {
                let mut t = s;
                *field(&mut t) = value;
                assert_eq!(good(&t), expected, "{t:?}");
            }
        }
    }
    let mut t = s;
    t.label.p = 0;
    assert!(good(&t));
    t.most_high = 1;
    assert!(good(&t));
    t.most_runs = 1;
    assert!(!good(&t));
    t.most_runs = 0;
    t.label.n = 1;
    assert!(good(&t));
    for at in [7, 60, 61, 62, 63] {
        let mut b = bytes(&s);
        b[at] = 1;
        assert!(read_settings(&b).is_none());
    }
    assert!(read_settings(&bytes(&s)[..63]).is_none());
    assert!(read_settings(&[bytes(&s), vec![0]].concat()).is_none());
}

#[test]
fn frame_rules() {
    for delay in [1_000_000_001, 4_000_000_000] {
        assert_eq!(read_frame(&frame(u64::MAX, delay, 0)), Some(Frame { time: u64::MAX, delay, lost: false }));
    }
    assert_eq!(read_frame(&frame(5, 0, 1)), Some(Frame { time: 5, delay: 0, lost: true }));
    assert!(read_frame(&frame(0, 4_000_000_001, 0)).is_none());
    assert!(read_frame(&frame(0, 4_294_967_295, 0)).is_none());
    assert!(read_frame(&frame(0, 4_000_000_000, 1)).is_none());
    assert!(read_frame(&frame(0, 1, 1)).is_none());
    assert!(read_frame(&frame(0, 0, 2)).is_none());
    for at in 13..16 {
        let mut f = frame(0, 0, 0);
        f[at] = 1;
        assert!(read_frame(&f).is_none());
    }
}

#[test]
fn interval_rules() {
    let i = Interval {
        number: 2_999_999,
        sent: 1_024,
        lost: 1_014,
        late: 10,
        pairs: 9,
        jumpy: 9,
        sum: 50,
        least: 5,
        most: 5,
        maintenance: true,
    };
    let valid = |i: Interval| {
        let read = read_interval(&i.write());
        assert!(read.is_none() || read == Some(i));
        read.is_some()
    };
    assert!(valid(i));
    assert!(!valid(Interval { number: 3_000_000, ..i }));
    for sent in [1_025, 1_026, 2_048, 4_095, 4_096, 4_097, 4_294_967_295] {
        assert!(!valid(Interval { sent, lost: sent - 10, ..i }));
    }
    assert!(!valid(Interval { late: 11, ..i }));
    assert!(!valid(Interval { pairs: 10, ..i }));
    assert!(!valid(Interval { pairs: 8, ..i }));
    assert!(!valid(Interval { sum: 49, ..i }));
    assert!(!valid(Interval { sum: 51, ..i }));
    assert!(valid(Interval { sum: 51, most: 6, ..i }));
    assert!(valid(Interval { sum: 49, least: 4, ..i }));
    assert!(!valid(Interval { least: 6, sum: 60, ..i }));
    assert!(valid(Interval { least: 1_000_000_001, most: 1_000_000_001, sum: 10_000_000_010, ..i }));
    let huge = Interval { least: 4_000_000_000, most: 4_000_000_000, sum: 40_000_000_000, ..i };
    assert!(valid(huge));
    assert!(!valid(Interval { most: 4_000_000_001, ..huge }));
    assert!(!valid(Interval { most: 4_294_967_295, ..huge }));
    assert!(!valid(Interval { least: 4_000_000_001, most: 4_000_000_001, sum: 40_000_000_010, ..huge }));
    assert!(!valid(Interval { sum: u64::MAX, ..huge }));
    // The largest sum.
    let full = Interval { lost: 0, late: 1_024, pairs: 1_023, jumpy: 1_023, sum: 4_096_000_000_000, ..huge };
    assert!(valid(full));
    assert!(!valid(Interval { sum: 4_096_000_000_001, ..full }));
    assert!(!valid(Interval { sum: 4_096_000_000_001, least: 0, ..full }));
    assert!(!valid(Interval { sum: 4_095_999_999_999, ..full }));
    assert!(valid(Interval { sum: 4_095_999_999_999, least: 3_999_999_999, ..full }));
    assert!(!valid(Interval { late: 1_025, ..full }));
    assert!(!valid(Interval { pairs: 1_024, ..full }));
    assert!(!valid(Interval { sent: 1_025, sum: 4_100_000_000_000, ..full }));
    // The same sum within the former limits.
    assert!(!valid(Interval { sent: 4_096, least: 1_000_000_000, most: 1_000_000_000, ..full }));
    let none = Interval { lost: 1_024, late: 0, pairs: 0, jumpy: 0, sum: 0, least: 0, most: 0, ..i };
    assert!(valid(none));
    assert!(!valid(Interval { sent: 1_023, ..none }));
    assert!(!valid(Interval { sent: 1_025, lost: 1_025, ..none }));
    assert!(!valid(Interval { late: 1, ..none }));
    assert!(!valid(Interval { pairs: 1, ..none }));
    assert!(!valid(Interval { most: 1, ..none }));
    assert!(!valid(Interval { sum: 1, ..none }));
    for at in 40..48 {
        let mut b = i.write();
        b[at] = 2;
        assert!(read_interval(&b).is_none());
    }
}

// Refusals, in their order and at both sides.

#[test]
fn interval_refusals() {
    let s = base();
    let b = bytes(&s);
    let sec = 1_000_000_000;
    let ask = |f: &[u8], number, maintenance, room, at| interval(&b, f, number, maintenance, room, at);
    assert_eq!(refused(interval(&b[..63], &[0], 3_000_000, 2, 0, 1)), (SETTINGS, 0));
    assert_eq!(refused(ask(&[0], 3_000_000, 2, 0, 1)), (LENGTH, 0));
    let many: Vec<u8> = (0..1_025).flat_map(|k| frame(k, 0, 1)).collect();
    assert_eq!(refused(ask(&many, 3_000_000, 2, 47, 0)), (ROOM, 0));
    assert_eq!(refused(ask(&many, 3_000_000, 2, 48, 0)), (FULL, 0));
    assert_eq!(refused(ask(&vec![9; 16 * 4_096], 0, 0, 48, 0)), (FULL, 0));
    assert!(ask(&many[16..], 0, 0, 48, 0).is_ok());
    assert_eq!(refused(ask(&[9; 16], 3_000_000, 0, 48, 0)), (FIELD, 0));
    assert_eq!(refused(ask(&frame(0, 0, 0), 0, 2, 48, 0)), (FIELD, 0));
    assert!(ask(&[], 2_999_999, 1, 50, 2).is_ok());
    assert_eq!(refused(ask(&[], 0, 0, 50, 3)), (ROOM, 0));
    assert_eq!(refused(ask(&[], 0, 0, 50, 51)), (ROOM, 0));
    assert_eq!(refused(ask(&[], 0, 0, 50, usize::MAX)), (ROOM, 0));
    let two = |x: Vec<u8>, y: Vec<u8>| ask(&[x, y].concat(), 1, 0, 48, 0);
    assert!(two(frame(sec, 0, 0), frame(2 * sec - 1, 0, 1)).is_ok());
    assert_eq!(refused(two(frame(sec - 1, 0, 0), frame(sec, 0, 2))), (OUTSIDE, 0));
    assert_eq!(refused(two(frame(sec, 0, 0), frame(2 * sec, 0, 0))), (OUTSIDE, 1));
    assert_eq!(refused(two(frame(sec, 0, 0), frame(0, 0, 0))), (OUTSIDE, 1));
    assert_eq!(refused(two(frame(sec, 0, 0), frame(0, 0, 2))), (FIELD, 1));
    assert_eq!(refused(two(frame(sec + 5, 0, 0), frame(sec + 5, 0, 0))), (ORDER, 1));
    assert!(two(frame(sec + 5, 0, 0), frame(sec + 6, 0, 0)).is_ok());
    let last = 3_000_000 * sec - 1;
    assert!(ask(&frame(last, 0, 0), 2_999_999, 0, 48, 0).is_ok());
    assert_eq!(refused(ask(&frame(last + 1, 0, 0), 2_999_999, 0, 48, 0)), (OUTSIDE, 0));
}

#[test]
fn label_refusals() {
    let b = bytes(&base());
    let three = written(&stretch(0, "HLH"));
    assert_eq!(refused(labels(&b[1..], &three[1..], 0, 1)), (SETTINGS, 0));
    assert_eq!(refused(labels(&b, &three[1..], 0, 1)), (LENGTH, 0));
    assert_eq!(refused(labels(&b, &three, 8, 3)), (ROOM, 0));
    assert!(labels(&b, &three, 8, 2).is_ok());
    assert!(labels(&b, &[], 8, 8).is_ok());
    assert_eq!(refused(labels(&b, &[], 8, 9)), (ROOM, 0));
    let mut bad = three.clone();
    bad[96] = 9;
    assert_eq!(refused(labels(&b, &bad, 6, 0)), (ORDER, 2));
    bad[96 + 47] = 9;
    assert_eq!(refused(labels(&b, &bad, 6, 0)), (FIELD, 2));
    bad[48] = 0;
    assert_eq!(refused(labels(&b, &bad, 6, 0)), (ORDER, 1));
    assert_eq!(refused(labels(&b, &written(&stretch(1, "H")), 6, 0)), (ORDER, 0));
}

#[test]
fn evaluator_refusals() {
    let b = bytes(&base());
    assert_eq!(refused(start(&b[1..], 12)), (SETTINGS, 0));
    assert_eq!(refused(start(&b, 12)), (ROOM, 0));
    let mut words = start(&b, 13).unwrap().words();
    assert_eq!(words, [1_000, 3, 2, 1, 500_000, 500_000, 4_000_000, 2_000_000, 0, 1, 0, 1, 0]);
    let record = stretch(0, "H")[0].write();
    let before = words;
    assert_eq!(refused(step_words(&mut words, &record[1..], 3)), (LENGTH, 0));
    assert_eq!(refused(step_words(&mut words[..12], &record, 3)), (LENGTH, 0));
    assert_eq!(refused(step_words(&mut words, &record, 3)), (ROOM, 0));
    assert_eq!(refused(step_words(&mut words, &stretch(1, "H")[0].write(), 4)), (ORDER, 0));
    assert_eq!(refused(step_words(&mut words, &[9; 48], 4)), (FIELD, 0));
    assert_eq!(words, before);
    let delays = [(6, 4_000_000_001), (7, 4_000_000_001), (6, 1 << 32), (7, u64::MAX)];
    let others = [(0, 99), (1, 65), (2, 1), (2, 3), (3, 8), (4, 0), (5, 1_000_000), (9, 2), (9, 0), (10, 1), (11, 0), (12, 1)];
    for &(at, value) in delays.iter().chain(&others) {
        let mut bad = before;
        bad[at] = value;
        let kept = bad;
        assert_eq!(refused(step_words(&mut bad, &stretch(1, "H")[0].write(), 4)), (FIELD, 0), "{at}");
        assert_eq!(bad, kept);
    }
    for (at, value) in [(6, 1_000_000_001), (7, 1_000_000_001), (6, 4_000_000_000), (7, 4_000_000_000)] {
        let mut fine = before;
        fine[at] = value;
        assert_eq!(step_words(&mut fine, &record, 4), Ok([0, 2, 0, 2]));
        assert_eq!(fine[at], value);
    }
    assert_eq!(refused(step(&mut None, &record[1..])), (LENGTH, 0));
    assert_eq!(refused(step(&mut None, &record)), (FIELD, 0));
    assert_eq!(step_words(&mut words, &record, 4), Ok([0, 2, 0, 2]));
    assert_eq!(words[8..], [1, 1, 1, 1, 1]);
    assert_eq!(step_words(&mut words, &stretch(1, "L")[0].write(), 4), Ok([2, 1, 2, 1]));
}

#[test]
fn summary_refusals() {
    let b = bytes(&base());
    let two = written(&stretch(5, "HL"));
    assert_eq!(refused(summary(&b[1..], 3_000_001, &two[1..], 1_023, 0)), (SETTINGS, 0));
    assert_eq!(refused(summary(&b, 3_000_001, &two[1..], 1_023, 0)), (LENGTH, 0));
    assert_eq!(refused(summary(&b, 3_000_001, &two, 1_023, 0)), (ROOM, 0));
    assert_eq!(refused(summary(&b, 3_000_001, &[9; 48], 1_024, 0)), (FIELD, 0));
    assert_eq!(refused(summary(&b, u64::MAX, &[], 1_024, 0)), (FIELD, 0));
    assert_eq!(summary(&b, 3_000_000, &[], 1_024, 0).unwrap().after(), 3_000_000);
    assert_eq!(refused(summary(&b, 4, &two, 1_024, 0)), (ORDER, 0));
    assert_eq!(summary(&b, 5, &two, 1_030, 6).unwrap().after(), 7);
    assert_eq!(refused(summary(&b, 5, &two, 1_030, 7)), (ROOM, 0));
    let last = written(&stretch(2_999_999, "HH"));
    assert_eq!(refused(summary(&b, 2_999_999, &last, 1_024, 0)), (FIELD, 1));
    assert!(summary(&b, 2_999_999, &last[..48], 1_024, 0).is_ok());
}

#[test]
fn join_refusals() {
    let s = base();
    let mut other = s;
    other.label.jt += 1;
    let mut objectives = s;
    objectives.most_high = 9;
    let left = || Some(made(&s, 4, "HL"));
    let ask = |r: [Option<Summary>; 2]| join([1_024; 2], &r, 1_024, 0);
    assert_eq!(refused(join([1_023, 1_024], &[None, None], 0, 0)), (LENGTH, 0));
    assert_eq!(refused(join([1_024, 1_025], &[None, None], 0, 0)), (LENGTH, 0));
    assert_eq!(refused(join([1_024; 2], &[None, None], 1_023, 0)), (ROOM, 0));
    assert_eq!(refused(ask([None, None])), (FIELD, 0));
    assert_eq!(refused(ask([left(), None])), (FIELD, 1));
    assert_eq!(refused(ask([left(), Some(made(&other, 7, "H"))])), (MISMATCH, 1));
    assert_eq!(refused(ask([left(), Some(made(&s, 7, "H"))])), (ORDER, 1));
    assert_eq!(refused(ask([left(), Some(made(&s, 5, "H"))])), (ORDER, 1));
    assert_eq!(ask([left(), Some(made(&objectives, 6, "H"))]), Ok(made(&s, 4, "HLH")));
    assert_eq!(ask([left(), Some(made(&s, 6, ""))]), Ok(made(&s, 4, "HL")));
    assert_eq!(ask([Some(made(&s, 4, "")), left()]), Ok(made(&s, 4, "HL")));
}

#[test]
fn report_refusals() {
    let s = base();
    let mut other = s;
    other.label.length += 1;
    let good = || [Some(made(&s, 0, "H")), Some(made(&s, 1, "L")), Some(made(&s, 2, "H"))];
    let ask = |r: &[Option<Summary>; 3]| report(3_072, r, 15);
    assert!(ask(&good()).is_ok());
    assert_eq!(refused(report(3_071, &good(), 14)), (LENGTH, 0));
    assert_eq!(refused(report(3_072, &[None, None, None], 14)), (ROOM, 0));
    for k in 0..3 {
        let mut r = good();
        r[0] = Some(made(&other, 1, "H"));
        r[k] = None;
        assert_eq!(refused(ask(&r)), (FIELD, k as u64));
    }
    let mut r = good();
    r[0] = Some(made(&s, 1, "H"));
    assert_eq!(refused(ask(&r)), (ORDER, 0));
    r[2] = Some(made(&other, 2, "H"));
    assert_eq!(refused(ask(&r)), (MISMATCH, 2));
    r[1] = Some(made(&other, 2, "H"));
    assert_eq!(refused(ask(&r)), (MISMATCH, 1));
    let mut r = good();
    r[1] = Some(made(&s, 2, "L"));
    assert_eq!(refused(ask(&r)), (ORDER, 1));
    let mut r = good();
    r[2] = Some(made(&s, 3, "L"));
    assert_eq!(refused(ask(&r)), (ORDER, 2));
}

#[test]
fn verdict_refusals() {
    let s = base();
    let b = bytes(&s);
    let mut other = s;
    other.label.c += 1;
    let pair = |s: &Settings| vec![Some(made(s, 0, "")), Some(made(s, 0, "L")), Some(made(s, 1, ""))];
    let many = |count: usize| (0..count).flat_map(|_| pair(&s)).collect::<Vec<_>>();
    assert_eq!(refused(verdicts(&b[1..], 0, 0, &[], 0)), (SETTINGS, 0));
    assert_eq!(refused(verdicts(&b, 0, 0, &[], 0)), (PAIRS, 0));
    assert_eq!(refused(verdicts(&b, 65, 0, &[], 0)), (PAIRS, 0));
    assert_eq!(refused(verdicts(&b, u64::MAX, 0, &[], 0)), (PAIRS, 0));
    assert_eq!(refused(verdicts(&b, 1, 3_073, &many(1), 0)), (LENGTH, 0));
    assert_eq!(refused(verdicts(&b, 1, 3_072, &many(1), 5)), (ROOM, 0));
    assert_eq!(verdicts(&b, 1, 3_072, &many(1), 6), Ok([Verdict::Met; 6]));
    assert_eq!(verdicts(&b, 64, 64 * 3_072, &many(64), 6), Ok([Verdict::Met; 6]));
    let ask = |r: &[Option<Summary>]| verdicts(&b, r.len() as u64 / 3, r.len() * 1_024, r, 6);
    assert_eq!(refused(ask(&pair(&other))), (MISMATCH, 0));
    let mut r = many(3);
    r[7] = None;
    assert_eq!(refused(ask(&r)), (FIELD, 7));
    r[4] = Some(made(&s, 1, "L"));
    assert_eq!(refused(ask(&r)), (ORDER, 4));
    r[3] = Some(made(&s, 1, ""));
    assert_eq!(refused(ask(&r)), (ORDER, 3));
    r[5] = Some(made(&other, 1, ""));
    assert_eq!(refused(ask(&r)), (MISMATCH, 5));
    r[3] = Some(made(&other, 0, ""));
    assert_eq!(refused(ask(&r)), (MISMATCH, 3));
    r[5] = None;
    assert_eq!(refused(ask(&r)), (FIELD, 5));
}

#[test]
fn delay_refusals() {
    let b = bytes(&base());
    let many = vec![4_000_000_001; 1_000_001];
    assert_eq!(refused(delays(&b[1..], &many, 3)), (SETTINGS, 0));
    assert_eq!(refused(delays(&b, &many, 3)), (ROOM, 0));
    assert_eq!(refused(delays(&b, &many, 4)), (FULL, 0));
    assert_eq!(refused(delays(&b, &many[1..], 4)), (FIELD, 0));
    assert_eq!(refused(delays(&b, &[4_000_000_000, 5, 4_000_000_001, 4_000_000_002], 4)), (FIELD, 2));
    assert_eq!(refused(delays(&b, &[1_000_000_001, 4_294_967_295], 4)), (FIELD, 1));
    assert!(delays(&b, &vec![4_000_000_000; 1_000_000], 4).is_ok());
}

// Reports and verdicts.

#[test]
fn labels_of_the_whole_known_sequence() {
    let s = base();
    let three = |a: &str, b: &str, c: &str| {
        let (from, to) = (a.len() as u64, (a.len() + b.len()) as u64);
        report(3_072, &[Some(made(&s, 0, a)), Some(made(&s, from, b)), Some(made(&s, to, c))], 15).unwrap()
    };
    assert_eq!(three("L", "HH", "").undecided, 2);
    assert_eq!(three("L", "HH", "H").unavailable, 2);
    let r = three("H", "HLHH", "L");
    assert_eq!((r.available, r.high, r.runs), (4, 3, 1));
    assert_eq!(three("HHH", "LL", "").undecided, 2);
    assert_eq!(three("HHH", "LL", "H").unavailable, 2);
    assert_eq!(three("HHH", "LL", "L").available, 2);
    assert_eq!(three("HHH", "ll", "").words(), [2, 2, 0, 0, 0, 0, 0, 0, 0, 0, 0, 0, 0, 0, 0]);
    assert_eq!(three("", "", "").words(), [0; 15]);
    // A run of five with n = 6 counts once.
    let mut six = s;
    six.label.n = 6;
    assert_eq!(whole_period(&six, "HHHHHL").runs, 1);
    assert_eq!(whole_period(&six, "HHLHHL").runs, 2);
    six.label.p = 3;
    assert_eq!(whole_period(&six, "HHLHHHL").runs, 1);
    six.label.p = 0;
    assert_eq!(whole_period(&six, "HHLHHHL").runs, 0);
}

#[test]
fn verdict_edges() {
    let mut s = base();
    let r = Report { available: 4, sent: 1_000, lost: 1, sum: 999_000, high: 2, runs: 1, ..Report::default() };
    s.most_loss = 1_000;
    s.most_high = 2;
    s.most_runs = 1;
    assert_eq!(met(&s, &r), [true; 6]);
    s.most_loss = 999;
    s.most_mean = 999;
    s.most_high = 1;
    s.most_runs = 0;
    assert_eq!(met(&s, &r), [true, true, false, false, false, false]);
    assert_eq!([Verdict::NotMet, Verdict::Met, Verdict::NotYet].map(|v| v.word()), [0, 1, 2]);
    assert_eq!([Verdict::NotMet, Verdict::Met, Verdict::NotYet].map(|v| v.text()), ["not met", "met", "not yet"]);
}

// Wish 3: undecided intervals taken as available and as unavailable. In the tables n = 3, p = 2 and C = 500,000 unless said otherwise, and a
// comment gives the figure with the undecided ones available, then unavailable.

const AVAILABILITY: usize = 0;
const COMPOSITE: usize = 1;
const LOSS: usize = 2;
const MEAN: usize = 3;
const HIGH: usize = 4;
const RUNS: usize = 5;

const NO: Verdict = Verdict::NotMet;
const MET: Verdict = Verdict::Met;
const WAIT: Verdict = Verdict::NotYet;

fn objective(s: &mut Settings, which: usize) -> &mut u64 {
    match which {
        AVAILABILITY => &mut s.least_availability,
        COMPOSITE => &mut s.least_composite,
        LOSS => &mut s.most_loss,
        MEAN => &mut s.most_mean,
        HIGH => &mut s.most_high,
        _ => &mut s.most_runs,
    }
}

/// What is known before a period, the period, and what is known behind it.
fn pair(s: &Settings, parts: [&str; 3]) -> Vec<Option<Summary>> {
    let from = parts[0].len() as u64;
    let to = from + parts[1].len() as u64;
    vec![Some(made(s, 0, parts[0])), Some(made(s, from, parts[1])), Some(made(s, to, parts[2]))]
}

fn set_of(s: &Settings, pairs: &[[&str; 3]]) -> [Verdict; 6] {
    let records: Vec<_> = pairs.iter().flat_map(|&parts| pair(s, parts)).collect();
    verdicts(&bytes(s), pairs.len() as u64, records.len() * 1_024, &records, 6).unwrap()
}

/// Asks one objective of a set at several values.
fn set_at(s: &Settings, pairs: &[[&str; 3]], which: usize, cases: &[(u64, Verdict)]) {
    for &(value, expected) in cases {
        let mut t = *s;
        *objective(&mut t, which) = value;
        assert_eq!(set_of(&t, pairs)[which], expected, "{pairs:?}, objective {which} at {value}");
    }
}

fn parts_at(s: &Settings, parts: [&str; 3], which: usize, cases: &[(u64, Verdict)]) {
    set_at(s, &[parts], which, cases);
}

/// The same of a period with nothing known around it, of the program too.
fn at(s: &Settings, text: &str, which: usize, cases: &[(u64, Verdict)]) {
    parts_at(s, ["", text, ""], which, cases);
    for &(value, expected) in cases {
        let mut t = *s;
        *objective(&mut t, which) = value;
        let printed = evaluate(Some(bytes(&t)), Some(written(&stretch(0, text))));
        assert!(printed.lines().nth(6 + which).unwrap().ends_with(&format!(" {}", expected.text())));
    }
}

fn with_n(n: u64, p: u64) -> Settings {
    let mut s = base();
    s.label.n = n;
    s.label.p = p;
    s
}

/// The two tracks apart: C is high on the composite track only, F on the loss track only.
fn apart() -> Settings {
    let mut s = base();
    s.label.weights = 2;
    s
}

#[test]
fn last_two_of_a_long_period() {
    let s = base();
    let text = "L".repeat(98) + "HH";
    // 100 or 98 of 100.
    at(&s, &text, AVAILABILITY, &[(0, MET), (980_000, MET), (980_001, WAIT), (1_000_000, WAIT)]);
    at(&s, &text, COMPOSITE, &[(980_000, MET), (980_001, WAIT)]);
    // 20 of 1,000 lost, or 0 of 980.
    at(&s, &text, LOSS, &[(0, WAIT), (19_999, WAIT), (20_000, MET)]);
    // The mean is 1,000 either way, since nothing was delivered in the two.
    at(&s, &text, MEAN, &[(999, NO), (1_000, MET)]);
    // Two in one run, or none.
    at(&s, &text, HIGH, &[(0, WAIT), (1, WAIT), (2, MET)]);
    at(&s, &text, RUNS, &[(0, WAIT), (1, MET)]);
    // Three unavailable before: 97 or 95 of 100.
    let text = "HHH".to_string() + &"L".repeat(95) + "HH";
    at(&s, &text, AVAILABILITY, &[(950_000, MET), (950_001, WAIT), (970_000, WAIT), (970_001, NO), (1_000_000, NO)]);
    at(&s, &text, COMPOSITE, &[(950_000, MET), (950_001, WAIT), (970_000, WAIT), (970_001, NO)]);
    // The last nine of many, n = 10: 7,000 or 6,991 of 10,000.
    let text = "H".repeat(3_000) + &"L".repeat(6_991) + &"H".repeat(9);
    at(&with_n(10, 0), &text, AVAILABILITY, &[(699_100, MET), (699_101, WAIT), (700_000, WAIT), (700_001, NO)]);
}

#[test]
fn one_interval_decides() {
    let s = base();
    // 4 or 3 of 4.
    at(&s, "LLLH", AVAILABILITY, &[(749_999, MET), (750_000, MET), (750_001, WAIT), (1_000_000, WAIT)]);
    at(&s, "LLLH", COMPOSITE, &[(749_999, MET), (750_000, MET), (750_001, WAIT), (1_000_000, WAIT)]);
    // 4 or 3 of 7: 428,571.4 and 571,428.6 parts per million.
    for which in [AVAILABILITY, COMPOSITE] {
        at(&s, "HHHLLLH", which, &[(428_571, MET), (428_572, WAIT), (571_428, WAIT), (571_429, NO)]);
    }
    // One mark on, it is settled: available, or unavailable with the two behind it.
    at(&s, "LLLHL", AVAILABILITY, &[(1_000_000, MET)]);
    at(&s, "LLLHHH", AVAILABILITY, &[(500_000, MET), (500_001, NO)]);
}

#[test]
fn composite_undecided_alone() {
    let s = apart();
    // Composite labels 1, 2, 2: 3 or 1 of 3. Everything else is settled; the mean is 100,010,000 / 30 = 3,333,666.7.
    at(&s, "LCC", COMPOSITE, &[(333_333, MET), (333_334, WAIT), (1_000_000, WAIT)]);
    at(&s, "LCC", AVAILABILITY, &[(1_000_000, MET)]);
    at(&s, "LCC", LOSS, &[(0, MET)]);
    at(&s, "LCC", MEAN, &[(3_333_666, NO), (3_333_667, MET)]);
    at(&s, "LCC", HIGH, &[(0, MET)]);
    at(&s, "LCC", RUNS, &[(0, MET)]);
    // F is high on the loss track, which stays unavailable: 0 of 5. Composite labels 0, 0, 0, 2, 2: 2 or 0 of 5.
    at(&s, "HHHFF", AVAILABILITY, &[(0, MET), (1, NO)]);
    at(&s, "HHHFF", COMPOSITE, &[(0, MET), (1, WAIT), (400_000, WAIT), (400_001, NO)]);
    at(&s, "HHHFF", LOSS, &[(0, MET)]);
    at(&s, "HHHFF", MEAN, &[(0, MET)]);
    at(&s, "HHHFF", HIGH, &[(0, MET)]);
}

#[test]
fn loss_track_undecided_alone() {
    let s = apart();
    // Loss labels 1, 2, 2: 3 or 1 of 3; 12 of 30 lost, or 0 of 10; the mean is 1,000 either way.
    at(&s, "LFF", COMPOSITE, &[(1_000_000, MET)]);
    at(&s, "LFF", AVAILABILITY, &[(333_333, MET), (333_334, WAIT), (1_000_000, WAIT)]);
    at(&s, "LFF", LOSS, &[(0, WAIT), (399_999, WAIT), (400_000, MET)]);
    at(&s, "LFF", MEAN, &[(999, NO), (1_000, MET)]);
    at(&s, "LFF", HIGH, &[(1, WAIT), (2, MET)]);
    at(&s, "LFF", RUNS, &[(0, WAIT), (1, MET)]);
    // Loss labels 0, 0, 0, 2, 2, composite all 0. The mean is 5,000,000, or there is none.
    at(&s, "HHHCC", COMPOSITE, &[(0, MET), (1, NO)]);
    at(&s, "HHHCC", AVAILABILITY, &[(0, MET), (1, WAIT), (400_000, WAIT), (400_001, NO)]);
    at(&s, "HHHCC", MEAN, &[(0, WAIT), (4_999_999, WAIT), (5_000_000, MET)]);
}

#[test]
fn both_tracks_undecided_after_different_labels() {
    // The last one is undecided on both: after an available label for loss, after an unacceptable one for the composite.
    let s = apart();
    at(&s, "CCCF", AVAILABILITY, &[(750_000, MET), (750_001, WAIT), (1_000_000, WAIT)]);
    at(&s, "CCCF", COMPOSITE, &[(0, MET), (1, WAIT), (250_000, WAIT), (250_001, NO)]);
    at(&s, "CCCF", HIGH, &[(0, WAIT), (1, MET)]);
}

#[test]
fn undecided_in_maintenance() {
    let s = base();
    // The two undecided ones are in no tally: as L, L alone.
    for which in [AVAILABILITY, COMPOSITE] {
        at(&s, "LLhh", which, &[(1_000_000, MET)]);
        at(&s, "HHHll", which, &[(0, MET), (1, NO)]);
    }
    at(&s, "LLhh", LOSS, &[(0, MET)]);
    at(&s, "LLhh", MEAN, &[(999, NO), (1_000, MET)]);
    at(&s, "LLhh", HIGH, &[(0, MET)]);
    at(&s, "LLhh", RUNS, &[(0, MET)]);
    at(&s, "LLbb", MEAN, &[(999, NO), (1_000, MET)]);
    at(&s, "HHHcc", MEAN, &[(0, MET)]);
    // One of the two counts: 3 of 3 or 2 of 3, one high or none, and never a run of two.
    for text in ["LLhH", "LLHh"] {
        at(&s, text, AVAILABILITY, &[(666_666, MET), (666_667, WAIT), (1_000_000, WAIT)]);
        at(&s, text, HIGH, &[(0, WAIT), (1, MET)]);
        at(&s, text, RUNS, &[(0, MET)]);
    }
    // 1 or 0 of 4.
    for text in ["HHHLl", "HHHlL"] {
        at(&s, text, AVAILABILITY, &[(0, MET), (1, WAIT), (250_000, WAIT), (250_001, NO)]);
    }
}

#[test]
fn undecided_runs() {
    // n = 4, p = 3: the undecided run reaches p, or does not.
    let s = with_n(4, 3);
    at(&s, "LHHH", RUNS, &[(0, WAIT), (1, MET)]);
    at(&s, "HHH", RUNS, &[(0, WAIT), (1, MET)]);
    at(&s, "LHH", RUNS, &[(0, MET)]);
    at(&s, "LHH", HIGH, &[(1, WAIT), (2, MET)]);
    // Maintenance cuts it, or is at its end.
    at(&s, "LHhH", RUNS, &[(0, MET)]);
    at(&s, "LhHH", RUNS, &[(0, MET)]);
    at(&with_n(4, 2), "LHhH", RUNS, &[(0, MET)]);
    at(&with_n(4, 2), "LhHH", RUNS, &[(0, WAIT), (1, MET)]);
    at(&with_n(4, 2), "LHHh", RUNS, &[(0, WAIT), (1, MET)]);
    at(&with_n(6, 2), "LHHhHH", RUNS, &[(0, WAIT), (1, WAIT), (2, MET)]);
    at(&with_n(6, 2), "LHHhH", RUNS, &[(0, WAIT), (1, MET)]);
    // The period's ends cut it.
    parts_at(&s, ["L", "HHH", ""], RUNS, &[(0, WAIT), (1, MET)]);
    parts_at(&s, ["LH", "HH", ""], RUNS, &[(0, MET)]);
    parts_at(&s, ["L", "HH", "H"], RUNS, &[(0, MET)]);
    parts_at(&with_n(4, 2), ["L", "HH", "H"], RUNS, &[(0, WAIT), (1, MET)]);
    parts_at(&with_n(4, 2), ["LH", "H", "H"], RUNS, &[(0, MET)]);
    // No runs counted.
    at(&with_n(4, 0), "LHHH", RUNS, &[(0, MET)]);
}

#[test]
fn undecided_runs_beside_settled_ones() {
    let s = base();
    // Labels 1, 1, 1, 2, 2: two runs of two, or the settled one. Four high, or two.
    at(&s, "HHLHH", RUNS, &[(0, NO), (1, WAIT), (2, MET)]);
    at(&s, "HHLHH", HIGH, &[(1, NO), (2, WAIT), (3, WAIT), (4, MET)]);
    // The settled one alone reaches p = 3, or neither does.
    at(&with_n(4, 3), "HHHLHH", RUNS, &[(0, NO), (1, MET)]);
    at(&with_n(4, 3), "HHLHH", RUNS, &[(0, MET)]);
    at(&with_n(4, 3), "HHLHHH", RUNS, &[(0, WAIT), (1, MET)]);
    // Undecided after an unavailable label there are no high ones: two high in one run either way, labels 1, 1, 1, 0, 0, 0, 2, 2.
    at(&s, "HHLHHHLL", HIGH, &[(1, NO), (2, MET)]);
    at(&s, "HHLHHHLL", RUNS, &[(0, NO), (1, MET)]);
    at(&s, "LHHHLL", HIGH, &[(0, MET)]);
    at(&s, "LHHHLL", RUNS, &[(0, MET)]);
}

#[test]
fn nothing_counted() {
    let s = base();
    // Everything undecided: the report has W = 0, both tests have W = 2, and so only the objective 0 is met for sure.
    let r = whole_period(&s, "HH");
    assert_eq!((r.available + r.unavailable, r.undecided), (0, 2));
    for which in [AVAILABILITY, COMPOSITE] {
        at(&s, "HH", which, &[(0, MET), (1, WAIT), (1_000_000, WAIT)]);
        // W = 0 remains where everything is in maintenance, undecided or not, and where the period is empty.
        at(&s, "hh", which, &[(0, MET), (1_000_000, MET)]);
        at(&s, "hhhll", which, &[(0, MET), (1_000_000, MET)]);
        parts_at(&s, ["L", "", "HH"], which, &[(1_000_000, MET)]);
        parts_at(&s, ["HHH", "", "LL"], which, &[(1_000_000, MET)]);
        parts_at(&s, ["HH", "", ""], which, &[(1_000_000, MET)]);
    }
    // 20 of 20 lost, or none sent.
    at(&s, "HH", LOSS, &[(0, WAIT), (999_999, WAIT), (1_000_000, MET)]);
    // None delivered, or none sent.
    at(&s, "HH", MEAN, &[(0, MET)]);
    for which in [LOSS, MEAN, HIGH, RUNS] {
        at(&s, "hh", which, &[(0, MET)]);
        parts_at(&s, ["L", "", "HH"], which, &[(0, MET)]);
    }
    // None sent, whether it is available or not.
    at(&s, "HHHZ", AVAILABILITY, &[(0, MET), (1, WAIT), (250_000, WAIT), (250_001, NO)]);
    at(&s, "HHHZ", LOSS, &[(0, MET)]);
    at(&s, "HHHZ", MEAN, &[(0, MET)]);
}

#[test]
fn turning_back() {
    let s = base();
    // Labels 0, 0, 0, 2, 2: 2 or 0 of 5.
    for which in [AVAILABILITY, COMPOSITE] {
        at(&s, "HHHLL", which, &[(0, MET), (1, WAIT), (400_000, WAIT), (400_001, NO)]);
        // One mark on: 3 or 0 of 6.
        at(&s, "HHHLLL", which, &[(500_000, MET), (500_001, NO)]);
        at(&s, "HHHLLH", which, &[(0, MET), (1, NO)]);
    }
    // 0 of 20 lost, or of 0; a mean of 1,000, or none.
    at(&s, "HHHLL", LOSS, &[(0, MET)]);
    at(&s, "HHHLL", MEAN, &[(0, WAIT), (999, WAIT), (1_000, MET)]);
    at(&s, "HHHLL", HIGH, &[(0, MET)]);
    at(&s, "HHHLL", RUNS, &[(0, MET)]);
}

#[test]
fn loss_in_each_direction() {
    let s = base();
    // Undecided high ones. Available is worse: 6 of 20, or 0 of 10.
    at(&s, "LF", LOSS, &[(0, WAIT), (299_999, WAIT), (300_000, MET)]);
    // Available is better: 26 of 40, or 20 of 30 (666,666.7).
    at(&s, "HHLF", LOSS, &[(649_999, NO), (650_000, WAIT), (666_666, WAIT), (666_667, MET)]);
    // Undecided not high, after labels 1, 0, 0, 0. Available is worse: 5 of 20, or 0 of 10.
    at(&s, "LHHHE", LOSS, &[(0, WAIT), (249_999, WAIT), (250_000, MET)]);
    // Available is better, after labels 1, 1, 0, 0, 0: 10 of 30 (333,333.3), or 10 of 20.
    at(&s, "HLHHHL", LOSS, &[(333_333, NO), (333_334, WAIT), (499_999, WAIT), (500_000, MET)]);
}

#[test]
fn mean_in_each_direction() {
    let s = base();
    // Undecided high ones. Available is worse: 20,010,000 / 14 = 1,429,285.7, or 1,000.
    at(&s, "LB", MEAN, &[(999, NO), (1_000, WAIT), (1_429_285, WAIT), (1_429_286, MET)]);
    // Available is better: 50,004,000 / 14 = 3,571,714.3, or 5,000,000.
    at(&s, "CF", MEAN, &[(3_571_714, NO), (3_571_715, WAIT), (4_999_999, WAIT), (5_000_000, MET)]);
    // Undecided not high, after labels 1, 0, 0, 0. Available is worse: 50,010,000 / 20, or 1,000.
    at(&s, "LHHHC", MEAN, &[(999, NO), (1_000, WAIT), (2_500_499, WAIT), (2_500_500, MET)]);
    // Available is better: 50,010,000 / 20, or 5,000,000.
    at(&s, "CHHHL", MEAN, &[(2_500_499, NO), (2_500_500, WAIT), (4_999_999, WAIT), (5_000_000, MET)]);
}

#[test]
fn known_around_the_period() {
    let s = base();
    // Of undecided ones only the period's count: 1 of 1 or 0 of 1.
    for parts in [["LH", "H", ""], ["L", "H", "H"], ["", "H", "H"], ["HHHL", "L", ""], ["HHH", "L", "L"]] {
        parts_at(&s, parts, AVAILABILITY, &[(0, MET), (1, WAIT), (1_000_000, WAIT)]);
        parts_at(&s, parts, RUNS, &[(0, MET)]);
    }
    // 2 of 2 or 0 of 2; 3 of 3 or 2 of 3.
    parts_at(&s, ["HHH", "LL", ""], AVAILABILITY, &[(0, MET), (1, WAIT), (1_000_000, WAIT)]);
    parts_at(&s, ["L", "LLH", "H"], AVAILABILITY, &[(666_666, MET), (666_667, WAIT), (1_000_000, WAIT)]);
    // What lies behind settles them.
    parts_at(&s, ["L", "HH", "L"], AVAILABILITY, &[(1_000_000, MET)]);
    parts_at(&s, ["L", "HH", "H"], AVAILABILITY, &[(0, MET), (1, NO)]);
    parts_at(&s, ["HHH", "LL", "L"], AVAILABILITY, &[(1_000_000, MET)]);
    parts_at(&s, ["HHH", "LL", "H"], AVAILABILITY, &[(0, MET), (1, NO)]);
    // Undecided behind the period only.
    for which in [AVAILABILITY, COMPOSITE] {
        parts_at(&s, ["HH", "LL", "HH"], which, &[(1_000_000, MET)]);
        parts_at(&s, ["H", "HH", "LL"], which, &[(0, MET), (1, NO)]);
    }
    // Settled runs before the period do not count with the undecided ones in it: two in one run, or none.
    parts_at(&s, ["HHL", "HH", ""], RUNS, &[(0, WAIT), (1, MET)]);
    parts_at(&s, ["HHL", "HH", ""], HIGH, &[(1, WAIT), (2, MET)]);
}

#[test]
fn report_as_before() {
    // Undecided intervals are in no figure but their own.
    let s = base();
    assert_eq!(whole_period(&s, "LHH").words(), [3, 0, 1, 0, 2, 0, 0, 10, 0, 10_000, 1_000, 1_000, 1, 0, 2]);
    assert_eq!(whole_period(&s, "HHHLl").words(), [5, 1, 0, 3, 1, 0, 0, 0, 0, 0, 0, 0, 0, 3, 1]);
    // So equal figures can have different verdicts: 10 of 20 lost or 6 of 20 where the last one is available.
    assert_eq!(whole_period(&s, "LH"), whole_period(&s, "LF"));
    at(&s, "LH", LOSS, &[(300_000, WAIT), (499_999, WAIT), (500_000, MET)]);
    at(&s, "LF", LOSS, &[(300_000, MET)]);
}

#[test]
fn sets() {
    let s = base();
    let set = |texts: &[&'static str], which: usize, cases: &[(u64, Verdict)]| {
        let pairs: Vec<_> = texts.iter().map(|t| ["", t, ""]).collect();
        set_at(&s, &pairs, which, cases);
    };
    // Not met before not yet before met.
    set(&["L", "L"], AVAILABILITY, &[(500_000, MET)]);
    set(&["L", "H"], AVAILABILITY, &[(500_000, WAIT)]);
    set(&["H", "HHH", "L"], AVAILABILITY, &[(500_000, NO)]);
    // LLHH is 4 or 2 of 4, HHHLL 2 or 0 of 5: undecided ones that keep no pair, and so no set, waiting.
    set(&["L", "LLHH"], AVAILABILITY, &[(500_000, MET), (500_001, WAIT)]);
    set(&["HHHLL", "L"], AVAILABILITY, &[(0, MET), (1, WAIT), (400_000, WAIT), (400_001, NO)]);
    set(&["LLHH", "H"], AVAILABILITY, &[(500_000, WAIT)]);
    set(&["H", "HHHLL", "LLHH"], AVAILABILITY, &[(400_000, WAIT), (400_001, NO)]);
    // Each objective by itself.
    assert_eq!(set_of(&s, &[["", "LLHH", ""], ["", "HHHLL", ""]]), [NO, NO, WAIT, MET, WAIT, WAIT]);
    // Two pairs that turn opposite ways. LH has 10 of 20 lost or 0 of 10, HLHHHL has 10 of 30 or 10 of 20. From 333,334 to 499,999 one of
    // them is not met when both are available, the other when both are unavailable; yet each may still be met.
    set(&["LH"], LOSS, &[(333_333, WAIT), (333_334, WAIT), (499_999, WAIT), (500_000, MET)]);
    set(&["HLHHHL"], LOSS, &[(333_333, NO), (333_334, WAIT), (499_999, WAIT), (500_000, MET)]);
    set(&["LH", "HLHHHL"], LOSS, &[(333_333, NO), (333_334, WAIT), (400_000, WAIT), (499_999, WAIT), (500_000, MET)]);
    // The same with the mean: 2,500,500 or 1,000, and 50,020,000 / 30 = 1,667,333.3 or 5,000,000.
    let cases = [(1_667_333, NO), (1_667_334, WAIT), (2_500_499, WAIT), (2_500_500, WAIT), (4_999_999, WAIT), (5_000_000, MET)];
    set(&["LHHHC", "CHHHLL"], MEAN, &cases);
}

// Wish 6: delays up to 4,000,000,000 and 1,024 frames in an interval.

const LARGEST: u64 = 4_000_000_000;

#[test]
fn largest_frames() {
    let mut s = base();
    let of = |s: &Settings, delay: &dyn Fn(u64) -> u64| {
        let frames: Vec<u8> = (0..1_024).flat_map(|k| frame(k, delay(k), 0)).collect();
        interval(&bytes(s), &frames, 0, 0, 48, 0).map(|out| read_interval(&out).unwrap())
    };
    let i = of(&s, &|_| LARGEST).unwrap();
    assert_eq!((i.sent, i.lost, i.late, i.pairs, i.jumpy), (1_024, 0, 1_024, 1_023, 0));
    assert_eq!((i.sum, i.least, i.most), (4_096_000_000_000, LARGEST, LARGEST));
    assert_eq!(refused(of(&s, &|k| LARGEST + k / 1_023)), (FIELD, 1_023));
    let i = of(&s, &|_| 1_000_000_001).unwrap();
    assert_eq!((i.sum, i.least, i.most), (1_024_000_001_024, 1_000_000_001, 1_000_000_001));
    // 0 and the largest in turn, from either on: both sides of DL and of Jt.
    for first in 0..2 {
        for (limit, late, jumpy) in [(0, 512, 1_023), (LARGEST - 1, 512, 1_023), (LARGEST, 0, 0)] {
            s.label.dl = limit;
            s.label.jt = limit;
            let i = of(&s, &|k| (first + k) % 2 * LARGEST).unwrap();
            assert_eq!((i.late, i.pairs, i.jumpy), (late, 1_023, jumpy));
            assert_eq!((i.sum, i.least, i.most), (2_048_000_000_000, 0, LARGEST));
        }
    }
}

#[test]
fn largest_lists() {
    let mut s = base();
    let mut ask = |list: &[u32], pr, most_delay, most_range| {
        s.percentile = pr;
        s.most_delay = most_delay;
        s.most_range = most_range;
        delays(&bytes(&s), list, 4).unwrap().words()
    };
    let most = LARGEST as u32;
    assert_eq!(ask(&[most, 0], 500_000, 0, 0), [0, 0, 1, 1]);
    assert_eq!(ask(&[most, 0], 500_001, LARGEST, LARGEST), [LARGEST, LARGEST, 1, 1]);
    assert_eq!(ask(&[0, most], 1_000_000, LARGEST - 1, LARGEST), [LARGEST, LARGEST, 0, 1]);
    assert_eq!(ask(&[0, most], 1_000_000, LARGEST, LARGEST - 1), [LARGEST, LARGEST, 1, 0]);
    assert_eq!(ask(&[most, most], 1, LARGEST - 1, 0), [LARGEST, 0, 0, 1]);
    assert_eq!(ask(&[1, most], 1_000_000, LARGEST, LARGEST - 1), [LARGEST, LARGEST - 1, 1, 1]);
    assert_eq!(ask(&[1_000_000_001, most, 0], 666_666, 1_000_000_001, 1_000_000_000), [1_000_000_001, 1_000_000_001, 1, 0]);
    assert_eq!(ask(&[1_000_000_001, most, 0], 666_667, LARGEST, LARGEST), [LARGEST, LARGEST, 1, 1]);
    let mut many = vec![most; 1_000_000];
    many[500_000..].fill(0);
    assert_eq!(ask(&many, 500_000, 0, 0), [0, 0, 1, 1]);
    assert_eq!(ask(&many, 500_001, LARGEST, LARGEST), [LARGEST, LARGEST, 1, 1]);
}

#[test]
fn largest_means() {
    let s = base();
    at(&s, "G", MEAN, &[(0, NO), (1_000_000_001, NO), (LARGEST - 1, NO), (LARGEST, MET)]);
    at(&s, "GGgG", MEAN, &[(LARGEST - 1, NO), (LARGEST, MET)]);
    // 4,096,000,010,000 / 1,034 = 3,961,315,290.1.
    at(&s, "GL", MEAN, &[(3_961_315_290, NO), (3_961_315_291, MET)]);
    // The largest, or none.
    at(&s, "HHHG", MEAN, &[(0, WAIT), (LARGEST - 1, WAIT), (LARGEST, MET)]);
    assert_eq!(whole_period(&s, "GLG").words(), [3, 0, 3, 0, 0, 0, 0, 2_058, 0, 8_192_000_010_000, 1_000, LARGEST, 3, 0, 0]);
}

#[test]
fn largest_period() {
    let mut s = with_n(1, 0);
    let known = vec![stretch(0, "G")[0]; 3_000_000];
    let r = report_of(&s.label, &known, 0, known.len());
    assert_eq!((r.available, r.sent, r.sum), (3_000_000, 3_072_000_000, 12_288_000_000_000_000_000));
    s.most_mean = LARGEST;
    assert!(met(&s, &r)[MEAN]);
    s.most_mean = LARGEST - 1;
    assert!(!met(&s, &r)[MEAN]);
}

#[test]
fn records_of_the_former_limits() {
    // The second of three has 1,025 to 4,096 sent: refused wherever records are read, and not as FULL.
    let s = base();
    for sent in [1_024, 1_025, 4_096] {
        let mut three = stretch(0, "LLL");
        three[1] = Interval { sent, sum: 1_000 * sent, ..three[1] };
        let file = written(&three);
        let mut evaluator = Some(start(&bytes(&s), 13).unwrap());
        step(&mut evaluator, &file[..48]).unwrap();
        let stepped = step(&mut evaluator, &file[48..96]).map(|_| ());
        let labelled = labels(&bytes(&s), &file, 6, 0).map(|_| ());
        let summed = summary(&bytes(&s), 0, &file, 1_024, 0).map(|_| ());
        let printed = evaluate(Some(bytes(&s)), Some(file));
        if sent == 1_024 {
            assert_eq!((stepped, labelled, summed), (Ok(()), Ok(()), Ok(())));
            assert!(printed.contains("sent 1044 lost 0\n"));
        } else {
            assert_eq!((refused(stepped), refused(labelled), refused(summed)), ((FIELD, 0), (FIELD, 1), (FIELD, 1)));
            assert_eq!(printed, "refused 5 1\n");
        }
    }
}

// Wish 3 in full for small n.

#[test]
fn undecided_ones_take_one_label() {
    for n in 1..=5 {
        for length in 0..=9 {
            for known in bits(length) {
                let labels = settle(n, &known);
                let undecided: Vec<usize> = (0..length).filter(|&k| labels[k] == Label::Undecided).collect();
                if let Some(&first) = undecided.first() {
                    // They are the last ones, of equal marks, and no settled one adjoins with the same mark: it lengthens no run.
                    assert_eq!(undecided, (first..length).collect::<Vec<_>>());
                    assert!(known[first..].iter().all(|&mark| mark == known[first]));
                    assert!(first == 0 || known[first - 1] != known[first]);
                }
                let mut taken = std::collections::BTreeSet::new();
                for tail in bits(n) {
                    let continued = by_windows(n, &[known.clone(), tail.clone()].concat(), length);
                    let here: std::collections::BTreeSet<bool> = undecided.iter().map(|&k| continued[k]).collect();
                    assert!(here.len() <= 1);
                    taken.extend(here);
                    // Nor do fewer marks part them.
                    for more in 0..n {
                        let labels = settle(n, &[&known[..], &tail[..more]].concat());
                        assert!(undecided.iter().all(|&k| labels[k] == labels[undecided[0]]));
                    }
                }
                assert_eq!(taken.len(), if undecided.is_empty() { 0 } else { 2 });
            }
        }
    }
}

/// All texts of so many of the letters.
fn texts(letters: &str, length: usize) -> Vec<String> {
    if length == 0 {
        return vec![String::new()];
    }
    let shorter = texts(letters, length - 1);
    letters.chars().flat_map(|letter| shorter.iter().map(move |t| format!("{letter}{t}"))).collect()
}

/// The verdicts by the reports of all continuations by n intervals, high on both tracks or on neither: not yet where two differ.
fn by_continuations(s: &Settings, text: &str, from: usize, to: usize) -> [Verdict; 6] {
    let mut answers = Vec::new();
    for tail in texts("LB", s.label.n as usize) {
        let r = report_of(&s.label, &stretch(0, &(text.to_string() + &tail)), from, to);
        assert_eq!((r.undecided, r.undecided_composite), (0, 0));
        answers.push(met(s, &r));
    }
    std::array::from_fn(|k| {
        if answers.iter().all(|a| a[k]) {
            MET
        } else if answers.iter().all(|a| !a[k]) {
            NO
        } else {
            WAIT
        }
    })
}

/// Objectives at and beside the fractions that few intervals can give.
fn drawn(s: &mut Settings, next: &mut impl FnMut(u64) -> u64) {
    for which in [AVAILABILITY, COMPOSITE, LOSS] {
        let parts = 1 + next(6);
        *objective(s, which) = (MILLION * next(parts + 1) / parts + next(2)).min(MILLION);
    }
    s.most_mean = [0, 999, 1_000, 1_001, 5_000_000, next(5_000_000), next(5_000_000)][next(7) as usize];
    s.most_high = next(4);
    s.most_runs = if s.label.p == 0 { 0 } else { next(3) };
}

#[test]
fn verdicts_by_all_continuations() {
    let mut seed = 1_u64;
    let mut next = |m: u64| {
        seed = seed.wrapping_mul(6_364_136_223_846_793_005).wrapping_add(1_442_695_040_888_963_407);
        (seed >> 33) % m
    };
    let mut seen = [[0; 3]; 6];
    for (n, p) in [(1, 0), (2, 0), (3, 2), (4, 2)] {
        for (letters, longest) in [("HLh", 6), ("LCFBlb", 4)] {
            let mut s = with_n(n, p);
            s.label.weights = 2;
            for text in (0..=longest).flat_map(|length| texts(letters, length)) {
                let known = stretch(0, &text);
                for from in 0..=text.len() {
                    for to in from..=text.len() {
                        drawn(&mut s, &mut next);
                        let judged = judge(&s, &known, from, to);
                        assert_eq!(judged, by_continuations(&s, &text, from, to), "{text} from {from} to {to}, {s:?}");
                        for which in 0..6 {
                            seen[which][judged[which].word() as usize] += 1;
                        }
                    }
                }
            }
        }
    }
    // All three verdicts came up for each objective.
    assert!(seen.iter().flatten().all(|&count| count > 100), "{seen:?}");
}
