//! `mip_summary`, `mip_join`, `mip_report` and `mip_verdicts`. The second program knows a summary as what made it; of the bytes
//! only the first number, the number after the last, the label settings and the zeros at the end are looked at here.
#![allow(dead_code)]
use crate::counts::{met, met_each};
use crate::inputs::*;
use crate::library::*;
use crate::random::Random;
use second::labels::Label;
use second::records::*;
use second::refusals::{Answer, FIELD, MISMATCH, ORDER};
use second::reports::{Report, period_of_three, report_taking};
use second::summaries::{SUMMARY_BYTES, Summary};

pub const SIZE: usize = SUMMARY_BYTES;

/// A summary as the library's bytes and as what made it; none where the bytes break a rule.
#[derive(Clone)]
struct Both {
    bytes: Vec<u8>,
    model: Option<Summary>,
    settings: Vec<u8>,
}

/// The library's bytes of a summary.
pub fn stretch(s: &[u8], first: u64, records: &[u8]) -> Result<Vec<u8>, String> {
    let mut bytes = vec![0xa5; SIZE];
    let got = summary(s, first, records, &mut bytes, 0);
    same_beside(got, &Ok(())).map_err(|fault| {
        format!(
            "{fault}\nsummary of settings {} first {first} intervals {}",
            hex(s),
            hex(records)
        )
    })?;
    Ok(bytes)
}

/// What a summary is made of.
pub fn model(s: &[u8], first: u64, intervals: &[Interval]) -> Summary {
    Summary {
        settings: read_settings(s).expect("valid settings").label,
        first,
        intervals: intervals.to_vec(),
    }
}

fn made(s: &[u8], first: u64, intervals: &[Interval]) -> Result<Both, String> {
    Ok(Both {
        bytes: stretch(s, first, &written(intervals))?,
        model: Some(model(s, first, intervals)),
        settings: s.to_vec(),
    })
}

fn word_at(bytes: &[u8], at: usize) -> u64 {
    u32::from_le_bytes(bytes[at..at + 4].try_into().unwrap()) as u64
}

/// What docs/RECORDS.md says of every summary's bytes and 01 fixes: numbers, label settings, zeros at the end.
fn header_stands(bytes: &[u8], s: &[u8], first: u64, after: u64) -> Result<(), String> {
    if word_at(bytes, 0) != first || word_at(bytes, 4) != after {
        return Err(format!(
            "the summary is of {} to {}, not of {first} to {after}",
            word_at(bytes, 0),
            word_at(bytes, 4)
        ));
    }
    if bytes[8..32] != s[..24] {
        return Err("the summary has other label settings".to_string());
    }
    if bytes[SIZE - 64..].iter().any(|b| *b != 0) {
        return Err("the last 64 bytes are not zero".to_string());
    }
    Ok(())
}

/// Other settings with the same label settings.
fn other_objectives(r: &mut Random, s: &[u8]) -> Vec<u8> {
    let mut other = valid_settings(r);
    other[..24].copy_from_slice(&s[..24]);
    if other[5] == 0 {
        put(&mut other, 44, 0);
    }
    other
}

pub fn summary_case(r: &mut Random, index: u64) -> Result<(), String> {
    let mut s = valid_settings(r);
    let label = read_settings(&s).unwrap().label;
    let count = interval_count(r, index);
    let top = INTERVALS - count as u64;
    let mut first = if r.one_in(3) { 0 } else { r.edgy(0, top) };
    let mut records = written(&valid_intervals(r, &label, first, count));
    if index == 11 || (!large(index) && first == top && r.one_in(2)) {
        records.extend(beyond_the_last(r, &label));
    }
    for _ in 0..faults(r, index) {
        match r.below(10) {
            0 if s.len() == 64 => {
                let damage = r.pick(&settings_damages());
                damage(r, &mut s);
            }
            1 => {
                first = r.pick(&[
                    INTERVALS,
                    INTERVALS + 1,
                    first + 1,
                    (1 << 32) + first,
                    u64::MAX,
                    first.wrapping_sub(1),
                ])
            }
            _ => damage_intervals(r, &mut records),
        }
    }
    let (length, at) = if large(index) {
        (SIZE, 0)
    } else {
        room(r, SIZE)
    };
    let mut out = lent_bytes(r, length);
    let got = summary(&s, first, &records, out.part(), at);
    let expected = second::summaries::summary(&s, first, &records, length, at);
    let shown = |fault: String| {
        format!(
            "{fault}\nsettings {}\nfirst {first}\nintervals {}\nroom {length} at {at}",
            hex(&s),
            hex(&records)
        )
    };
    same_word(got, &expected).map_err(shown)?;
    let Ok(model) = expected else {
        return out.untouched("out").map_err(shown);
    };
    let content = out.part()[at..at + SIZE].to_vec();
    out.holds("out", at, &content).map_err(shown)?;
    header_stands(&content, &s, first, model.after()).map_err(shown)?;
    // the same bytes whatever the objectives and whatever the buffer held
    let again = made(&other_objectives(r, &s), first, &model.intervals)?;
    if again.bytes != content {
        return Err(shown(
            "the bytes depend on more than label settings, first number and intervals".to_string(),
        ));
    }
    Ok(())
}

/// Counts a refusal of summaries by its place in a pair, apart for the first pair and the later ones.
fn count_place<T>(answer: &Answer<T>) {
    let Err(r) = answer else { return };
    let place = if r.place < 3 {
        r.place
    } else {
        3 + r.place % 3
    };
    match r.number {
        FIELD => met("5 at", place),
        ORDER => met("7 at", place),
        MISMATCH => met("8 at", place),
        _ => (),
    }
}

/// Joins, where both are valid, of equal settings and adjoining.
pub fn joined(left: &[u8], right: &[u8]) -> Result<Vec<u8>, String> {
    let mut bytes = vec![0x5a; SIZE];
    let got = join(left, right, &mut bytes, 0);
    same_word(got, &Ok(()))
        .map_err(|fault| format!("{fault}\njoin of {}\nwith {}", hex(left), hex(right)))?;
    Ok(bytes)
}

/// Whether the library takes the bytes for a summary: joined with an empty one behind it, it is not refused for a field.
pub fn taken(bytes: &[u8]) -> bool {
    let after = word_at(bytes, 4);
    let mut s = vec![0; 64];
    s[..24].copy_from_slice(&bytes[8..32]);
    put(&mut s, 48, 1);
    let mut empty = vec![0; SIZE];
    if summary(&s, after, &[], &mut empty, 0) != 0 {
        return false;
    }
    let mut out = vec![0; SIZE];
    join(bytes, &empty, &mut out, 0) == 0
}

/// Damages a summary's bytes so that a rule that is known here is broken.
fn surely_damaged(r: &mut Random, both: &Both) -> Both {
    let mut bytes = both.bytes.clone();
    let (first, after) = (word_at(&bytes, 0), word_at(&bytes, 4));
    match r.below(8) {
        0 => put(&mut bytes, 0, after + 1),
        1 => put(&mut bytes, 4, first.wrapping_sub(1)),
        2 => put(&mut bytes, 4, INTERVALS + 1 + r.below(5)),
        3 => bytes[SIZE - 1 - r.index(64)] = 1 << r.below(8),
        4 => {
            let (at, least, most) = r.pick(&SETTINGS_FIELDS[..5]);
            put(
                &mut bytes,
                8 + at,
                if r.one_in(2) && least > 0 {
                    least - 1
                } else {
                    most + 1
                },
            );
        }
        5 => bytes[8 + 4] = r.pick(&[0, 65, 255]),
        6 => bytes[8 + 6] = r.pick(&[0, 8, 255]),
        _ => bytes[8 + 7] = 1 << r.below(8),
    }
    // a number below 0 or above 3,000,000 breaks a rule too
    Both {
        bytes,
        model: None,
        settings: both.settings.clone(),
    }
}

/// Changes bytes anywhere, or mixes two summaries: the library may take the result or not.
fn perhaps_damaged(r: &mut Random, both: &Both, other: &Both) -> Vec<u8> {
    let mut bytes = both.bytes.clone();
    for _ in 0..1 + r.below(3) {
        let at = if r.one_in(4) {
            r.index(SIZE)
        } else {
            r.index(480)
        };
        match r.below(6) {
            0 => bytes[at] ^= 1 << r.below(8),
            1 => bytes[at] = r.next() as u8,
            2 => bytes[at] = bytes[at].wrapping_add(1),
            3 => bytes[at] = bytes[at].wrapping_sub(1),
            4 => {
                let to = at + r.index(SIZE - at + 1);
                bytes[at..to].copy_from_slice(&other.bytes[at..to]);
            }
            _ => {
                let to = (at + 1 + r.index(8)).min(SIZE);
                bytes[at..to].fill(0);
            }
        }
    }
    bytes
}

/// The intervals cut into stretches, some of them empty.
fn cut(
    r: &mut Random,
    s: &[u8],
    first: u64,
    intervals: &[Interval],
    parts: usize,
) -> Result<Vec<Both>, String> {
    let mut ends: Vec<usize> = (1..parts).map(|_| r.index(intervals.len() + 1)).collect();
    ends.push(intervals.len());
    ends.sort();
    let mut from = 0;
    let mut stretches = Vec::new();
    for to in ends {
        stretches.push(made(s, first + from as u64, &intervals[from..to])?);
        from = to;
    }
    Ok(stretches)
}

pub fn join_case(r: &mut Random, index: u64) -> Result<(), String> {
    let s = valid_settings(r);
    let label = read_settings(&s).unwrap().label;
    let count = match index {
        10 => INTERVALS as usize,
        _ if r.one_in(2_000) => r.index(100_000),
        _ if r.one_in(50) => r.index(5_000),
        _ => some_count(r, 300),
    };
    let first = r.edgy(0, INTERVALS - count as u64);
    let intervals = valid_intervals(r, &label, first, count);
    let most = if r.one_in(10) { 40 } else { 9 };
    let parts = 1 + r.index(most);
    let mut stretches = cut(r, &s, first, &intervals, parts)?;
    let whole = made(&s, first, &intervals)?;
    if r.one_in(2) {
        refused_joins(r, &s, &whole, &stretches)?;
    }
    if r.one_in(3) {
        damaged_joins(r, &whole, &stretches)?;
    }
    // any two neighbours, in any order, until one is left
    while stretches.len() > 1 {
        let k = r.index(stretches.len() - 1);
        let bytes = joined(&stretches[k].bytes, &stretches[k + 1].bytes)?;
        stretches[k].bytes = bytes;
        stretches.remove(k + 1);
    }
    if stretches[0].bytes != whole.bytes {
        let at = (0..SIZE)
            .find(|i| stretches[0].bytes[*i] != whole.bytes[*i])
            .unwrap();
        return Err(format!(
            "joined in {parts} parts, the bytes differ from the uncut ones at {at}\njoined {}\nuncut {}\nsettings {}\nfirst {first}\nintervals {}",
            hex(&stretches[0].bytes),
            hex(&whole.bytes),
            hex(&s),
            hex(&written(&intervals))
        ));
    }
    Ok(())
}

/// A join at any offset, with other lengths, settings, order and broken rules: the refusal is the second program's.
fn refused_joins(r: &mut Random, s: &[u8], whole: &Both, stretches: &[Both]) -> Result<(), String> {
    let k = r.index(stretches.len());
    let (mut left, mut right) = (
        stretches[k].clone(),
        stretches[(k + 1) % stretches.len()].clone(),
    );
    for _ in 0..r.below(4) {
        let side = if r.one_in(2) { &mut left } else { &mut right };
        match r.below(6) {
            0 => *side = whole.clone(),
            1 => *side = surely_damaged(r, side),
            2 => {
                let length = r.pick(&[0, 1, SIZE - 1, SIZE + 1, 2 * SIZE, 48]);
                side.bytes.resize(length, 0);
            }
            3 => {
                *side = made(
                    &other_label(r, s),
                    r.index(INTERVALS as usize + 1) as u64,
                    &[],
                )?
            }
            4 => *side = made(s, r.edgy(0, INTERVALS), &[])?,
            _ => (),
        }
        if left.bytes.len() != SIZE || right.bytes.len() != SIZE {
            break;
        }
    }
    let (length, at) = room(r, SIZE);
    let mut out = lent_bytes(r, length);
    let got = join(&left.bytes, &right.bytes, out.part(), at);
    let lengths = [left.bytes.len(), right.bytes.len()];
    let expected = second::summaries::join(lengths, &[left.model, right.model], length, at);
    count_place(&expected);
    let shown = |fault: String| {
        format!(
            "{fault}\nleft {}\nright {}\nroom {length} at {at}",
            hex(&left.bytes),
            hex(&right.bytes)
        )
    };
    same_word(got, &expected).map_err(shown)?;
    match expected {
        Err(_) => out.untouched("out").map_err(shown),
        Ok(model) => {
            let content = made(&left.settings, model.first, &model.intervals)?.bytes;
            out.holds("out", at, &content).map_err(shown)
        }
    }
}

/// Valid settings whose label settings differ, often in one field only.
fn other_label(r: &mut Random, s: &[u8]) -> Vec<u8> {
    loop {
        let mut other = s.to_vec();
        let from = valid_settings(r);
        match r.below(8) {
            0 => other[4..6].copy_from_slice(&from[4..6]),
            1 => other[6] = from[6],
            k => {
                let at = [0, 8, 12, 16, 20, 0][k as usize - 2];
                other[at..at + 4].copy_from_slice(&from[at..at + 4]);
            }
        }
        put(&mut other, 44, 0);
        if other[..24] != s[..24] && read_settings(&other).is_some() {
            return other;
        }
    }
}

/// Bytes changed anywhere: refused for a field wherever they are given, or taken, and then every join that adjoins is answered with a
/// summary that is taken too, and an empty one on either side changes nothing.
fn damaged_joins(r: &mut Random, whole: &Both, stretches: &[Both]) -> Result<(), String> {
    let (one, other) = (r.pick(stretches), r.pick(stretches));
    let bytes = perhaps_damaged(r, &one, &other);
    let shown = |fault: String| format!("{fault}\nchanged {}", hex(&bytes));
    let mut out = vec![7; SIZE];
    if !taken(&bytes) {
        let left = join(&bytes, &whole.bytes, &mut out, 0);
        let right = join(&whole.bytes, &bytes, &mut out, 0);
        if left != 5 << 32 || right != (5 << 32) + 1 || out != [7; SIZE] {
            return Err(shown(
                "broken bytes are not refused 5 on both sides".to_string(),
            ));
        }
        return Ok(());
    }
    let mut s = vec![0; 64];
    s[..24].copy_from_slice(&bytes[8..32]);
    put(&mut s, 48, 1);
    let (first, after) = (word_at(&bytes, 0), word_at(&bytes, 4));
    let before = made(&s, first, &[])?;
    let behind = made(&s, after, &[])?;
    if joined(&before.bytes, &bytes)? != bytes || joined(&bytes, &behind.bytes)? != bytes {
        return Err(shown(
            "an empty summary joined to valid bytes changes them".to_string(),
        ));
    }
    let label = read_settings(&s).unwrap().label;
    let count = r.index(30).min((INTERVALS - after) as usize);
    let more = made(&s, after, &valid_intervals(r, &label, after, count))?;
    let longer = joined(&bytes, &more.bytes).map_err(shown)?;
    if !taken(&longer) {
        return Err(shown(format!(
            "joined with {} it is refused",
            hex(&more.bytes)
        )));
    }
    let count = r.index(30).min(first as usize);
    let start = first - count as u64;
    let less = made(&s, start, &valid_intervals(r, &label, start, count))?;
    let left_first = joined(&joined(&less.bytes, &bytes)?, &more.bytes)?;
    if left_first != joined(&less.bytes, &longer)? {
        return Err(shown(
            "joins of valid bytes differ with the grouping".to_string(),
        ));
    }
    Ok(())
}

/// Three adjoining summaries from 0. Often nothing is known behind the second, so that its last intervals may be undecided.
fn three(r: &mut Random, s: &[u8], count: usize) -> Result<Vec<Both>, String> {
    let label = read_settings(s).unwrap().label;
    let intervals = valid_intervals(r, &label, 0, count);
    if r.one_in(2) {
        return cut(r, s, 0, &intervals, 3);
    }
    let mut all = cut(r, s, 0, &intervals, 2)?;
    all.push(made(s, count as u64, &[])?);
    Ok(all)
}

/// The same stretch under other settings, an empty one where the bytes were broken.
fn remade(both: &Both, s: &[u8]) -> Result<Both, String> {
    match &both.model {
        Some(model) => made(s, model.first, &model.intervals),
        None => made(s, 0, &[]),
    }
}

/// Breaks one of several summaries, its settings or those of its pair, or their order.
fn spoil(r: &mut Random, s: &[u8], all: &mut [Both]) -> Result<(), String> {
    let k = r.index(all.len());
    match r.below(5) {
        0 => all[k] = surely_damaged(r, &all[k]),
        1 => {
            let other = other_label(r, s);
            let pair = k / 3 * 3;
            let changed = r.pick(&[k..k + 1, k..k + 1, pair..pair + 3]);
            for both in &mut all[changed] {
                *both = remade(both, &other)?;
            }
        }
        2 => all[k] = made(s, r.edgy(0, INTERVALS), &[])?,
        3 => {
            let other = r.index(all.len());
            all.swap(k, other);
        }
        _ => {
            let first = 1 + r.below(5);
            let label = read_settings(s).unwrap().label;
            let count = r.index(8);
            all[k] = made(s, first, &valid_intervals(r, &label, first, count))?;
        }
    }
    Ok(())
}

fn bytes_of(all: &[Both]) -> Vec<u8> {
    all.iter().flat_map(|b| b.bytes.clone()).collect()
}

fn models_of(all: &[Both]) -> Vec<Option<Summary>> {
    all.iter().map(|b| b.model.clone()).collect()
}

fn shown_models(s: &[u8], all: &[Both]) -> String {
    let one = |b: &Both| match &b.model {
        None => format!("broken {}", hex(&b.bytes)),
        Some(m) => format!(
            "first {} settings {:?} intervals {}",
            m.first,
            m.settings,
            hex(&written(&m.intervals))
        ),
    };
    format!(
        "settings {}\n{}",
        hex(s),
        all.iter().map(one).collect::<Vec<_>>().join("\n")
    )
}

pub fn report_case(r: &mut Random, index: u64) -> Result<(), String> {
    let s = valid_settings(r);
    let count = match index {
        10 => INTERVALS as usize,
        _ if r.one_in(2_000) => r.index(100_000),
        _ if r.one_in(50) => r.index(5_000),
        _ => some_count(r, 300),
    };
    let mut all = three(r, &s, count)?;
    for _ in 0..faults(r, index) {
        spoil(r, &s, &mut all)?;
    }
    let mut bytes = bytes_of(&all);
    if !large(index) && r.one_in(20) {
        let length = r.pick(&[0, SIZE, 3 * SIZE - 1, 3 * SIZE + 1, 2 * SIZE, 4 * SIZE]);
        bytes.resize(length, 0);
    }
    let room = if large(index) {
        15
    } else {
        words_of_room(r, 15)
    };
    let mut figures = lent_words(r, room);
    let got = report(&bytes, figures.part());
    let expected =
        second::reports::report(bytes.len(), &models_of(&all), room).map(|f| f.words().to_vec());
    count_place(&expected);
    same_word(got, &expected)
        .and_then(|_| figures.as_answered("figures", 0, &expected))
        .map_err(|fault| {
            format!(
                "{fault}\n{}\nlength {} room {room}",
                shown_models(&s, &all),
                bytes.len()
            )
        })
}

/// A pair's report, or what it is with its undecided intervals taken as available or as unavailable.
fn seen_as(r: &mut Random, as_it_is: Report, three: &[Option<Summary>]) -> Report {
    let label = match r.below(3) {
        0 => return as_it_is,
        1 => Label::Available,
        _ => Label::Unavailable,
    };
    let three: Vec<&Summary> = three.iter().flatten().collect();
    let (known, from, to) = period_of_three(&three);
    report_taking(&three[0].settings, &known, from, to, label)
}

/// Objectives at the edge of a pair's figures.
fn edge_objectives(r: &mut Random, s: &mut [u8], f: &Report) {
    let near =
        |r: &mut Random, value: u64, most: u64| (value + r.below(3)).saturating_sub(1).min(most);
    let ratio = |part: u64, of: u64| {
        if of == 0 {
            MILLION
        } else {
            (part as u128 * MILLION as u128 / of as u128) as u64
        }
    };
    put(
        s,
        24,
        near(r, ratio(f.available, f.available + f.unavailable), MILLION),
    );
    put(
        s,
        28,
        near(
            r,
            ratio(f.acceptable, f.acceptable + f.unacceptable),
            MILLION,
        ),
    );
    put(s, 32, near(r, ratio(f.lost, f.sent), MILLION));
    put(
        s,
        36,
        near(r, f.sum / (f.sent - f.lost).max(1), LARGEST_DELAY),
    );
    put(s, 40, near(r, f.high, u32::MAX as u64));
    let runs = if s[5] == 0 {
        0
    } else {
        near(r, f.runs, u32::MAX as u64)
    };
    put(s, 44, runs);
}

/// The report and the verdicts of one pair, which are the second program's.
pub fn answers(
    s: &[u8],
    three: &[u8],
    models: &[Option<Summary>],
) -> Result<([u64; 15], [u64; 6]), String> {
    let (mut figures, mut six) = ([7; 15], [7; 6]);
    let reported = second::reports::report(three.len(), models, 15).map(|f| f.words());
    same_beside(report(three, &mut figures), &reported)?;
    let judged = second::verdicts::verdicts(s, 1, three.len(), models, 6);
    let judged = judged.map(|v| v.map(|x| x.word()));
    same_beside(verdicts(s, 1, three, &mut six), &judged)?;
    if reported != Ok(figures) || judged != Ok(six) {
        return Err(format!(
            "the library reports {figures:?} and {six:?}, the second program {reported:?} and {judged:?}"
        ));
    }
    Ok((figures, six))
}

pub fn verdicts_case(r: &mut Random, index: u64) -> Result<(), String> {
    let mut s = valid_settings(r);
    let mut pairs = match index {
        10 => 64,
        _ if r.one_in(50) => r.edgy(1, 64),
        _ => r.from_to(1, 4),
    };
    let mut all = Vec::new();
    for _ in 0..pairs {
        let count = some_count(r, 200);
        all.extend(three(r, &s, count)?);
    }
    for _ in 0..faults(r, index) {
        spoil(r, &s, &mut all)?;
    }
    let mut models = models_of(&all);
    if !r.one_in(3) {
        let pair = r.index(pairs as usize);
        let three = &models[3 * pair..3 * pair + 3];
        if let Ok(f) = second::reports::report(3 * SIZE, three, 15) {
            let f = seen_as(r, f, three);
            edge_objectives(r, &mut s, &f);
        }
    }
    if !large(index) && r.one_in(12) {
        s = if r.one_in(2) {
            other_label(r, &s)
        } else {
            settings(r, 1)
        };
    }
    let mut bytes = bytes_of(&all);
    if !large(index) && r.one_in(20) {
        let length = r.pick(&[
            0,
            SIZE,
            bytes.len() - 1,
            bytes.len() + 1,
            bytes.len() + 3 * SIZE,
        ]);
        bytes.resize(length, 0);
        // zeros are no summary
        models.resize(length / SIZE, None);
    }
    if !large(index) && r.one_in(20) {
        pairs = r.pick(&[
            0,
            pairs + 1,
            pairs - 1,
            64,
            65,
            1 << 32,
            (1 << 32) + pairs,
            u64::MAX,
            u64::MAX / 3_072 + 1,
        ]);
    }
    let room = if large(index) { 6 } else { words_of_room(r, 6) };
    let mut six = lent_words(r, room);
    let got = verdicts(&s, pairs, &bytes, six.part());
    let expected = second::verdicts::verdicts(&s, pairs, bytes.len(), &models, room)
        .map(|v| v.map(|x| x.word()).to_vec());
    count_place(&expected);
    if let Ok(six) = &expected {
        met_each(
            &["availability", "composite", "loss", "mean", "high", "runs"],
            six,
        );
    }
    same_word(got, &expected)
        .and_then(|_| six.as_answered("verdicts", 0, &expected))
        .map_err(|fault| {
            format!(
                "{fault}\n{}\npairs {pairs} length {} room {room}",
                shown_models(&s, &all),
                bytes.len()
            )
        })
}
