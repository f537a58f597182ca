//! The running evaluator of a circuit, held as all the marks that were fed to it.

use crate::labels::{high_composite, high_loss, settle, Label};
use crate::records::{read_interval, read_settings, LabelSettings, INTERVALS};
use crate::refusals::{refuse, room_for_words, Answer, FIELD, LENGTH, ORDER, SETTINGS};

pub const EVALUATOR_WORDS: usize = 13;

#[derive(Clone, Debug, PartialEq, Eq)]
pub struct Evaluator {
    pub settings: LabelSettings,
    pub loss: Vec<bool>,
    pub composite: Vec<bool>,
}

/// The latest place at which n equal marks begin, or 0 where there is none.
///
/// From such a place on, labels do not depend on what was before: after n high marks begin, each of these is unavailable, whatever the
/// label before, and after n marks not high begin, each of these is available. So labels from there on are those of a stretch that
/// begins there.
fn sure_place(n: usize, marks: &[bool]) -> usize {
    let mut k = marks.len();
    while k > 0 {
        k -= 1;
        if k + n <= marks.len() && marks[k..k + n].iter().all(|&m| m == marks[k]) {
            return k;
        }
    }
    0
}

/// The label settled last, available where none is, and how many are undecided.
fn left_by(n: usize, marks: &[bool]) -> (Label, usize) {
    let labels = settle(n, &marks[sure_place(n, marks)..]);
    let settled: Vec<&Label> = labels.iter().filter(|l| **l != Label::Undecided).collect();
    let last = settled.last().map_or(Label::Available, |l| **l);
    (last, labels.len() - settled.len())
}

/// Marks of the number fed that leave a track with this label and so many undecided, or None where there are none.
///
/// Undecided are the last ones, all high after an available label, all not high after an unavailable one, and fewer than n. Where any
/// marks leave an available label last, so do marks that are not high up to the undecided ones. Where any leave an unavailable one,
/// n high marks in a row are settled among them, and so do marks that are all high up to the undecided ones.
fn marks_leaving(n: usize, fed: u64, label: u64, undecided: u64) -> Option<Vec<bool>> {
    if label > 1 || undecided > fed {
        return None;
    }
    let mut marks = vec![label == 0; (fed - undecided) as usize];
    marks.extend(vec![label == 1; undecided as usize]);
    let (last, rest) = left_by(n, &marks);
    if last.byte() as u64 == label && rest as u64 == undecided {
        Some(marks)
    } else {
        None
    }
}

impl Evaluator {
    pub fn words(&self) -> [u64; EVALUATOR_WORDS] {
        let s = &self.settings;
        let (loss, loss_rest) = left_by(s.n as usize, &self.loss);
        let (composite, composite_rest) = left_by(s.n as usize, &self.composite);
        [
            s.length,
            s.n,
            s.p,
            s.weights,
            s.c,
            s.u,
            s.dl,
            s.jt,
            self.loss.len() as u64,
            loss.byte() as u64,
            loss_rest as u64,
            composite.byte() as u64,
            composite_rest as u64,
        ]
    }

    /// An evaluator with these words, the first 13, or None where there is none.
    pub fn of_words(words: &[u64]) -> Option<Evaluator> {
        if words.len() < EVALUATOR_WORDS {
            return None;
        }
        let settings = LabelSettings {
            length: words[0],
            n: words[1],
            p: words[2],
            weights: words[3],
            c: words[4],
            u: words[5],
            dl: words[6],
            jt: words[7],
        };
        let fed = words[8];
        if !settings.meets_rules() || fed > INTERVALS {
            return None;
        }
        let n = settings.n as usize;
        let loss = marks_leaving(n, fed, words[9], words[10])?;
        let composite = marks_leaving(n, fed, words[11], words[12])?;
        Some(Evaluator { settings, loss, composite })
    }
}

pub fn start(settings: &[u8], room_words: usize) -> Answer<Evaluator> {
    let Some(s) = read_settings(settings) else {
        return refuse(SETTINGS, 0);
    };
    room_for_words(room_words, EVALUATOR_WORDS)?;
    Ok(Evaluator { settings: s.label, loss: Vec::new(), composite: Vec::new() })
}

/// Feeds a track one more mark: how many labels that settled, and which one, 2 where none.
fn feed(n: usize, marks: &mut Vec<bool>, high: bool) -> [u64; 2] {
    let (_, rest_before) = left_by(n, marks);
    let first_open = marks.len() - rest_before;
    marks.push(high);
    let from = sure_place(n, marks);
    let labels = settle(n, &marks[from..]);
    let newly: Vec<Label> = labels[first_open - from..].iter().copied().filter(|l| *l != Label::Undecided).collect();
    assert!(newly.iter().all(|l| *l == newly[0]), "all labels settled by one step agree");
    match newly.first() {
        Some(label) => [newly.len() as u64, label.byte() as u64],
        None => [0, Label::Undecided.byte() as u64],
    }
}

/// Feeds the next record. The evaluator is None where it breaks its rules.
pub fn step(evaluator: &mut Option<Evaluator>, record: &[u8]) -> Answer<[u64; 4]> {
    if record.len() != 48 {
        return refuse(LENGTH, 0);
    }
    let Some(e) = evaluator else {
        return refuse(FIELD, 0);
    };
    if !e.settings.meets_rules() || e.loss.len() as u64 > INTERVALS || e.loss.len() != e.composite.len() {
        return refuse(FIELD, 0);
    }
    let Some(i) = read_interval(record) else {
        return refuse(FIELD, 0);
    };
    if i.number != e.loss.len() as u64 {
        return refuse(ORDER, 0);
    }
    let n = e.settings.n as usize;
    let loss = feed(n, &mut e.loss, high_loss(&e.settings, &i));
    let composite = feed(n, &mut e.composite, high_composite(&e.settings, &i));
    Ok([loss[0], loss[1], composite[0], composite[1]])
}

/// The same with the evaluator as words, altered where they stand; words behind the 13th stay.
pub fn step_words(words: &mut [u64], record: &[u8], room_words: usize) -> Answer<[u64; 4]> {
    if record.len() != 48 || words.len() < EVALUATOR_WORDS {
        return refuse(LENGTH, 0);
    }
    room_for_words(room_words, 4)?;
    let mut evaluator = Evaluator::of_words(words);
    let settled = step(&mut evaluator, record)?;
    if let Some(e) = evaluator {
        words[..EVALUATOR_WORDS].copy_from_slice(&e.words());
    }
    Ok(settled)
}
