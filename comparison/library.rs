//! What calls of the library should answer, and the memory that is lent to them.
use crate::counts::met;
pub use crate::exports::*;
use crate::random::Random;
use second::refusals::Answer;

/// What a call should answer as one word.
pub fn word<T>(answer: &Answer<T>) -> u64 {
    match answer {
        Ok(_) => 0,
        Err(r) => ((r.number as u64) << 32) + r.place,
    }
}

/// Compares the word of a call of the case's operation with the one expected, which is counted.
pub fn same_word<T>(got: u64, answer: &Answer<T>) -> Result<(), String> {
    match answer {
        Ok(_) => met("answered", 0),
        Err(r) => met("refused", r.number as u64),
    }
    same_beside(got, answer)
}

/// Compares the word of any other call with the one expected.
pub fn same_beside<T>(got: u64, answer: &Answer<T>) -> Result<(), String> {
    let told = |w: u64| {
        if w == 0 {
            "answered".to_string()
        } else {
            format!("refused {} {}", w >> 32, w as u32)
        }
    };
    let expected = word(answer);
    if got == expected {
        Ok(())
    } else {
        Err(format!(
            "the library {}, the second program {}",
            told(got),
            told(expected)
        ))
    }
}

/// Memory that is lent, with more around it that must stay.
pub struct Lent<T> {
    all: Vec<T>,
    was: Vec<T>,
    from: usize,
    length: usize,
}

const AROUND: usize = 40;

impl<T: Copy + PartialEq + std::fmt::Debug> Lent<T> {
    fn of(all: Vec<T>, from: usize, length: usize) -> Lent<T> {
        Lent {
            was: all.clone(),
            all,
            from,
            length,
        }
    }

    pub fn part(&mut self) -> &mut [T] {
        &mut self.all[self.from..self.from + self.length]
    }

    /// Nothing but `content`, from `at` on, may have changed.
    pub fn holds(&self, name: &str, at: usize, content: &[T]) -> Result<(), String> {
        let mut expected = self.was.clone();
        expected[self.from + at..self.from + at + content.len()].copy_from_slice(content);
        for i in 0..expected.len() {
            if expected[i] != self.all[i] {
                let place = i as i64 - self.from as i64;
                return Err(format!(
                    "{name} holds {:?} at {place}, not {:?}",
                    self.all[i], expected[i]
                ));
            }
        }
        Ok(())
    }

    pub fn untouched(&self, name: &str) -> Result<(), String> {
        self.holds(name, 0, &[])
    }

    /// The same, as the answer says: `content` where it is answered, nothing where it is refused.
    pub fn as_answered(
        &self,
        name: &str,
        at: usize,
        answer: &Answer<Vec<T>>,
    ) -> Result<(), String> {
        match answer {
            Ok(content) => self.holds(name, at, content),
            Err(_) => self.untouched(name),
        }
    }
}

/// Bytes of random content, at any alignment.
#[allow(dead_code)]
pub fn lent_bytes(r: &mut Random, length: usize) -> Lent<u8> {
    let from = AROUND + r.index(8);
    Lent::of(r.bytes(from + length + AROUND), from, length)
}

/// Words of random content.
pub fn lent_words(r: &mut Random, length: usize) -> Lent<u64> {
    Lent::of(r.words(length + 2 * AROUND), AROUND, length)
}

/// These words, with others around them.
#[allow(dead_code)]
pub fn lent_these(r: &mut Random, words: &[u64]) -> Lent<u64> {
    let mut all = r.words(words.len() + 2 * AROUND);
    all[AROUND..AROUND + words.len()].copy_from_slice(words);
    Lent::of(all, AROUND, words.len())
}

/// The length of a buffer and an offset for an output of `size`, often at the edge of what is enough.
#[allow(dead_code)]
pub fn room(r: &mut Random, size: usize) -> (usize, usize) {
    let at = r.index(60);
    let length = at + size + r.index(60);
    match r.below(40) {
        0 => (at + size, at),
        1 if size > 0 => (at + size - 1, at),
        2 => (length, length),
        3 => (length, length + 1),
        4 => (length, usize::MAX),
        5 => (length, usize::MAX - size),
        6 => (length, (usize::MAX - size).wrapping_add(1)),
        7 => (length, (usize::MAX - size).wrapping_add(1 + at)),
        8 => (r.index(size + 2), r.index(3)),
        9 => (length, length.wrapping_sub(size)),
        10 => (length, (length + 1).saturating_sub(size)),
        _ => (length, at),
    }
}
