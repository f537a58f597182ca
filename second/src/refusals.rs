//! The numbered refusals, and the checks of lengths and room that several operations share.

pub const SETTINGS: u32 = 1;
pub const LENGTH: u32 = 2;
pub const ROOM: u32 = 3;
pub const FULL: u32 = 4;
pub const FIELD: u32 = 5;
pub const OUTSIDE: u32 = 6;
pub const ORDER: u32 = 7;
pub const MISMATCH: u32 = 8;
pub const PAIRS: u32 = 9;

#[derive(Clone, Copy, Debug, PartialEq, Eq)]
pub struct Refusal {
    pub number: u32,
    pub place: u64,
}

pub type Answer<T> = Result<T, Refusal>;

pub fn refuse<T>(number: u32, place: usize) -> Answer<T> {
    Err(Refusal { number, place: place as u64 })
}

/// ROOM unless a buffer of `length` bytes has `size` bytes from `at` on.
pub fn room(length: usize, at: usize, size: usize) -> Answer<()> {
    if at > length || length - at < size {
        return refuse(ROOM, 0);
    }
    Ok(())
}

/// The records of `size` bytes each, or LENGTH where they do not come out even.
pub fn whole(bytes: &[u8], size: usize) -> Answer<Vec<&[u8]>> {
    if bytes.len() % size != 0 {
        return refuse(LENGTH, 0);
    }
    Ok(bytes.chunks(size).collect())
}

/// ROOM unless a word output of `length` words takes `size` words.
pub fn room_for_words(length: usize, size: usize) -> Answer<()> {
    if length < size {
        return refuse(ROOM, 0);
    }
    Ok(())
}
