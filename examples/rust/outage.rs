//! An outage of five intervals lies across the cut between two stretches, and is shorter than n = 4 on either side of it. Each stretch is
//! summarised by itself, and the two summaries are joined: the record is that of the uncut stretch, with the five unavailable.
//!
//! Built with libmippadusk.a, as ./examples/run does. A failed assertion ends it with 101.

/// The functions of include/mippadusk.h behind slices.
mod mippadusk {
    mod c {
        unsafe extern "C" {
            pub fn mip_summary(
                settings: *const u8,
                settings_len: usize,
                first: u64,
                intervals: *const u8,
                intervals_len: usize,
                out: *mut u8,
                out_len: usize,
                at: usize,
            ) -> u64;
            pub fn mip_join(
                left: *const u8,
                left_len: usize,
                right: *const u8,
                right_len: usize,
                out: *mut u8,
                out_len: usize,
                at: usize,
            ) -> u64;
        }
    }

    pub type Summary = [u8; 1024];

    #[derive(Debug, PartialEq)]
    pub struct Refused {
        pub number: u32,
        pub place: u32,
    }

    fn told(word: u64, out: Summary) -> Result<Summary, Refused> {
        match word {
            0 => Ok(out),
            _ => Err(Refused {
                number: (word >> 32) as u32,
                place: word as u32,
            }),
        }
    }

    pub fn summary(settings: &[u8], first: u64, intervals: &[u8]) -> Result<Summary, Refused> {
        let mut out = [0; 1024];
        // SAFETY: the pointers and lengths are those of live slices, and `out` overlaps none.
        let word = unsafe {
            c::mip_summary(
                settings.as_ptr(),
                settings.len(),
                first,
                intervals.as_ptr(),
                intervals.len(),
                out.as_mut_ptr(),
                out.len(),
                0,
            )
        };
        told(word, out)
    }

    pub fn join(left: &[u8], right: &[u8]) -> Result<Summary, Refused> {
        let mut out = [0; 1024];
        // SAFETY: as above.
        let word = unsafe {
            c::mip_join(
                left.as_ptr(),
                left.len(),
                right.as_ptr(),
                right.len(),
                out.as_mut_ptr(),
                out.len(),
                0,
            )
        };
        told(word, out)
    }
}

use mippadusk::{Refused, Summary};

const COUNT: usize = 16;
const CUT: usize = 6;

// Records are little-endian.
fn put(record: &mut [u8], at: usize, x: u32) {
    record[at..at + 4].copy_from_slice(&x.to_le_bytes());
}

fn get(record: &[u8], at: usize) -> u32 {
    u32::from_le_bytes(record[at..at + 4].try_into().unwrap())
}

/// Intervals of 1,000 ms, n = 4, loss alone counts, high above one half.
fn settings() -> [u8; 64] {
    let mut s = [0; 64];
    put(&mut s, 0, 1_000);
    s[4] = 4;
    s[6] = 1;
    put(&mut s, 8, 500_000);
    put(&mut s, 12, 500_000);
    put(&mut s, 48, 999_000);
    s
}

/// Ten frames sent; in the outage, intervals 4 to 8, all are lost, and else each arrives after 1,000 ns.
fn interval(number: usize) -> [u8; 48] {
    let mut r = [0; 48];
    put(&mut r, 0, number as u32);
    put(&mut r, 4, 10);
    if (4..=8).contains(&number) {
        put(&mut r, 8, 10);
    } else {
        put(&mut r, 16, 9);
        put(&mut r, 24, 10_000);
        put(&mut r, 32, 1_000);
        put(&mut r, 36, 1_000);
    }
    r
}

/// What a summary says of itself, and its loss track of its first run, of what lies between, and of its last run: docs/RECORDS.md has the
/// offsets.
fn show(name: &str, s: &Summary) {
    let run = |at: usize| {
        format!(
            "{} {}",
            get(s, at + 4),
            if get(s, at) == 0 { "low" } else { "high" }
        )
    };
    println!(
        "{name} {} to {}: first run {}, between {} unavailable, last run {}",
        get(s, 0),
        get(s, 4),
        run(32 + 8),
        get(s, 32 + 64 + 4),
        run(32 + 160)
    );
}

fn main() -> Result<(), Refused> {
    let settings = settings();
    let intervals: Vec<u8> = (0..COUNT).flat_map(interval).collect();
    let (earlier, later) = intervals.split_at(CUT * 48);

    let left = mippadusk::summary(&settings, 0, earlier)?;
    let right = mippadusk::summary(&settings, CUT as u64, later)?;
    let joined = mippadusk::join(&left, &right)?;
    let uncut = mippadusk::summary(&settings, 0, &intervals)?;

    show("left", &left);
    show("right", &right);
    show("joined", &joined);
    assert_eq!((get(&joined, 0), get(&joined, 4)), (0, COUNT as u32));
    assert_eq!(get(&joined, 32 + 64 + 4), 5);
    assert!(joined == uncut);
    println!("joined and uncut: the same {} bytes", joined.len());

    let refused = mippadusk::join(&right, &left).unwrap_err();
    println!(
        "right before left: refused {} {}",
        refused.number, refused.place
    );
    assert_eq!(
        refused,
        Refused {
            number: 7,
            place: 1
        }
    );
    Ok(())
}
