//! Speed of the library against plain Rust, in one run: `./bench [NAME]` builds it and runs the rows whose name has
//! NAME in it.
//!
//! A module for each group of operations has the same work in plain Rust, written for speed, with every check of the library; `compare`
//! holds the two to each other on damaged inputs, and `rows` gives the inputs to measure. To add an operation: its function in `comparison/exports.rs`, a
//! module, and a line in `main`.
mod delays;
mod evaluator;
mod frames;
mod inputs;
mod labels;
#[path = "../comparison/exports.rs"]
mod library;
mod records;
mod reports;
mod summaries;

use std::hint::black_box;

/// What a way leaves behind. It is compared with what the other ways leave.
#[derive(Clone, PartialEq)]
pub struct Out {
    pub bytes: Vec<u8>,
    pub words: Vec<u64>,
}

pub type Run<'a> = Box<dyn Fn(&mut Out) + 'a>;

/// One input, done by the library and in plain Rust.
pub struct Row<'a> {
    pub name: String,
    /// What is counted, how many, and how many bytes and words the work leaves.
    pub items: (&'static str, usize),
    pub leaves: (usize, usize),
    pub library: Run<'a>,
    /// The fastest of these stands for plain Rust.
    pub plain: Vec<(&'static str, Run<'a>)>,
    /// The bytes that the work has to read at least once, where they are many.
    pub reads: Option<&'a [u8]>,
}

const ROUNDS: usize = 15;

fn median(mut xs: Vec<f64>) -> f64 {
    xs.sort_by(f64::total_cmp);
    xs[xs.len() / 2]
}

/// Reading once: the sum of the words.
#[inline(never)]
fn read_once(bytes: &[u8]) -> u64 {
    let word = |w: &[u8]| u64::from_le_bytes(w.try_into().unwrap());
    bytes.chunks_exact(8).map(word).fold(0, u64::wrapping_add)
}

/// Seconds for which this thread has had a processor: what other work on the machine takes is not in it.
fn processor_time() -> f64 {
    #[repr(C)]
    struct Time {
        seconds: i64,
        nanoseconds: i64,
    }
    unsafe extern "C" {
        fn clock_gettime(clock: i32, time: *mut Time) -> i32;
    }
    const THREAD: i32 = 3;
    let mut time = Time {
        seconds: 0,
        nanoseconds: 0,
    };
    // SAFETY: `Time` is what Linux on x86-64 writes there.
    assert!(unsafe { clock_gettime(THREAD, &mut time) } == 0);
    time.seconds as f64 + time.nanoseconds as f64 * 1e-9
}

fn time(work: impl FnOnce()) -> f64 {
    let start = processor_time();
    work();
    processor_time() - start
}

/// Time in a unit that suits it.
fn shown(seconds: f64) -> String {
    match seconds {
        s if s < 1e-6 => format!("{:.1} ns", s * 1e9),
        s if s < 1e-3 => format!("{:.2} µs", s * 1e6),
        s => format!("{:.2} ms", s * 1e3),
    }
}

/// The ways take turns, so that a slow stretch of the machine meets them all. A time is the median of its rounds, a ratio the median of the
/// ratios of each round.
fn measure(row: &Row) {
    let poisoned = Out {
        bytes: vec![0xa5; row.leaves.0],
        words: vec![0xa5; row.leaves.1],
    };
    let mut expected = poisoned.clone();
    (row.library)(&mut expected);
    let runs: Vec<&Run> = std::iter::once(&row.library)
        .chain(row.plain.iter().map(|way| &way.1))
        .collect();
    let mut times = vec![Vec::new(); runs.len() + 1];
    for _ in 0..ROUNDS {
        for (k, run) in runs.iter().enumerate() {
            let mut out = poisoned.clone();
            times[k].push(time(|| run(&mut out)));
            assert!(
                out == expected,
                "{}: way {k} leaves something else",
                row.name
            );
        }
        if let Some(bytes) = row.reads {
            times[runs.len()].push(time(|| {
                black_box(read_once(black_box(bytes)));
            }));
        }
    }
    let ratio = |k: usize| median(times[0].iter().zip(&times[k]).map(|(a, b)| a / b).collect());
    let best = (1..runs.len())
        .min_by(|a, b| median(times[*a].clone()).total_cmp(&median(times[*b].clone())))
        .expect("a way in plain Rust");
    let ours = median(times[0].clone());
    let (reading, against) = match row.reads {
        Some(_) => (
            shown(median(times[runs.len()].clone())),
            format!("{:.2}", ratio(runs.len())),
        ),
        None => (String::new(), String::new()),
    };
    println!(
        "| {:46} | {:9} | {:15} | {:9} | {:9} | {:5.2} | {:8} | {:5} |",
        row.name,
        shown(ours),
        format!("{} a {}", shown(ours / row.items.1 as f64), row.items.0),
        shown(median(times[best].clone())),
        row.plain[best - 1].0,
        ratio(best),
        reading,
        against
    );
}

fn main() {
    let only = std::env::args().nth(1).unwrap_or_default();
    labels::compare();
    evaluator::compare();
    summaries::compare();
    reports::compare();
    frames::compare();
    delays::compare();
    println!(
        "On whole and damaged inputs the library and plain Rust leave the same and refuse the same.\n"
    );
    println!(
        "| work | library | | plain Rust | way | library / plain | reading once | library / reading |"
    );
    println!("|---|---|---|---|---|---|---|---|");
    let mut measure = |row: &Row| {
        if row.name.contains(&only) {
            measure(row);
        }
    };
    labels::rows(&mut measure);
    evaluator::rows(&mut measure);
    summaries::rows(&mut measure);
    reports::rows(&mut measure);
    frames::rows(&mut measure);
    delays::rows(&mut measure);
}
