//! The program against the second program, on many directories: `./compare-program [SECONDS [SEED [CASE]]]` builds and runs it. First the samples are held
//! to their expected texts. A case is made from the seed and its number alone, so a case that fails can be run again by itself. Some cases hand the
//! intervals over through a pipe, in writes of odd sizes, so that reads are short; some put a `read` before the C library's that is interrupted every other time.
mod inputs;
#[allow(dead_code)]
mod random;

use inputs::*;
use random::Random;
use second::records::read_settings;
use std::fs;
use std::io::Write;
use std::path::{Path, PathBuf};
use std::process::Command;
use std::time::{Duration, Instant};

/// What stands under a file's name.
#[derive(Clone)]
enum Entry {
    Missing,
    Directory,
    File(Vec<u8>),
    /// The bytes come through a pipe, in writes of these sizes.
    Pipe(Vec<u8>, Vec<usize>),
}

impl Entry {
    /// What can be read of it as a file.
    fn read(&self) -> Option<Vec<u8>> {
        match self {
            Entry::File(bytes) | Entry::Pipe(bytes, _) => Some(bytes.clone()),
            _ => None,
        }
    }

    fn place(&self, path: &Path) -> std::io::Result<()> {
        let _ = fs::remove_file(path);
        let _ = fs::remove_dir(path);
        match self {
            Entry::Missing => Ok(()),
            Entry::Directory => fs::create_dir(path),
            Entry::File(bytes) => fs::write(path, bytes),
            Entry::Pipe(..) => Command::new("mkfifo").arg(path).status().map(|_| ()),
        }
    }

    fn shown(&self) -> String {
        match self {
            Entry::Missing => "missing".to_string(),
            Entry::Directory => "a directory".to_string(),
            Entry::File(bytes) => hex(bytes),
            Entry::Pipe(bytes, sizes) => format!("through a pipe, {sizes:?}: {}", hex(bytes)),
        }
    }
}

/// The program, and the library with a `read` that is interrupted.
struct Ours {
    program: PathBuf,
    interrupted: PathBuf,
}

/// What the program prints in a directory.
fn printed(
    ours: &Ours,
    is_interrupted: bool,
    directory: &Path,
    intervals: &Entry,
) -> std::io::Result<String> {
    let mut run = Command::new(&ours.program);
    run.current_dir(directory)
        .stdout(std::process::Stdio::piped());
    if is_interrupted {
        run.env("PRELOAD", &ours.interrupted);
    }
    let child = run.spawn()?;
    if let Entry::Pipe(bytes, sizes) = intervals {
        let mut to = fs::OpenOptions::new()
            .write(true)
            .open(directory.join("intervals.rec"))?;
        let mut rest = &bytes[..];
        for size in sizes.iter().cycle() {
            if rest.is_empty() {
                break;
            }
            let (piece, more) = rest.split_at((*size).min(rest.len()));
            to.write_all(piece)?;
            rest = more;
        }
    }
    let output = child.wait_with_output()?;
    Ok(String::from_utf8_lossy(&output.stdout).into_owned())
}

/// The settings and the intervals of a case.
fn directory(r: &mut Random, index: u64) -> (Entry, Entry) {
    let bytes = settings(r, 8);
    let by = read_settings(&bytes).unwrap_or_else(|| read_settings(&valid_settings(r)).unwrap());
    let settings = match r.below(40) {
        0 => Entry::Missing,
        1 => Entry::Directory,
        2 => Entry::File(Vec::new()),
        _ => Entry::File(bytes),
    };
    let count = match r.below(12) {
        // about as many records as one or two reads take
        0 => r.pick(&[1_022, 1_023, 1_024, 1_025, 2_047, 2_048, 2_049, 4_000]),
        1 => r.index(6_000),
        _ => some_count(r, 300),
    };
    let first = if r.one_in(30) { r.from_to(1, 3) } else { 0 };
    let mut records = written(&valid_intervals(r, &by.label, first, count));
    for _ in 0..faults(r, index) {
        damage_intervals(r, &mut records);
    }
    if r.one_in(12) {
        let more = r.from_to(1, 47) as usize;
        records.extend(r.bytes(more));
    }
    let intervals = match r.below(40) {
        0 => Entry::Missing,
        1 => Entry::Directory,
        2 => Entry::File(Vec::new()),
        3..=5 if matches!(settings, Entry::File(_)) => {
            let sizes = (0..r.from_to(1, 4))
                .map(|_| r.pick(&[1, 47, 48, 49, 100, 4_801, 70_000]))
                .collect();
            Entry::Pipe(records, sizes)
        }
        _ => Entry::File(records),
    };
    (settings, intervals)
}

fn case(program: &Ours, directory_path: &Path, seed: u64, index: u64) -> Result<(), String> {
    let mut r = Random::of_case(seed, "evaluate", index);
    let (settings, intervals) = directory(&mut r, index);
    let is_interrupted = r.one_in(6);
    let place = || -> std::io::Result<String> {
        settings.place(&directory_path.join("settings.rec"))?;
        intervals.place(&directory_path.join("intervals.rec"))?;
        printed(program, is_interrupted, directory_path, &intervals)
    };
    let ours = place().map_err(|e| e.to_string())?;
    let theirs = second::program::evaluate(settings.read(), intervals.read());
    if ours == theirs {
        return Ok(());
    }
    Err(format!(
        "interrupted: {is_interrupted}\nours:\n{ours}the second program's:\n{theirs}settings.rec {}\nintervals.rec {}",
        settings.shown(),
        intervals.shown()
    ))
}

/// The samples and the texts that they must give.
fn samples() -> Vec<(&'static str, Vec<&'static str>, &'static str)> {
    vec![
        ("samples/month", vec!["intervals.rec"], "expected"),
        ("examples/outage", vec!["part1.rec"], "part1.expected"),
        (
            "examples/outage",
            vec!["part2-alone.rec"],
            "part2-alone.expected",
        ),
        (
            "examples/outage",
            vec!["part1.rec", "part2.rec"],
            "joined.expected",
        ),
    ]
}

fn sample(
    program: &Ours,
    scratch: &Path,
    from: &str,
    parts: &[&str],
    expected: &str,
) -> std::io::Result<()> {
    let read = |name: &str| fs::read(Path::new(from).join(name));
    let mut intervals = Vec::new();
    for part in parts {
        intervals.extend(read(part)?);
    }
    let (settings, intervals) = (Entry::File(read("settings.rec")?), Entry::File(intervals));
    settings.place(&scratch.join("settings.rec"))?;
    intervals.place(&scratch.join("intervals.rec"))?;
    let ours = printed(program, false, scratch, &intervals)?;
    let theirs = second::program::evaluate(settings.read(), intervals.read());
    let told = String::from_utf8_lossy(&read(expected)?).into_owned();
    if ours != told || theirs != told {
        println!(
            "{from}/{expected} DIFFERS\nours:\n{ours}the second program's:\n{theirs}expected:\n{told}"
        );
        std::process::exit(1);
    }
    Ok(())
}

fn main() -> std::io::Result<()> {
    let arguments: Vec<String> = std::env::args().skip(1).collect();
    let number = |k: usize| {
        arguments
            .get(k)
            .map(|text| text.parse::<u64>().expect("a number"))
    };
    let program = Ours {
        program: fs::canonicalize(&arguments[0])?,
        interrupted: fs::canonicalize(&arguments[1])?,
    };
    let scratch: PathBuf =
        std::env::temp_dir().join(format!("compare-program-{}", std::process::id()));
    fs::create_dir_all(&scratch)?;
    let (seconds, seed) = (number(2).unwrap_or(15), number(3).unwrap_or(1));
    for (from, parts, expected) in samples() {
        sample(&program, &scratch, from, &parts, expected)?;
    }
    let begun = Instant::now();
    let cases = match number(4) {
        Some(index) => index..index + 1,
        None => 0..u64::MAX,
    };
    let mut count = 0;
    for index in cases {
        if number(4).is_none() && begun.elapsed() >= Duration::from_secs(seconds) {
            break;
        }
        if let Err(fault) = case(&program, &scratch, seed, index) {
            println!("the program DIFFERS in case {index} of seed {seed}\n{fault}");
            println!("again with: ./compare-program 0 {seed} {index}");
            std::process::exit(1);
        }
        count += 1;
    }
    fs::remove_dir_all(&scratch)?;
    println!(
        "evaluate: {} samples and {count} directories, the same",
        samples().len()
    );
    Ok(())
}
