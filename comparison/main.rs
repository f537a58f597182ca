//! The library against the second program, on many inputs: `./compare [SECONDS [SEED [OPERATION CASE]]]` builds and runs it.
//! The time is split evenly among the operations. A case is made from the seed, the operation's name and the
//! case's number alone, so a case that fails can be run again by itself. A run in which an answer or a refusal was met too rarely fails
//! too (`counts`). Two cases in front of the operations are the same for each seed: `fullest` and `former`.
mod counts;
mod delays;
mod evaluator;
mod exports;
mod former;
mod fullest;
mod inputs;
mod interval;
mod labels;
mod library;
mod random;
mod summaries;

use random::Random;
use std::time::{Duration, Instant};

/// Tries one case: an error says what differs, and shows the case.
type Try = fn(&mut Random, u64) -> Result<(), String>;

struct Operation {
    name: &'static str,
    /// Cases below this number are run whatever time they take; where it is 1 there are no others.
    least: u64,
    case: Try,
}

fn operations() -> Vec<Operation> {
    let all: [(&str, u64, Try); 11] = [
        ("fullest", 1, fullest::case),
        ("former", 1, former::case),
        ("mip_interval", 2_000, interval::case),
        ("mip_labels", 2_000, labels::case),
        ("mip_start", 2_000, evaluator::start_case),
        ("mip_step", 2_000, evaluator::step_case),
        ("mip_summary", 2_000, summaries::summary_case),
        ("mip_join", 2_000, summaries::join_case),
        ("mip_report", 2_000, summaries::report_case),
        ("mip_verdicts", 8_000, summaries::verdicts_case),
        ("mip_delays", 2_000, delays::case),
    ];
    all.into_iter()
        .map(|(name, least, case)| Operation { name, least, case })
        .collect()
}

/// Runs one case; a difference ends the program.
fn run(operation: &Operation, seed: u64, index: u64) {
    let mut r = Random::of_case(seed, operation.name, index);
    let tried = std::panic::catch_unwind(move || (operation.case)(&mut r, index));
    let fault = match tried {
        Ok(Ok(())) => return,
        Ok(Err(fault)) => fault,
        Err(_) => "the second program panics".to_string(),
    };
    println!("{} DIFFERS in case {index} of seed {seed}", operation.name);
    println!("{fault}");
    println!("again with: ./compare 0 {seed} {} {index}", operation.name);
    std::process::exit(1);
}

fn main() {
    let arguments: Vec<String> = std::env::args().skip(1).collect();
    let number = |k: usize, otherwise: u64| match arguments.get(k) {
        Some(text) => text
            .parse()
            .unwrap_or_else(|_| panic!("not a number: {text}")),
        None => otherwise,
    };
    let (seconds, seed) = (number(0, 120), number(1, 1));
    let operations = operations();
    if let Some(name) = arguments.get(2) {
        let operation = operations.iter().find(|o| o.name == name);
        run(
            operation.unwrap_or_else(|| panic!("no operation {name}")),
            seed,
            number(3, 0),
        );
        println!("{name} the same in case {} of seed {seed}", number(3, 0));
        return;
    }
    println!("the library against the second program, seed {seed}, {seconds} s");
    let timed = operations.iter().filter(|o| o.least > 1).count();
    let mut missed = Vec::new();
    for operation in &operations {
        let start = Instant::now();
        let budget = match operation.least {
            1 => Duration::ZERO,
            _ => Duration::from_secs_f64(seconds as f64 / timed as f64),
        };
        let mut index = 0;
        while index < operation.least || start.elapsed() < budget {
            run(operation, seed, index);
            index += 1;
        }
        let (counts, lines) = counts::taken(operation.name);
        println!(
            "{:12} {index:8} cases the same in {:5.1} s; calls {counts}",
            operation.name,
            start.elapsed().as_secs_f64(),
        );
        missed.extend(lines);
    }
    for line in &missed {
        println!("{line}");
    }
    if !missed.is_empty() {
        std::process::exit(1);
    }
}
