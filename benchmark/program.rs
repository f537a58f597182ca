//! Speed of the program on 3,000,000 intervals with the page cache warm, against plain Rust that reads the same file the same way, checks the same rules and
//! prints the same lines, and against `cat` and `wc -c` of the file: `./bench-program` builds and runs it. Every way is a process of its own; a time is its
//! processor time, the kernel's for it included, so that other work on the machine disturbs it less.
#[allow(dead_code)]
mod records;

use records::{FRAMES, INTERVALS as RECORDS, LARGEST};
use std::fs::{self, File};
use std::io::Read;
use std::path::Path;
use std::process::{Command, Stdio};

const ROUNDS: usize = 15;

// The plain program.

fn u32_at(s: &[u8], at: usize) -> u32 {
    u32::from_le_bytes(s[at..at + 4].try_into().unwrap())
}

struct Settings {
    n: u32,
    p: u32,
    weights: u8,
    c: u64,
    u: u64,
    objectives: [u64; 6],
}

fn read_settings(s: &[u8]) -> Option<Settings> {
    const MILLION: u32 = 1_000_000;
    if s.len() != 64 {
        return None;
    }
    let word = |at| u32_at(s, at);
    let (n, p) = (s[4] as u32, s[5] as u32);
    let valid = (100..=60_000).contains(&word(0))
        && (1..=64).contains(&n)
        && (p == 0 || (2..n).contains(&p))
        && (1..=7).contains(&s[6])
        && s[7] == 0
        && (1..MILLION).contains(&word(8))
        && (1..MILLION).contains(&word(12))
        && [16, 20, 36, 52, 56].iter().all(|at| word(*at) <= LARGEST)
        && [24, 28, 32].iter().all(|at| word(*at) <= MILLION)
        && (p != 0 || word(44) == 0)
        && (1..=MILLION).contains(&word(48))
        && word(60) == 0;
    valid.then(|| Settings {
        n,
        p,
        weights: s[6],
        c: word(8) as u64,
        u: word(12) as u64,
        objectives: [24, 28, 32, 36, 40, 44].map(|at| word(at) as u64),
    })
}

#[derive(Clone, Copy)]
struct Interval {
    sent: u32,
    lost: u32,
    late: u32,
    pairs: u32,
    jumpy: u32,
    sum: u64,
    least: u32,
    most: u32,
    maintenance: bool,
}

/// The interval in 48 bytes, if it meets every rule; its number is handed back beside it.
fn read_interval(s: &[u8; 48]) -> Option<(u32, Interval)> {
    let word = |at| u32_at(s, at);
    let number = word(0);
    let v = Interval {
        sent: word(4),
        lost: word(8),
        late: word(12),
        pairs: word(16),
        jumpy: word(20),
        sum: u64::from_le_bytes(s[24..32].try_into().unwrap()),
        least: word(32),
        most: word(36),
        maintenance: s[40] == 1,
    };
    let last = u64::from_le_bytes(s[40..48].try_into().unwrap());
    let delivered = v.sent.wrapping_sub(v.lost);
    let counts = (number < RECORDS)
        & (v.sent <= FRAMES)
        & (v.lost <= v.sent)
        & (v.late <= delivered)
        & (v.jumpy <= v.pairs)
        & ((v.pairs < delivered) | ((delivered == 0) & (v.pairs == 0)))
        & (last <= 1);
    let low = v.least as u64 * delivered as u64;
    let high = v.most as u64 * delivered as u64;
    let delays = if delivered == 0 {
        (v.sum == 0) & (v.least == 0) & (v.most == 0)
    } else {
        (v.least <= v.most) & (v.most <= LARGEST) & (low <= v.sum) & (v.sum <= high)
    };
    (counts & delays).then_some((number, v))
}

fn high_composite(s: &Settings, v: &Interval) -> bool {
    let [loss, delay, variation] =
        [s.weights & 1, s.weights >> 1 & 1, s.weights >> 2].map(u64::from);
    let delivered = v.sent - v.lost;
    if v.sent == 0 {
        return false;
    }
    if loss == 0 && delivered == 0 || loss == 0 && delay == 0 && v.pairs == 0 {
        return true;
    }
    let failed = v.lost as u64 * loss + v.late as u64 * delay + v.jumpy as u64 * variation;
    let all = v.sent as u64 * loss + delivered as u64 * delay + v.pairs as u64 * variation;
    failed * 1_000_000 > s.u * all
}

#[derive(Clone, Copy, Default)]
struct Figures {
    count: u32,
    high: u32,
    runs: u32,
    sent: u64,
    lost: u64,
    sum: u64,
    least: u32,
    most: u32,
}

impl Figures {
    fn add(&mut self, v: &Interval) {
        self.count += 1;
        self.sent += v.sent as u64;
        self.lost += v.lost as u64;
        self.sum += v.sum;
        if v.lost < v.sent {
            self.least = self.least.min(v.least);
            self.most = self.most.max(v.most);
        }
    }

    fn join(&mut self, other: &Figures) {
        self.count += other.count;
        self.high += other.high;
        self.runs += other.runs;
        self.sent += other.sent;
        self.lost += other.lost;
        self.sum += other.sum;
        self.least = self.least.min(other.least);
        self.most = self.most.max(other.most);
    }
}

const NONE: Figures = Figures {
    count: 0,
    high: 0,
    runs: 0,
    sent: 0,
    lost: 0,
    sum: 0,
    least: u32::MAX,
    most: 0,
};

/// A track of intervals from 0: the label before the last run, that run, and the tallies before it.
struct Track {
    unavailable_now: bool,
    mark: bool,
    length: u32,
    streak: u32,
    run: Figures,
    available: Figures,
    unavailable: u32,
}

impl Track {
    fn new() -> Track {
        Track {
            unavailable_now: false,
            mark: false,
            length: 0,
            streak: 0,
            run: NONE,
            available: NONE,
            unavailable: 0,
        }
    }

    fn end_streak(&mut self, p: u32) {
        if p != 0 && self.streak >= p {
            self.run.runs += 1;
        }
        self.streak = 0;
    }

    fn shut(&mut self, s: &Settings) {
        self.end_streak(s.p);
        if self.length >= s.n {
            self.unavailable_now = self.mark;
        }
        if self.unavailable_now {
            self.unavailable += self.run.count;
        } else {
            self.available.join(&self.run);
        }
        self.run = NONE;
        self.length = 0;
    }

    #[inline(always)]
    fn take(&mut self, s: &Settings, mark: bool, v: &Interval) {
        if mark != self.mark {
            self.shut(s);
            self.mark = mark;
        }
        self.length += 1;
        if v.maintenance {
            self.end_streak(s.p);
        } else {
            self.run.add(v);
            if mark {
                self.run.high += 1;
                self.streak += 1;
            }
        }
    }

    /// The figures of the undecided intervals; the others are in the tallies.
    fn finish(&mut self, s: &Settings) -> Figures {
        if self.length >= s.n || self.mark == self.unavailable_now {
            self.shut(s);
            return NONE;
        }
        self.end_streak(s.p);
        self.run
    }
}

fn met(
    o: &[u64; 6],
    t: &Figures,
    unavailable: u32,
    acceptable: u32,
    unacceptable: u32,
) -> [bool; 6] {
    let enough = |objective: u64, good: u32, bad: u32| {
        good as u64 * 1_000_000 >= objective * (good + bad) as u64
    };
    [
        enough(o[0], t.count, unavailable),
        enough(o[1], acceptable, unacceptable),
        t.lost * 1_000_000 <= o[2] * t.sent,
        t.sum <= o[3] * (t.sent - t.lost),
        t.high as u64 <= o[4],
        t.runs as u64 <= o[5],
    ]
}

fn refused(number: u32, place: u64) -> String {
    format!("refused {number} {place}\n")
}

fn lines(s: &Settings, count: u32, mut loss: Track, mut composite: Track) -> String {
    let u = loss.finish(s);
    let undecided = composite.finish(s).count;
    let t = loss.available;
    let least = if t.sent > t.lost { t.least } else { 0 };
    let served = t.count + loss.unavailable + u.count;
    let (acceptable, unacceptable) = (composite.available.count, composite.unavailable);
    let mut all = t;
    all.join(&u);
    // the undecided intervals taken as available, and as unavailable
    let a = met(
        &s.objectives,
        &all,
        loss.unavailable,
        acceptable + undecided,
        unacceptable,
    );
    let b = met(
        &s.objectives,
        &t,
        loss.unavailable + u.count,
        acceptable,
        unacceptable + undecided,
    );
    let verdict = |k: usize| match (a[k], b[k]) {
        (true, true) => "met",
        (false, false) => "not met",
        _ => "not yet",
    };
    format!(
        "length {count} maintenance {}\navailable {} unavailable {} undecided {}\nhigh {} runs {}\nsent {} lost {}\ndelay {} {least} {}\n\
         composite {acceptable} {unacceptable} {undecided}\navailability {}\ncomposite {}\nloss {}\nmean {}\nhigh {}\nruns {}\n",
        count - served,
        t.count,
        loss.unavailable,
        u.count,
        t.high,
        t.runs,
        t.sent,
        t.lost,
        t.sum,
        t.most,
        verdict(0),
        verdict(1),
        verdict(2),
        verdict(3),
        verdict(4),
        verdict(5),
    )
}

/// What the plain program prints in the current directory. Interrupted reads are not made again: nothing interrupts it here.
fn plain() -> String {
    let Ok(settings) = fs::read("settings.rec") else {
        return "no file settings.rec\n".to_string();
    };
    let Ok(mut file) = File::open("intervals.rec") else {
        return "no file intervals.rec\n".to_string();
    };
    let settings = read_settings(&settings);
    let mut buffer = vec![0_u8; 49_152];
    let (mut have, mut count, mut fault) = (0, 0_u32, None);
    let (mut loss, mut composite) = (Track::new(), Track::new());
    loop {
        let Ok(got) = file.read(&mut buffer[have..]) else {
            return "no file intervals.rec\n".to_string();
        };
        if got == 0 {
            break;
        }
        have += got;
        let whole = have / 48 * 48;
        if let (Some(s), None) = (&settings, &fault) {
            for record in buffer[..whole].as_chunks::<48>().0 {
                let Some((number, v)) = read_interval(record) else {
                    fault = Some(refused(5, count as u64));
                    break;
                };
                if number != count {
                    fault = Some(refused(7, count as u64));
                    break;
                }
                count += 1;
                loss.take(s, v.lost as u64 * 1_000_000 > s.c * v.sent as u64, &v);
                composite.take(s, high_composite(s, &v), &v);
            }
        }
        buffer.copy_within(whole..have, 0);
        have -= whole;
    }
    match (settings, fault) {
        (None, _) => refused(1, 0),
        _ if have != 0 => refused(2, 0),
        (_, Some(text)) => text,
        (Some(s), None) => lines(&s, count, loss, composite),
    }
}

// The measurement.

struct Random(u64);

impl Random {
    fn below(&mut self, n: u64) -> u64 {
        self.0 ^= self.0 << 13;
        self.0 ^= self.0 >> 7;
        self.0 ^= self.0 << 17;
        (self.0 >> 16) % n
    }
}

/// An interval of 600 frames: lossy and late ones are high on both tracks.
fn record(number: u32, high: bool, random: &mut Random) -> [u8; 48] {
    let lost = if high { 500 } else { random.below(3) as u32 };
    let delivered = 600 - lost;
    let late = if high { delivered } else { 0 };
    let (least, mean, most) = (7_000_000, 8_000_000 + random.below(500_000), 9_000_000);
    let mut bytes = [0; 48];
    let words = [
        number,
        600,
        lost,
        late,
        delivered - 1,
        random.below(3) as u32,
    ];
    for (k, word) in words.iter().enumerate() {
        bytes[4 * k..4 * k + 4].copy_from_slice(&word.to_le_bytes());
    }
    bytes[24..32].copy_from_slice(&(mean * delivered as u64).to_le_bytes());
    bytes[32..36].copy_from_slice(&u32::to_le_bytes(least));
    bytes[36..40].copy_from_slice(&u32::to_le_bytes(most));
    bytes[40] = u8::from(random.below(50) == 0);
    bytes
}

/// A file of 3,000,000 intervals, each high once in `high_one_in` times.
fn prepare(directory: &Path, settings: &[u8], high_one_in: u64) -> std::io::Result<()> {
    fs::create_dir_all(directory)?;
    fs::write(directory.join("settings.rec"), settings)?;
    let mut random = Random(88_172_645_463_325_252);
    let intervals: Vec<u8> = (0..RECORDS)
        .flat_map(|number| {
            let high = random.below(high_one_in) == 0;
            record(number, high, &mut random)
        })
        .collect();
    fs::write(directory.join("intervals.rec"), intervals)
}

unsafe extern "C" {
    fn getrusage(who: i32, usage: *mut [i64; 18]) -> i32;
}

/// The processor time of all children that have ended, in milliseconds.
fn children() -> f64 {
    let mut usage = [0_i64; 18];
    unsafe { getrusage(-1, &mut usage) };
    let [user, user_part, system, system_part] = [0, 1, 2, 3].map(|k| usage[k] as f64);
    (user + system) * 1e3 + (user_part + system_part) / 1e3
}

fn main() -> std::io::Result<()> {
    let arguments: Vec<String> = std::env::args().collect();
    if arguments[1] == "plain" {
        print!("{}", plain());
        return Ok(());
    }
    let ours = fs::canonicalize(&arguments[1])?;
    let myself = fs::canonicalize(&arguments[0])?;
    let settings = fs::read("samples/month/settings.rec")?;
    println!(
        "3,000,000 intervals, 144 MB, in the page cache; milliseconds are the median of {ROUNDS} runs; x R: the other way takes R times as long as the program."
    );
    for (name, high_one_in) in [("calm month", 2_000), ("random marks", 2)] {
        let directory = std::env::temp_dir().join(format!("bench-program-{}", std::process::id()));
        prepare(&directory, &settings, high_one_in)?;
        let ways: [(&str, Vec<&str>); 4] = [
            ("program", vec![ours.to_str().unwrap()]),
            ("plain Rust", vec![myself.to_str().unwrap(), "plain"]),
            ("cat", vec!["cat", "intervals.rec"]),
            ("wc -c", vec!["wc", "-c", "intervals.rec"]),
        ];
        let mut times = vec![Vec::new(); ways.len()];
        let mut texts = Vec::new();
        for round in 0..=ROUNDS {
            for (k, (_, words)) in ways.iter().enumerate() {
                let mut command = Command::new(words[0]);
                command.args(&words[1..]).current_dir(&directory);
                let begun = children();
                if k == 2 {
                    command.stdout(File::create("/dev/null")?).status()?;
                } else {
                    let output = command.stdout(Stdio::piped()).output()?;
                    if round == 0 {
                        texts.push(String::from_utf8_lossy(&output.stdout).into_owned());
                    }
                }
                if round > 0 {
                    times[k].push(children() - begun);
                }
            }
        }
        assert!(
            texts[0] == texts[1],
            "ours:\n{}plain Rust's:\n{}",
            texts[0],
            texts[1]
        );
        for list in &mut times {
            list.sort_by(f64::total_cmp);
        }
        let median = |k: usize| times[k][ROUNDS / 2];
        print!("{name:14} program {:6.1} ms", median(0));
        for (k, (other, _)) in ways.iter().enumerate().skip(1) {
            print!(
                "   {other} {:6.1} ms, x {:.2}",
                median(k),
                median(k) / median(0)
            );
        }
        println!();
        fs::remove_dir_all(&directory)?;
    }
    Ok(())
}
