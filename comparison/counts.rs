//! How often each answer was met in an operation's cases, and how often it must be met at least.
use std::collections::BTreeMap;
use std::sync::Mutex;

/// A kind of answer, as "refused" or the name of an objective, and a value of it: how often it was met.
type Counts = BTreeMap<(&'static str, u64), u64>;

static MET: Mutex<Counts> = Mutex::new(BTreeMap::new());

/// For each value of a kind of answer, how often it must be met.
type Bounds = &'static [(&'static str, &'static [(u64, u64)])];

/// By operation, all that it can answer, with the numbers of refusals that include/mippadusk.h names. "5 at" and the like are refusals of
/// summaries by place: 0 to 2 in the first pair, 3 to 5 for the same places in a later one. The cases that run whatever the time meet
/// each value about four times as often, so that no seed misses a bound.
const BOUNDS: [(&str, Bounds); 11] = [
    ("fullest", &[("answered", &[(0, 6)])]),
    ("former", &[("answered", &[(0, 5)])]),
    (
        "mip_interval",
        &[
            ("answered", &[(0, 150)]),
            (
                "refused",
                &[
                    (1, 45),
                    (2, 45),
                    (3, 50),
                    (4, 15),
                    (5, 50),
                    (6, 25),
                    (7, 20),
                ],
            ),
        ],
    ),
    (
        "mip_labels",
        &[
            ("answered", &[(0, 150)]),
            ("refused", &[(1, 45), (2, 50), (3, 50), (5, 50), (7, 25)]),
            ("loss", &[(0, 50), (1, 100), (2, 50)]),
            ("composite", &[(0, 50), (1, 100), (2, 50)]),
        ],
    ),
    (
        "mip_start",
        &[("answered", &[(0, 300)]), ("refused", &[(1, 150), (3, 35)])],
    ),
    (
        "mip_step",
        &[
            ("answered", &[(0, 7_500)]),
            ("refused", &[(2, 50), (3, 25), (5, 300), (7, 25)]),
            ("evaluator refused", &[(5, 100)]),
            ("loss", &[(0, 1_000), (1, 2_500), (2, 3_500)]),
            ("composite", &[(0, 1_500), (1, 2_500), (2, 3_000)]),
        ],
    ),
    (
        "mip_summary",
        &[
            ("answered", &[(0, 150)]),
            ("refused", &[(1, 45), (2, 50), (3, 50), (5, 100), (7, 30)]),
        ],
    ),
    (
        "mip_join",
        &[
            ("answered", &[(0, 2_500)]),
            ("refused", &[(2, 50), (3, 40), (5, 25), (7, 45), (8, 20)]),
            ("5 at", &[(0, 10), (1, 10)]),
            ("7 at", &[(1, 45)]),
            ("8 at", &[(1, 20)]),
        ],
    ),
    (
        "mip_report",
        &[
            ("answered", &[(0, 200)]),
            ("refused", &[(2, 25), (3, 45), (5, 50), (7, 100), (8, 40)]),
            ("5 at", &[(0, 25), (1, 20), (2, 20)]),
            ("7 at", &[(0, 45), (1, 30), (2, 20)]),
            ("8 at", &[(1, 30), (2, 10)]),
        ],
    ),
    (
        "mip_verdicts",
        &[
            ("answered", &[(0, 600)]),
            (
                "refused",
                &[
                    (1, 50),
                    (2, 100),
                    (3, 150),
                    (5, 200),
                    (7, 400),
                    (8, 250),
                    (9, 50),
                ],
            ),
            (
                "5 at",
                &[(0, 45), (1, 45), (2, 45), (3, 20), (4, 20), (5, 20)],
            ),
            (
                "7 at",
                &[(0, 100), (1, 50), (2, 50), (3, 45), (4, 50), (5, 40)],
            ),
            (
                "8 at",
                &[(0, 100), (1, 30), (2, 25), (3, 35), (4, 10), (5, 10)],
            ),
            ("availability", &[(0, 250), (1, 300), (2, 100)]),
            ("composite", &[(0, 250), (1, 300), (2, 90)]),
            ("loss", &[(0, 150), (1, 350), (2, 50)]),
            ("mean", &[(0, 300), (1, 250), (2, 35)]),
            ("high", &[(0, 100), (1, 400), (2, 75)]),
            ("runs", &[(0, 20), (1, 500), (2, 12)]),
        ],
    ),
    (
        "mip_delays",
        &[
            ("answered", &[(0, 300)]),
            ("refused", &[(1, 50), (3, 40), (4, 15), (5, 50)]),
            ("percentile", &[(0, 100), (1, 200)]),
            ("range", &[(0, 45), (1, 250)]),
        ],
    ),
];

/// Counts an answer.
pub fn met(kind: &'static str, value: u64) {
    *MET.lock().unwrap().entry((kind, value)).or_insert(0) += 1;
}

/// Counts an answer of each kind.
pub fn met_each(kinds: &[&'static str], values: &[u64]) {
    for (kind, value) in kinds.iter().zip(values) {
        met(kind, *value);
    }
}

/// All that was met since the last call, in few words; and a line for each bound that it misses and for each answer that has none, as
/// the operation cannot give it.
pub fn taken(operation: &str) -> (String, Vec<String>) {
    let mut counts = std::mem::take(&mut *MET.lock().unwrap());
    let (_, bounds) = BOUNDS.iter().find(|(name, _)| *name == operation).unwrap();
    let (mut kinds, mut missed) = (Vec::new(), Vec::new());
    for (kind, values) in *bounds {
        let mut shown = Vec::new();
        for (value, least) in *values {
            let count = counts.remove(&(*kind, *value)).unwrap_or(0);
            shown.push(format!("{value}: {count}"));
            if count < *least {
                missed.push(format!(
                    "{operation} TOO RARE: {kind} {value} met {count} times, at least {least} must be"
                ));
            }
        }
        kinds.push(format!("{kind} {}", shown.join(", ")));
    }
    for ((kind, value), count) in counts {
        missed.push(format!(
            "{operation} NOT EXPECTED: {kind} {value} met {count} times"
        ));
    }
    (kinds.join("; "), missed)
}
