//! Times other concurrent maps at the workloads of `papaya-bench`: papaya 0.2, dashmap, scc,
//! flurry, and the standard library's map behind its lock. Keys, their order, hasher, capacities,
//! rounds, threads and the timed part are those of `papaya-bench`, and so is the form of the
//! printed lines. So the lines of both programs, run on one machine, compare one to one:
//!
//! ```text
//! cargo run --release              # what the calls return: it sums up alike for all maps
//! cargo run --release -- time      # WORKLOAD/MAP/KEYS STEPS NANOSECONDS SUM
//! cargo run --release -- grow      # maps that grow from empty, with single insertions
//! cargo run --release -- reclaim   # maps that are filled, from empty and with room
//! cargo run --release -- soak N    # N calls by four threads, and the memory of the process
//! ```
//!
//! `--no-default-features` leaves all maps out but the standard library's, and
//! `--features papaya,dashmap` brings single ones back. Without a registry cargo resolves none of
//! them: `rustc --edition 2021 -O src/main.rs -o other-maps` needs none.
//!
//! **What was tried.** The standard library's map ran in all five tasks. So did papaya 0.2.5, built
//! of its published sources over a stand-in for its collector, which frees nothing. The code for
//! dashmap, scc and flurry was compiled, and run, over stand-ins alone, which have the signatures
//! of their documentation. If a signature is another one by now, the compiler says so in `maps.rs`.

mod draw;
mod grow;
mod hasher;
mod maps;
mod plan;
mod soak;
mod work;

use maps::{Map, TextMap};
use plan::{Plan, Soak, Workload, Writes};
use std::io::{self, Write};
use std::process::ExitCode;
use work::Measure;

/// How many keys a map has, and in how many rounds, when sums are compared.
const CHECKED: (u32, u32) = (64, 2);

/// The same when workloads are timed.
const TIMED: [(u32, u32); 2] = [(0x1000, 64), (0x1_0000, 4)];

/// How many keys a map has that is timed at few workloads, and does not fit in a cache.
const LARGE: u32 = 0x10_0000;

/// In how many rounds a key is written that is alone in its map.
const ALONE: u32 = 0x4_0000;

/// How many keys a map grows to in `reclaim`, and in `grow`.
const GROWN: u32 = 0x1_0000;
const GROWN_TO: [u32; 3] = [0x1000, 0x1_0000, 0x10_0000];

/// How many keys a map is made for, and how often they are inserted.
const FILLED: [(u32, u32); 3] = [(0x1_0000, 1), (LARGE, 1), (1000, 1001)];

/// How many calls a soak makes, and what they do at how many keys.
const SOAKED: u32 = 100_000_000;
const SOAKS: [(Writes, u32); 3] = [
    (Writes::OneInTen, 1000),
    (Writes::All, 1000),
    (Writes::OneInTen, 0x10_0000),
];

/// What was printed, or why the program ends.
type Printed = io::Result<()>;

/// A map, by the functions that do its work.
struct Subject {
    name: &'static str,
    computes: bool,
    pins_each_call: bool,
    by_one: fn(Plan) -> Measure,
    by_threads: fn(Plan) -> Measure,
    texts_by_one: fn(Plan) -> Measure,
    texts_by_threads: fn(Plan) -> Measure,
    grow: fn(u32) -> Printed,
    from_empty: fn(u32) -> Printed,
    filled: fn(u32, u32) -> Printed,
    soak: fn(Soak) -> Printed,
}

impl Subject {
    fn of<M: Map, T: TextMap>() -> Subject {
        Subject {
            name: M::NAME,
            computes: M::COMPUTES,
            pins_each_call: M::PINS_EACH_CALL,
            by_one: work::by_one::<M>,
            by_threads: work::by_threads::<M>,
            texts_by_one: work::texts_by_one::<T>,
            texts_by_threads: work::texts_by_threads::<T>,
            grow: grow::grow::<M>,
            from_empty: grow::from_empty::<M>,
            filled: grow::filled::<M>,
            soak: soak::soak::<M>,
        }
    }

    /// Whether this workload is run on it.
    fn does(&self, workload: Workload) -> bool {
        match workload {
            Workload::Compute => self.computes,
            Workload::Enter => self.pins_each_call,
            _ => true,
        }
    }

    /// Measures a plan by one thread, and by four if its workload has that. Each measure has the
    /// name of its line.
    fn measures(&self, plan: Plan) -> Vec<(String, Measure)> {
        let (by_one, by_threads) = if plan.workload.has_texts() {
            (self.texts_by_one, self.texts_by_threads)
        } else {
            (self.by_one, self.by_threads)
        };
        let mut all = vec![(self.name.to_string(), by_one(plan))];
        if plan.workload.has_threads() {
            all.push((format!("{}-threads", self.name), by_threads(plan)));
        }
        all
    }
}

/// Returns the maps that this program was built with.
fn subjects() -> Vec<Subject> {
    vec![
        #[cfg(feature = "papaya")]
        Subject::of::<maps::papaya_maps::Papaya, maps::papaya_maps::PapayaTexts>(),
        #[cfg(feature = "papaya")]
        Subject::of::<maps::papaya_maps::PapayaPinACall, maps::papaya_maps::PapayaTextsPinACall>(),
        #[cfg(feature = "dashmap")]
        Subject::of::<maps::dashmap_maps::Dashmap, maps::dashmap_maps::DashmapTexts>(),
        #[cfg(feature = "scc")]
        Subject::of::<maps::scc_maps::Scc, maps::scc_maps::SccTexts>(),
        #[cfg(feature = "flurry")]
        Subject::of::<maps::flurry_maps::Flurry, maps::flurry_maps::FlurryTexts>(),
        Subject::of::<maps::StdRwLock, maps::StdTexts>(),
    ]
}

/// Prints a line at once: the work, the map, the number of keys, and figures.
fn print_line(work: &str, map: &str, keys: u32, figures: &[u128]) -> Printed {
    let mut output = io::stdout().lock();
    write!(output, "{work}/{map}/{keys}")?;
    for figure in figures {
        write!(output, " {figure}")?;
    }
    writeln!(output)?;
    output.flush()
}

/// Prints the sums of all maps at each workload, and fails if two differ.
fn check(subjects: &[Subject]) -> Printed {
    let (keys, rounds) = CHECKED;
    for workload in Workload::ALL {
        let plan = Plan {
            workload,
            keys,
            rounds,
        };
        let mut sums = Vec::new();
        for subject in subjects.iter().filter(|it| it.does(workload)) {
            for (name, measure) in subject.measures(plan) {
                sums.push((name, measure.sum));
            }
        }
        if sums.is_empty() {
            continue;
        }
        let words: String = sums
            .iter()
            .map(|(name, sum)| format!(" {name} {sum}"))
            .collect();
        writeln!(io::stdout(), "{}:{words}", workload.name())?;
        if sums.iter().any(|it| it.1 != sums[0].1) {
            return Err(io::Error::other("answers differ"));
        }
    }
    Ok(())
}

/// Times one workload: the loop alone, and each map by one thread and by four.
fn time_workload(subjects: &[Subject], plan: Plan) -> Printed {
    let print = |name: &str, measure: Measure| {
        let figures = [
            u128::from(plan.steps()),
            measure.nanoseconds,
            u128::from(measure.sum),
        ];
        print_line(plan.workload.name(), name, plan.keys, &figures)
    };
    if plan.workload != Workload::Iterate {
        print(maps::Idle::NAME, work::by_one::<maps::Idle>(plan))?;
    }
    for subject in subjects.iter().filter(|it| it.does(plan.workload)) {
        for (name, measure) in subject.measures(plan) {
            print(&name, measure)?;
        }
    }
    Ok(())
}

/// Times each workload, lookups in large maps, and one key that is replaced or counted again and
/// again.
fn time(subjects: &[Subject]) -> Printed {
    for (keys, rounds) in TIMED {
        for workload in Workload::ALL {
            time_workload(
                subjects,
                Plan {
                    workload,
                    keys,
                    rounds,
                },
            )?;
        }
    }
    for workload in [Workload::GetHit, Workload::GetMiss] {
        time_workload(
            subjects,
            Plan {
                workload,
                keys: LARGE,
                rounds: 1,
            },
        )?;
    }
    for workload in [Workload::InsertReplace, Workload::UpdateOrInsert] {
        time_workload(
            subjects,
            Plan {
                workload,
                keys: 1,
                rounds: ALONE,
            },
        )?;
    }
    Ok(())
}

/// Does what the arguments ask for. Returns None if they are bad.
fn run(words: &[&str]) -> Option<Printed> {
    let subjects = subjects();
    let mut each = subjects.iter();
    Some(match words {
        [] => check(&subjects),
        ["time"] => time(&subjects),
        ["grow"] => GROWN_TO
            .iter()
            .try_for_each(|keys| subjects.iter().try_for_each(|it| (it.grow)(*keys))),
        ["reclaim"] => each
            .try_for_each(|it| (it.from_empty)(GROWN))
            .and_then(|()| subjects.iter().try_for_each(|it| (it.from_empty)(LARGE)))
            .and_then(|()| {
                FILLED.iter().try_for_each(|(keys, rounds)| {
                    subjects
                        .iter()
                        .try_for_each(|it| (it.filled)(*keys, *rounds))
                })
            }),
        ["soak", count @ ..] => {
            let operations = match count {
                [] => SOAKED,
                [count] => count.parse().ok()?,
                _ => return None,
            };
            SOAKS.iter().try_for_each(|&(writes, keys)| {
                subjects.iter().try_for_each(|it| {
                    (it.soak)(Soak {
                        writes,
                        keys,
                        operations,
                    })
                })
            })
        }
        _ => return None,
    })
}

fn main() -> ExitCode {
    let words: Vec<String> = std::env::args().skip(1).collect();
    let words: Vec<&str> = words.iter().map(String::as_str).collect();
    let (failure, status) = match run(&words) {
        Some(Ok(())) => return ExitCode::SUCCESS,
        Some(Err(failure)) => (failure.to_string(), 1),
        None => ("bad arguments".to_string(), 2),
    };
    eprintln!("other-maps: {failure}");
    ExitCode::from(status)
}

#[cfg(test)]
mod tests {
    use super::*;
    use std::hash::{BuildHasher, Hasher};

    /// The sums that `papaya-bench` prints at each workload are those of each map here.
    #[test]
    fn sums_are_those_of_papaya_bench() {
        let text = include_str!("../../crates/papaya_bench/stdout");
        for workload in Workload::ALL {
            let head = format!("{}: ", workload.name());
            let line = text
                .lines()
                .find_map(|line| line.strip_prefix(&head))
                .expect("a line for each workload");
            let wanted: u64 = line
                .split(' ')
                .nth(1)
                .and_then(|word| word.parse().ok())
                .expect("a sum");
            let plan = Plan {
                workload,
                keys: CHECKED.0,
                rounds: CHECKED.1,
            };
            for subject in subjects().iter().filter(|it| it.does(workload)) {
                for (name, measure) in subject.measures(plan) {
                    assert_eq!(measure.sum, wanted, "{name} at {}", workload.name());
                }
            }
        }
    }

    /// The hash of 1, worked out by the formula with whole numbers.
    #[test]
    fn hashes_are_those_of_fold_hasher() {
        let mut hasher = hasher::Folding::default().build_hasher();
        hasher.write_u64(1);
        assert_eq!(hasher.finish(), 0x03d2_a734_2c2b_3f13);
    }

    const HASHES: [(&str, u64); 5] = [
        ("", 0xbd82_6d18_fab4_bbca),
        ("red", 0xf5cd_4919_37e7_b80c),
        ("password", 0x2d5f_fb79_6380_cc2d),
        ("alphabetical", 0xccbc_c985_4b0f_573f),
        ("the quick brown fox.", 0x44e3_db20_e27e_094b),
    ];

    /// The hashes of texts of 0, 3, 8, 12 and 20 bytes, worked out in the same way.
    #[test]
    fn hashes_of_texts_are_those_of_fold_hasher() {
        for (text, hash) in HASHES {
            assert_eq!(hasher::Folding::default().hash_one(text), hash, "{text}");
        }
    }
}
