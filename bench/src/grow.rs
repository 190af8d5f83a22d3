//! Maps that grow from empty: how long insertions take, and lookups beside them.
use crate::maps::{Map, Mode};
use crate::plan::{key_of, place_of, Part, Plan, Workload, THREADS};
use crate::work::{fill, in_threads};
use crate::{print_line, Printed};
use std::sync::atomic::{AtomicBool, AtomicU64, Ordering};
use std::thread;
use std::time::Instant;

/// How often a writer looks at most whether the readers have begun.
const LOOKS: u32 = 100_000;

/// Returns the resize modes of a map, each with the first word of its lines.
fn modes<M: Map>() -> &'static [(Mode, &'static str)] {
    if M::HAS_MODES {
        &[
            (Mode::Default, "grow-incremental"),
            (Mode::Blocking, "grow-blocking"),
        ]
    } else {
        &[(Mode::Default, "grow")]
    }
}

/// Inserts the keys of a part, with a pin for each. Returns the nanoseconds of each insertion.
fn insert_part<M: Map>(map: &M, part: Part) -> Vec<u128> {
    let mut times = Vec::with_capacity((part.end - part.start) as usize);
    for number in part.start..part.end {
        let start = Instant::now();
        M::insert(&map.pin(), key_of(number), number);
        times.push(start.elapsed().as_nanos());
    }
    times
}

/// Prints a line of insertions: how many, the nanoseconds of all, of the greatest, and at p50, p99
/// and p99.9.
fn print_times(word: &str, name: &str, keys: u32, all: u128, mut times: Vec<u128>) -> Printed {
    times.sort_unstable();
    let at = |thousandths| times.get(place_of(keys, thousandths)).copied().unwrap_or(0);
    print_line(
        word,
        name,
        keys,
        &[u128::from(keys), all, at(1000), at(500), at(990), at(999)],
    )
}

/// One thread makes the map grow.
fn by_one<M: Map>(mode: Mode, word: &str, keys: u32) -> Printed {
    let map = M::new(0, mode);
    let start = Instant::now();
    let times = insert_part(&map, Part::whole(keys));
    print_times(word, M::NAME, keys, start.elapsed().as_nanos(), times)
}

/// Four threads make the map grow, each by a quarter of the keys.
fn by_threads<M: Map>(mode: Mode, word: &str, keys: u32) -> Printed {
    let map = M::new(0, mode);
    let start = Instant::now();
    let parts = in_threads(&|thread| insert_part(&map, Part::of_thread(keys, thread)));
    let times = parts.concat();
    print_times(
        word,
        &format!("{}-threads", M::NAME),
        keys,
        start.elapsed().as_nanos(),
        times,
    )
}

/// How many gets one thread made, and the nanoseconds of the greatest one. Of the writer: 0, and
/// the nanoseconds of all insertions.
type Gets = (u64, u128);

/// Inserts all keys, once the three readers have begun or have not in `LOOKS` looks.
fn write<M: Map>(map: &M, keys: u32, ready: &AtomicU64) -> Gets {
    for _ in 0..LOOKS {
        if ready.load(Ordering::SeqCst) >= THREADS - 1 {
            break;
        }
        thread::yield_now();
    }
    let start = Instant::now();
    for number in 0..u64::from(keys) {
        M::insert(&map.pin(), key_of(number), number);
    }
    (0, start.elapsed().as_nanos())
}

/// Looks keys up until the writer has ended.
fn read<M: Map>(map: &M, plan: Plan, ready: &AtomicU64, done: &AtomicBool) -> Gets {
    ready.fetch_add(1, Ordering::SeqCst);
    let (mut count, mut greatest) = (0, 0);
    while !done.load(Ordering::SeqCst) {
        let key = key_of(plan.number_at(count));
        let start = Instant::now();
        std::hint::black_box(M::get(&map.pin(), key));
        greatest = start.elapsed().as_nanos().max(greatest);
        count += 1;
    }
    (count, greatest)
}

/// One thread makes the map grow, and three look keys up meanwhile. Prints the number of gets, the
/// nanoseconds of all insertions, and those of the greatest get.
fn beside_gets<M: Map>(mode: Mode, word: &str, keys: u32) -> Printed {
    let map = M::new(0, mode);
    let plan = Plan {
        workload: Workload::InsertFresh,
        keys,
        rounds: 1,
    };
    let (ready, done) = (AtomicU64::new(0), AtomicBool::new(false));
    let parts = in_threads(&|thread| {
        if thread > 0 {
            return read(&map, plan, &ready, &done);
        }
        let written = write(&map, keys, &ready);
        done.store(true, Ordering::SeqCst);
        written
    });
    let (writer, readers) = (parts[0], &parts[1..]);
    let count: u64 = readers.iter().map(|it| it.0).sum();
    let greatest = readers.iter().map(|it| it.1).max().unwrap_or(0);
    let name = format!("{}-gets", M::NAME);
    print_line(word, &name, keys, &[u128::from(count), writer.1, greatest])
}

/// Prints the lines of a map that grows to `keys` keys: by one thread, by four, and beside gets.
pub fn grow<M: Map>(keys: u32) -> Printed {
    for &(mode, word) in modes::<M>() {
        by_one::<M>(mode, word, keys)?;
        by_threads::<M>(mode, word, keys)?;
        beside_gets::<M>(mode, word, keys)?;
    }
    Ok(())
}

/// Prints how long it takes to make a map without room and to fill it with `keys` keys.
pub fn from_empty<M: Map>(keys: u32) -> Printed {
    let words = [
        (Mode::Default, "from-empty"),
        (Mode::Blocking, "from-empty-blocking"),
    ];
    for (mode, word) in &words[..if M::HAS_MODES { 2 } else { 1 }] {
        let start = Instant::now();
        let map = M::new(0, *mode);
        fill(&map, keys);
        print_line(
            word,
            M::NAME,
            keys,
            &[u128::from(keys), start.elapsed().as_nanos()],
        )?;
    }
    Ok(())
}

/// Prints how long it takes to make a map for `keys` keys, and to insert them `rounds` times.
pub fn filled<M: Map>(keys: u32, rounds: u32) -> Printed {
    let start = Instant::now();
    let map = M::new(keys as usize, Mode::Default);
    for _ in 0..rounds {
        fill(&map, keys);
    }
    let stored = u128::from(keys) * u128::from(rounds);
    print_line("fill", M::NAME, keys, &[stored, start.elapsed().as_nanos()])
}
