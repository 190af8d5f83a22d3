// The output of `papaya-bench`, and its failures, of which no clause says anything.
use papaya_bench_measure::growth::time_growth;
use papaya_bench_measure::plan::{Plan, Workload};
use papaya_bench_measure::reclaim::{time_from_empty, time_reclaim};
use papaya_bench_measure::run::{run_on, time_workload};
use papaya_bench_measure::shared_growth::time_shared_growth;
use papaya_bench_measure::soak::time_soak;
use papaya_bench_measure::soak_plan::{Soak, Writes};
use papaya_run_shell::fakes::{Sink, words};
use papaya_words::resize_mode::ResizeMode;
use std::alloc::Global;
use std::fmt::Debug;
use std::process::Abort;
use std::rt::{Clock, Files};
use std::sync::Wait;
use std::test::Fail;
use std::thread::Threads;

/// Two rounds at 64 keys. The values are the keys' numbers, which sum to 2016, and an absent key
/// counts 1. The second round of replacements finds each value 1 greater, that of mixed steps the
/// seven values at multiples of ten. In a set each key found counts 1: mixed steps look up 57 keys.
/// The result of a count or a compute is 1 more in the first round, and 2 in the second. To enter a
/// map and make no call counts 1. A worn map has the same values. The 128 numbers that are drawn
/// sum to 1738, by a model of the draws apart from the program.
const CHECKED: &str = "\
get-hit: seq 4032 shared 4032 threads 4032 session 4032 pin-a-call 4032 \
    entered 4032 entered-threads 4032 \
    std 4032 rwlock 4032 rwlock-threads 4032 mutex 4032 mutex-threads 4032\n\
get-hit: seq-set 128 set 128\n\
get-miss: seq 128 shared 128 threads 128 session 128 pin-a-call 128 \
    entered 128 entered-threads 128 \
    std 128 rwlock 128 rwlock-threads 128 mutex 128 mutex-threads 128\n\
get-miss: seq-set 0 set 0\n\
insert-fresh: seq 128 shared 128 threads 128 session 128 pin-a-call 128 \
    entered 128 entered-threads 128 \
    std 128 rwlock 128 rwlock-threads 128 mutex 128 mutex-threads 128\n\
insert-fresh: seq-set 128 set 128\n\
insert-replace: seq 4096 shared 4096 threads 4096 session 4096 pin-a-call 4096 \
    entered 4096 entered-threads 4096 \
    std 4096 rwlock 4096 rwlock-threads 4096 mutex 4096 mutex-threads 4096\n\
insert-replace: seq-set 0 set 0\n\
remove-insert: seq 4160 shared 4160 threads 4160 session 4160 pin-a-call 4160 \
    entered 4160 entered-threads 4160 \
    std 4160 rwlock 4160 rwlock-threads 4160 mutex 4160 mutex-threads 4160\n\
remove-insert: seq-set 256 set 256\n\
mixed: seq 4039 shared 4039 threads 4039 session 4039 pin-a-call 4039 \
    entered 4039 entered-threads 4039 \
    std 4039 rwlock 4039 rwlock-threads 4039 mutex 4039 mutex-threads 4039\n\
mixed: seq-set 114 set 114\n\
update-or-insert: seq 4224 shared 4224 threads 4224 session 4224 pin-a-call 4224 \
    entered 4224 entered-threads 4224 \
    std 4224 rwlock 4224 rwlock-threads 4224 mutex 4224 mutex-threads 4224\n\
compute: seq 4224 shared 4224 threads 4224 session 4224 pin-a-call 4224 \
    entered 4224 entered-threads 4224\n\
iterate: seq 4032 shared 4032 session 4032 std 4032\n\
iterate: seq-set 128 set 128\n\
enter: entered 128 entered-threads 128\n\
worn-hit: seq 4032 session 4032 pin-a-call 4032 std 4032\n\
worn-miss: seq 128 session 128 pin-a-call 128 std 128\n\
text-hit: seq 4032 session 4032 pin-a-call 4032 std 4032\n\
text-miss: seq 128 session 128 pin-a-call 128 std 128\n\
registry: seq 4224 threads 4224 session 4224 pin-a-call 4224 \
    std 4224 rwlock 4224 rwlock-threads 4224\n\
zipf: seq 1738 shared 1738 threads 1738 session 1738 pin-a-call 1738 \
    entered 1738 entered-threads 1738 \
    std 1738 rwlock 1738 rwlock-threads 1738 mutex 1738 mutex-threads 1738\n";

/// Asserts that this was written, in a run with these arguments.
fn has_written<A: Abort>(rt: &A, found: &[u8], wanted: &str, args: &[String]) {
    assert_eq!(rt;
        std::str::from_utf8(found).ok(),
        Some(wanted),
        "in {args:?}"
    );
}

/// Asserts that a run has ended with this exit status.
fn has_ended<A: Abort>(rt: &A, found: u8, wanted: u8) {
    assert_eq!(rt; found, wanted);
}

/// Asserts what a run with these arguments prints on both outputs, and its exit status.
fn comes_to<R: Clock + Files + Threads + Wait + Sync + Abort>(
    rt: &R,
    alloc: Global,
    args: &[String],
    (wanted, told, ended): (&str, &str, u8),
) {
    let mut printed = Vec::new(alloc);
    let mut said = Vec::new(alloc);
    let status = run_on(rt, alloc, args, &mut printed, &mut said);
    has_ended(rt, status, ended);
    has_written(rt, printed.as_slice(), wanted, args);
    has_written(rt, said.as_slice(), told, args);
}

#[test]
fn the_backends_agree(rt: HostRuntime) {
    comes_to(&rt, rt.alloc(), &[], (CHECKED, "", 0));
}

/// The result of a run with bad arguments.
const REFUSED: (&str, &str, u8) = ("", "papaya-bench: bad arguments\n", 2);

#[test]
fn bad_arguments(rt: HostRuntime) -> Result<(), Fail> {
    for args in [
        "",
        "Time",
        "times",
        "tim",
        "time time",
        "time ",
        " time",
        "check",
        "Grow",
        "reclaimed",
        "soaks",
        "soak x",
        "soak -1",
        "soak 4294967296",
        "soak 1 1",
    ] {
        let args = words(rt.alloc(), args)?;
        comes_to(&rt, rt.alloc(), args.as_slice(), REFUSED);
    }
    Ok(())
}

/// Asserts that this was found.
fn is<A: Abort, T: PartialEq + Debug + Drop>(rt: &A, found: T, wanted: T) {
    assert_eq!(rt; found, wanted);
}

/// Asserts that a part of a line is as wanted: a number if that is #.
fn is_part<A: Abort>(rt: &A, found: &str, wanted: &str) -> Result<(), Fail> {
    if wanted == "#" {
        let _number = found.parse::<u64>()?;
    } else {
        is(rt, found, wanted);
    }
    Ok(())
}

/// Asserts that a line has these parts.
fn is_line<A: Abort>(rt: &A, line: &str, wanted: &str) -> Result<(), Fail> {
    let mut parts = line.split(' ');
    for part in wanted.split(' ') {
        is_part(rt, parts.next().ok_or("a part")?, part)?;
    }
    is(rt, parts.next(), None);
    Ok(())
}

/// Asserts that these lines were printed, each with its end. In them # stands for a number.
fn are_lines<A: Abort>(rt: &A, printed: &[u8], wanted: &[&str]) -> Result<(), Fail> {
    let mut lines = std::str::from_utf8(printed)?.lines();
    for line in wanted {
        is_line(rt, lines.next().ok_or("a line")?, line)?;
    }
    is(rt, lines.next(), None);
    is(rt, printed.last(), Some(&b'\n'));
    Ok(())
}

/// Returns the number at this place of a line, both counted from 0.
fn number(printed: &[u8], line: usize, place: usize) -> Result<u64, Fail> {
    let text = std::str::from_utf8(printed)?
        .lines()
        .nth(line)
        .ok_or("a line")?;
    let part = text.split(' ').nth(place).ok_or("a number")?;
    Ok(part.parse::<u64>()?)
}

/// Asserts that the numbers at these places of a line never decrease.
fn rises<A: Abort>(rt: &A, printed: &[u8], line: usize, places: &[usize]) -> Result<(), Fail> {
    let mut least = 0;
    for place in places {
        let found = number(printed, line, *place)?;
        assert!(rt; least <= found, "at {place} of line {line}");
        least = found;
    }
    Ok(())
}

/// Asserts that 3 rounds of a workload at 8 keys print these lines.
fn prints_lines<R: Clock + Threads + Wait + Sync + Abort>(
    rt: &R,
    alloc: Global,
    workload: Workload,
    lines: &[&str],
) -> Result<(), Fail> {
    let plan = Plan {
        workload,
        keys: 8,
        rounds: 3,
    };
    let mut printed = Vec::new(alloc);
    is(
        rt,
        time_workload(rt, alloc, plan, &mut printed).is_ok(),
        true,
    );
    are_lines(rt, printed.as_slice(), lines)
}

/// The lines of 24 steps: a name, these steps, a time, and a sum. Each of 8 values in 3 rounds sums
/// to 84. In a set each key found counts 1, and in the loop alone the keys that belong to 84.
const GETS: [&str; 15] = [
    "get-hit/loop/8 24 # 318140993604",
    "get-hit/seq/8 24 # 84",
    "get-hit/shared/8 24 # 84",
    "get-hit/threads/8 24 # 84",
    "get-hit/session/8 24 # 84",
    "get-hit/pin-a-call/8 24 # 84",
    "get-hit/entered/8 24 # 84",
    "get-hit/entered-threads/8 24 # 84",
    "get-hit/std/8 24 # 84",
    "get-hit/rwlock/8 24 # 84",
    "get-hit/rwlock-threads/8 24 # 84",
    "get-hit/mutex/8 24 # 84",
    "get-hit/mutex-threads/8 24 # 84",
    "get-hit/seq-set/8 24 # 24",
    "get-hit/set/8 24 # 24",
];

/// Each time that a map is entered counts 1.
const ENTRIES: [&str; 3] = [
    "enter/loop/8 24 # 24",
    "enter/entered/8 24 # 24",
    "enter/entered-threads/8 24 # 24",
];

/// A text's counter has 1 more in each round, so these values sum to 84 and 48.
const REGISTRY: [&str; 8] = [
    "registry/loop/8 24 # 318140993604",
    "registry/seq/8 24 # 132",
    "registry/threads/8 24 # 132",
    "registry/session/8 24 # 132",
    "registry/pin-a-call/8 24 # 132",
    "registry/std/8 24 # 132",
    "registry/rwlock/8 24 # 132",
    "registry/rwlock-threads/8 24 # 132",
];

#[test]
fn lines_of_time(rt: HostRuntime) -> Result<(), Fail> {
    prints_lines(&rt, rt.alloc(), Workload::GetHit, &GETS)?;
    prints_lines(&rt, rt.alloc(), Workload::Enter, &ENTRIES)?;
    prints_lines(&rt, rt.alloc(), Workload::Registry, &REGISTRY)
}

/// Asserts that a growth prints a line of these parts: a name, 40 keys, two times of which the
/// second is that of one insertion, and 64 slots.
fn prints_growth<R: Clock + Wait + Abort>(
    rt: &R,
    alloc: Global,
    mode: ResizeMode,
    line: &str,
) -> Result<(), Fail> {
    let mut printed = Vec::new(alloc);
    is(
        rt,
        time_growth(rt, alloc, mode, 40, &mut printed).is_ok(),
        true,
    );
    are_lines(rt, printed.as_slice(), &[line])?;
    rises(rt, printed.as_slice(), 0, &[3, 2])
}

#[test]
fn lines_of_growth(rt: HostRuntime) -> Result<(), Fail> {
    for (mode, line) in [
        (ResizeMode::default(), "grow-incremental/seq/40 40 # # 64"),
        (ResizeMode::Blocking, "grow-blocking/seq/40 40 # # 64"),
    ] {
        prints_growth(&rt, rt.alloc(), mode, line)?;
    }
    Ok(())
}

/// The lines of insertions by one thread and by several, and one of gets. Each has a name, 40 keys,
/// the time of all insertions, and of single ones the longest and three percentiles.
const SHARED_GROWTH: [&str; 3] = [
    "grow-blocking/shared/40 40 # # # # #",
    "grow-blocking/threads/40 40 # # # # #",
    "grow-blocking/gets/40 # # #",
];

#[test]
fn lines_of_shared_growth(rt: HostRuntime) -> Result<(), Fail> {
    let mut printed = Vec::new(rt.alloc());
    let mode = ResizeMode::Blocking;
    let timed = time_shared_growth(&rt, rt.alloc(), mode, 40, &mut printed);
    is(&rt, timed.is_ok(), true);
    are_lines(&rt, printed.as_slice(), &SHARED_GROWTH)?;
    for line in 0..2 {
        // The 40th of 40 times is at p99 and at p99.9, and is the longest.
        rises(&rt, printed.as_slice(), line, &[4, 5, 6, 3, 6, 5])?;
    }
    Ok(())
}

/// The lines of maps that are filled: a name, how many entries were stored, and a time.
const FILLING: [&str; 7] = [
    "from-empty/seq/40 40 #",
    "from-empty/shared/40 40 #",
    "from-empty/std/40 40 #",
    "from-empty/session/40 40 #",
    "from-empty/pin-a-call/40 40 #",
    "from-empty-blocking/seq/40 40 #",
    "from-empty-blocking/shared/40 40 #",
];

#[test]
fn lines_of_filling(rt: HostRuntime) -> Result<(), Fail> {
    let mut printed = Vec::new(rt.alloc());
    is(
        &rt,
        time_from_empty(&rt, rt.alloc(), 40, &mut printed).is_ok(),
        true,
    );
    are_lines(&rt, printed.as_slice(), &FILLING)
}

/// The lines of maps that are filled in rounds, and then reclaimed.
const RECLAIMING: [&str; 4] = [
    "fill/seq/40 120 #",
    "reclaim/seq/40 40 #",
    "fill/shared/40 120 #",
    "reclaim/shared/40 40 #",
];

#[test]
fn lines_of_reclaiming(rt: HostRuntime) -> Result<(), Fail> {
    let mut printed = Vec::new(rt.alloc());
    is(
        &rt,
        time_reclaim(&rt, rt.alloc(), (40, 3), &mut printed).is_ok(),
        true,
    );
    are_lines(&rt, printed.as_slice(), &RECLAIMING)
}

/// Asserts that a soak of 40 keys prints these lines, in which the bytes at the end are not more
/// than those at most.
fn prints_soak<R: Clock + Files + Threads + Wait + Sync + Abort>(
    rt: &R,
    alloc: Global,
    writes: Writes,
    lines: &[&str],
) -> Result<(), Fail> {
    let soak = Soak {
        writes,
        keys: 40,
        operations: 1000,
    };
    let mut printed = Vec::new(alloc);
    is(rt, time_soak(rt, alloc, soak, &mut printed).is_ok(), true);
    are_lines(rt, printed.as_slice(), lines)?;
    for line in 0..lines.len() {
        rises(rt, printed.as_slice(), line, &[4, 3])?;
    }
    Ok(())
}

/// The lines of soaks: a name, 1000 operations, a time, bytes at most and at the end, the number of
/// reclaims, and two times. These operations store too few entries for a reclaim.
const MIXED: [&str; 3] = [
    "soak-mixed/enter/40 1000 # # # 0 # #",
    "soak-mixed/refresh/40 1000 # # # 0 # #",
    "soak-mixed/bare/40 1000 # # # 0 # #",
];

const REPLACED: [&str; 3] = [
    "soak-replace/enter/40 1000 # # # 0 # #",
    "soak-replace/refresh/40 1000 # # # 0 # #",
    "soak-replace/bare/40 1000 # # # 0 # #",
];

#[test]
fn lines_of_soaks(rt: HostRuntime) -> Result<(), Fail> {
    prints_soak(&rt, rt.alloc(), Writes::OneInTen, &MIXED)?;
    prints_soak(&rt, rt.alloc(), Writes::All, &REPLACED)
}

/// Asserts that a run whose output takes this much of what is printed fails after it.
fn fails_after<R: Clock + Files + Threads + Wait + Sync + Abort>(
    rt: &R,
    alloc: Global,
    wanted: &str,
) {
    let mut output = Sink {
        text: Vec::new(alloc),
        room: wanted.len(),
    };
    let mut said = Vec::new(alloc);
    let status = run_on(rt, alloc, &[], &mut output, &mut said);
    has_ended(rt, status, 1);
    has_written(rt, output.text.as_slice(), wanted, &[]);
    has_written(rt, said.as_slice(), "papaya-bench: output failed\n", &[]);
}

#[test]
fn faults_of_the_output(rt: HostRuntime) {
    // Fails at the first write, at one in the middle of a line, and at one of the last line.
    for room in [0, 20, CHECKED.len() - 1] {
        fails_after(&rt, rt.alloc(), &CHECKED[..room]);
    }
}
