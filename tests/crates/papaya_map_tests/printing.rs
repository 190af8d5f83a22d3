// The text that maps of one and of two entries print, and iterators. Either entry may come first.
use crate::answers::Answer::Absent;
use crate::board::Board;
use crate::crowd::Job;
use crate::expect::is;
use crate::numbers::Numbers;
use crate::shared::Turn::{Calls, PrintEach, Prints, PrintsEither};
use crate::shared::{MODES, Shared, Turn, runs};
use crate::steps::Step::Insert;
use std::alloc::Global;
use std::process::Abort;
use std::sync::Wait;
use std::test::Fail;

/// The object that is printed.
#[derive(Clone, Copy)]
pub enum What {
    Map,
    Pinned,
    /// An iterator, before it returned anything.
    Pairs,
    Keys,
    Values,
    /// An iterator that has returned one value.
    ValuesLeft,
}

/// Prints a pinned map.
fn print_pinned(alloc: Global, map: &Numbers) -> Option<String> {
    let pinned = map.pin();
    format!(in alloc; "{pinned:?}").ok()
}

/// Prints its iterator.
fn print_pairs<R: Wait>(rt: &R, alloc: Global, map: &Numbers) -> Option<String> {
    let pairs = map.pin().iter(rt).ok()?;
    format!(in alloc; "{pairs:?}").ok()
}

/// Prints the iterator over its keys.
fn print_keys<R: Wait>(rt: &R, alloc: Global, map: &Numbers) -> Option<String> {
    let keys = map.pin().keys(rt).ok()?;
    format!(in alloc; "{keys:?}").ok()
}

/// Prints the iterator over its values, after it returned one or none.
fn print_values<R: Wait>(rt: &R, alloc: Global, map: &Numbers, is_given: bool) -> Option<String> {
    let mut values = map.pin().values(rt).ok()?;
    if is_given && values.next().is_none() {
        return None;
    }
    format!(in alloc; "{values:?}").ok()
}

/// Returns what is printed, if there is memory for it.
pub fn printed<R: Wait>(rt: &R, alloc: Global, map: &Numbers, what: What) -> Option<String> {
    match what {
        What::Map => format!(in alloc; "{map:?}").ok(),
        What::Pinned => print_pinned(alloc, map),
        What::Pairs => print_pairs(rt, alloc, map),
        What::Keys => print_keys(rt, alloc, map),
        What::Values => print_values(rt, alloc, map, false),
        What::ValuesLeft => print_values(rt, alloc, map, true),
    }
}

/// Checks that this is printed.
pub fn prints<R: Wait + Abort, M: Shared>(
    rt: &R,
    alloc: Global,
    map: &M,
    what: What,
    wanted: &str,
) {
    let text = map.printed(rt, alloc, what).expect(rt, "a text");
    is(rt, text.as_str(), wanted);
}

/// Checks that the map prints one of these.
pub fn prints_either<R: Wait + Abort, M: Shared>(
    rt: &R,
    alloc: Global,
    map: &M,
    one: &str,
    other: &str,
) {
    let text = map.printed(rt, alloc, What::Map).expect(rt, "a text");
    is(rt, text.as_str() == one || text.as_str() == other, true);
}

/// Returns the number of colons in the text.
fn colons(text: &str) -> u64 {
    let mut found = 0u64;
    for one in text.as_bytes() {
        if *one == b':' {
            found = found.wrapping_add(1);
        }
    }
    found
}

/// Checks that each entry is printed once while entries are being moved.
pub fn prints_each<R: Wait + Abort, M: Shared>(rt: &R, alloc: Global, map: &M) {
    let board = Board::new(alloc, 1, 0);
    for key in 0..99u64 {
        is(rt, map.does(rt, Job::Insert(key, key + 1), &board), true);
        let text = map.printed(rt, alloc, What::Map).expect(rt, "a text");
        is(rt, colons(text.as_str()), key + 1);
    }
}

#[test]
fn a_map_that_grows_prints_each_pair_once(rt: HostRuntime) -> Result<(), Fail> {
    runs::<_, Numbers>(&rt, rt.alloc(), &MODES, &[PrintEach])
}

/// Prints a map of no entry, and then of one.
const OF_ONE: [Turn; 4] = [
    Prints(What::Map, "{}"),
    Calls(&[(Insert(42, 7), Absent)]),
    Prints(What::Map, "{42: 7}"),
    Prints(What::Pinned, "{42: 7}"),
];

#[test]
fn a_map_of_one_pair_prints_it(rt: HostRuntime) -> Result<(), Fail> {
    runs::<_, Numbers>(&rt, rt.alloc(), &MODES, &OF_ONE)
}

/// Prints a map of two entries.
const OF_TWO: [Turn; 2] = [
    Calls(&[(Insert(42, 0), Absent), (Insert(16, 8), Absent)]),
    PrintsEither("{42: 0, 16: 8}", "{16: 8, 42: 0}"),
];

#[test]
fn a_map_of_two_pairs_prints_both(rt: HostRuntime) -> Result<(), Fail> {
    runs::<_, Numbers>(&rt, rt.alloc(), &MODES, &OF_TWO)
}

/// Prints the rest of an iterator.
const WALKS: [Turn; 5] = [
    Calls(&[(Insert(42, 7), Absent)]),
    Prints(What::Pairs, "[(42, 7)]"),
    Prints(What::Keys, "Keys([(42, 7)])"),
    Prints(What::Values, "Values([(42, 7)])"),
    Prints(What::ValuesLeft, "Values([])"),
];

#[test]
fn walks_print_what_is_left(rt: HostRuntime) -> Result<(), Fail> {
    runs::<_, Numbers>(&rt, rt.alloc(), &MODES, &WALKS)
}
