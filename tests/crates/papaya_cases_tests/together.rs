// Maps for one caller that are made of entries, take further ones, and are compared.
use crate::answers::Answer;
use crate::expect::{MODES, answers, is};
use crate::steps::Calls;
use papaya_seq::seq::HashMap;
use papaya_words::refused::Refused;
use papaya_words::resize_mode::ResizeMode;
use std::alloc::Global;
use std::hash::BuildHasherDefault;
use std::process::Abort;
use std::test::Fail;

type Numbers = HashMap<u64, u64>;

/// Checks that an iterator of the map returns this many entries, with these sums of their keys and
/// values.
fn walks(rt: &impl Abort, map: &Numbers, pairs: u64, keys: u64, values: u64) -> Result<(), Fail> {
    answers(rt, 0, 0, map.walk()?, Answer::Walked(pairs, keys, values));
    is(rt, map.len() as u64, pairs);
    Ok(())
}

/// Checks that a map was made, and what its iterator returns.
fn is_made(
    rt: &impl Abort,
    made: Result<Numbers, Refused>,
    pairs: u64,
    keys: u64,
    values: u64,
) -> Result<(), Fail> {
    let map = made?;
    walks(rt, &map, pairs, keys, values)
}

#[test]
fn maps_are_made_of_pairs(rt: HostRuntime) -> Result<(), Fail> {
    let alloc = rt.alloc();
    is_made(&rt, HashMap::from_iter(alloc, []), 0, 0, 0)?;
    is_made(
        &rt,
        HashMap::from_iter(alloc, [(0, 1), (0, 2), (0, 3)]),
        1,
        0,
        3,
    )?;
    is_made(
        &rt,
        HashMap::from_array(alloc, [(1, 10), (2, 20), (1, 30)]),
        2,
        3,
        50,
    )
}

/// Returns a map of these entries.
fn made(alloc: Global, mode: ResizeMode, pairs: &[(u64, u64)]) -> Result<Numbers, Fail> {
    let mut map = HashMap::with_parts(alloc, mode, 0, 1, BuildHasherDefault::new(), None)?;
    map.extend(pairs.iter().copied())?;
    Ok(map)
}

/// Inserts three entries by reference, one of which has a key that is in the map.
fn take(rt: &impl Abort, map: &mut Numbers) -> Result<(), Fail> {
    map.extend_ref([(&42, &0), (&16, &6), (&38, &42)])?;
    walks(rt, map, 4, 97, 49)
}

/// Inserts them into a map of two entries.
fn take_in(rt: &impl Abort, alloc: Global, mode: ResizeMode) -> Result<(), Fail> {
    let mut map = made(alloc, mode, &[(1, 1), (16, 0)])?;
    walks(rt, &map, 2, 17, 1)?;
    take(rt, &mut map)
}

#[test]
fn a_map_takes_further_pairs(rt: HostRuntime) -> Result<(), Fail> {
    for mode in MODES {
        take_in(&rt, rt.alloc(), mode)?;
    }
    Ok(())
}

/// The entries of two maps, and whether the maps are equal.
type Compared = (&'static [(u64, u64)], &'static [(u64, u64)], bool);

const COMPARED: &[Compared] = &[
    (&[], &[], true),
    (&[(1, 0), (2, 0), (3, 0)], &[(1, 0), (2, 0)], false),
    (&[(1, 0)], &[(1, 0)], true),
    (&[(1, 0)], &[(1, 1)], false),
    (&[(1, 0)], &[(2, 0)], false),
    (&[(1, 10), (2, 20)], &[(2, 21), (1, 10), (2, 20)], true),
];

/// Checks whether both maps are equal, each to the other.
fn compare(rt: &impl Abort, one: &Numbers, other: &Numbers, wanted: bool) {
    is(rt, one.eq(other), wanted);
    is(rt, other.eq(one), wanted);
}

/// Checks this for maps of these entries.
fn compare_made(
    rt: &impl Abort,
    alloc: Global,
    mode: ResizeMode,
    compared: Compared,
) -> Result<(), Fail> {
    let one = made(alloc, mode, compared.0)?;
    let other = made(alloc, mode, compared.1)?;
    compare(rt, &one, &other, compared.2);
    Ok(())
}

#[test]
fn maps_of_equal_pairs_are_equal(rt: HostRuntime) -> Result<(), Fail> {
    for mode in MODES {
        for &compared in COMPARED {
            compare_made(&rt, rt.alloc(), mode, compared)?;
        }
    }
    Ok(())
}
