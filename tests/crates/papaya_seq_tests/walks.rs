// Iterations over the map, and the call that keeps some of its pairs.
use crate::expect::{is, is_at};
use crate::growth::{looks_so, stores};
use crate::numbers::{Fold, Making, Numbers, Parts, Usual, Work, has, inserts, on_made, on_usual};
use papaya_seq::seq::HashMap;
use papaya_testing::times::{APART, TOGETHER, Times};
use papaya_words::resize_mode::ResizeMode;
use std::alloc::{AllocError, Global};
use std::fmt::Debug;
use std::hash::BuildHasher;
use std::process::Abort;
use std::test::Fail;

/// Returns the keys of an iteration, sorted.
fn keys_of<S: BuildHasher>(
    alloc: Global,
    map: &HashMap<u64, u64, S>,
) -> Result<Vec<u64>, AllocError> {
    let mut keys: Vec<u64> = map.keys().copied().collect(alloc)?;
    keys.sort()?;
    Ok(keys)
}

/// Checks that an iteration returns each key below this one once, each with itself as its value.
fn walks_below(rt: &impl Abort, alloc: Global, map: &Numbers, end: u64) -> Result<(), Fail> {
    let keys = keys_of(alloc, map)?;
    is(rt, keys.len() as u64, end);
    for (i, key) in keys.iter().enumerate() {
        is_at(rt, i, *key, i as u64);
    }
    for (key, value) in map {
        is_at(rt, *key as usize, value, key);
    }
    Ok(())
}

/// Checks an iteration at each count of up to a hundred keys with one probe sequence. Each call
/// moves some of them, or one call all.
fn gives_once(rt: &impl Abort, alloc: Global, map: &mut Numbers) -> Result<(), Fail> {
    walks_below(rt, alloc, map, 0)?;
    for key in 0..100u64 {
        stores(rt, map, key, key + 1);
        walks_below(rt, alloc, map, key + 1)?;
    }
    Ok(())
}

/// Keeps five of a hundred pairs.
fn keeps_five(rt: &impl Abort, map: &mut Usual) {
    for key in 0..100u64 {
        inserts(rt, map, key, key, Ok(None));
    }
    is(rt, map.retain(|_, value| *value < 5), Ok(()));
    has(rt, map, 5);
}

/// Checks that the map has exactly these keys.
fn gives<S: BuildHasher>(
    rt: &impl Abort,
    alloc: Global,
    map: &HashMap<u64, u64, S>,
    wanted: &[u64],
) -> Result<(), Fail> {
    let keys = keys_of(alloc, map)?;
    is(rt, keys.as_slice(), wanted);
    Ok(())
}

fn keeps_small_values(rt: &impl Abort, alloc: Global, map: &mut Usual) -> Result<(), Fail> {
    is(rt, map.retain(|_, _| false), Ok(()));
    keeps_five(rt, map);
    is(rt, map.retain_by(&mut |_, value| *value < 5), Ok(()));
    gives(rt, alloc, map, &[0, 1, 2, 3, 4])?;
    for value in map.values() {
        is(rt, *value < 5, true);
    }
    Ok(())
}

/// Keeps the even ones of nine keys that are being moved, and checks that none are afterwards.
fn ends_a_resize(rt: &impl Abort, alloc: Global, map: &mut Numbers) -> Result<(), Fail> {
    stores(rt, map, 0, 9);
    looks_so(rt, map, 9, 8, true);
    is(rt, map.retain(|key, _| *key % 2 == 0), Ok(()));
    looks_so(rt, map, 5, 16, false);
    has(rt, map, 5);
    gives(rt, alloc, map, &[0, 2, 4, 6, 8])
}

/// Checks that this text is one of the two.
fn is_either(rt: &impl Abort, text: &str, one: &str, other: &str) {
    is(rt, text == one || text == other, true);
}

/// Checks that the value is printed in one of two ways.
fn prints<T: Debug>(
    rt: &impl Abort,
    alloc: Global,
    shown: &T,
    one: &str,
    other: &str,
) -> Result<(), Fail> {
    let text = format!(in alloc; "{shown:?}")?;
    is_either(rt, text.as_str(), one, other);
    Ok(())
}

/// Checks that a map prints its pairs, and an iterator those that are left.
fn prints_two(rt: &impl Abort, alloc: Global, map: &Usual) -> Result<(), Fail> {
    prints(rt, alloc, map, "{42: 0, 16: 8}", "{16: 8, 42: 0}")?;
    prints(
        rt,
        alloc,
        &map.iter(),
        "[(42, 0), (16, 8)]",
        "[(16, 8), (42, 0)]",
    )?;
    let keys = map.keys();
    prints(
        rt,
        alloc,
        &keys,
        "Keys([(42, 0), (16, 8)])",
        "Keys([(16, 8), (42, 0)])",
    )?;
    let mut values = map.values();
    let _ = values.next();
    prints(rt, alloc, &values, "Values([(42, 0)])", "Values([(16, 8)])")
}

/// The cases of a new map.
#[derive(Clone, Copy)]
enum New {
    KeepsSmallValues,
    Prints,
}

impl Work<Fold> for New {
    fn is_done<R: Abort>(self, rt: &R, alloc: Global, map: &mut Usual) -> Result<(), Fail> {
        match self {
            New::KeepsSmallValues => keeps_small_values(rt, alloc, map),
            New::Prints => {
                prints(rt, alloc, &*map, "{}", "{}")?;
                inserts(rt, map, 42, 0, Ok(None));
                inserts(rt, map, 16, 8, Ok(None));
                prints_two(rt, alloc, map)
            }
        }
    }
}

/// The cases of a map whose keys are moved.
#[derive(Clone, Copy)]
enum Moved {
    GivesOnce,
    EndsAResize,
}

impl Work<Times> for Moved {
    fn is_done<R: Abort>(self, rt: &R, alloc: Global, map: &mut Numbers) -> Result<(), Fail> {
        match self {
            Moved::GivesOnce => gives_once(rt, alloc, map),
            Moved::EndsAResize => ends_a_resize(rt, alloc, map),
        }
    }
}

#[test]
fn a_walk_gives_each_pair_once(rt: HostRuntime) -> Result<(), Fail> {
    for mode in [ResizeMode::Incremental(1), ResizeMode::Blocking] {
        let parts = Parts::All(mode, 0, TOGETHER);
        on_made(&rt, rt.alloc(), parts, Moved::GivesOnce)?;
    }
    Ok(())
}

#[test]
fn retain_keeps_small_values(rt: HostRuntime) -> Result<(), Fail> {
    on_usual(&rt, rt.alloc(), Making::New, New::KeepsSmallValues)
}

#[test]
fn retain_ends_a_resize(rt: HostRuntime) -> Result<(), Fail> {
    let parts = Parts::All(ResizeMode::Incremental(1), 6, APART);
    on_made(&rt, rt.alloc(), parts, Moved::EndsAResize)
}

#[test]
fn a_map_prints_its_pairs_and_its_walks_what_is_left(rt: HostRuntime) -> Result<(), Fail> {
    on_usual(&rt, rt.alloc(), Making::New, New::Prints)
}
