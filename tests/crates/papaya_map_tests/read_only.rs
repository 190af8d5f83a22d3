// A map that nobody changes any more: its lookups and iterations, and the same where entries were
// being moved to a next table when the map was closed.
use crate::expect::is;
use crate::numbers::Numbers;
use papaya_map::map::HashMap;
use papaya_map::map::read_only::ReadOnly;
use papaya_testing::times::{APART, Times};
use papaya_words::refused::Refused;
use papaya_words::resize_mode::ResizeMode;
use std::alloc::Global;
use std::process::Abort;
use std::sync::Wait;
use std::test::Fail;
use std::thread::join;

/// The map of these tests, once it is closed.
type Fixed = ReadOnly<u64, u64, Times>;

/// A map with the entries from 0 to 8, of which each value is 10 times its key. It was moving them to
/// a next table when it was closed. One more entry was removed before.
fn closed<R: Wait + Abort>(rt: &R, alloc: Global) -> Result<Fixed, Refused> {
    let map: Numbers = HashMap::builder()
        .capacity(6)
        .hasher(APART)
        .resize_mode(ResizeMode::Incremental(1))
        .build(rt, alloc)?;
    map.pin().insert(rt, 0, 7)?;
    for key in 0..9 {
        map.pin().insert(rt, key, key * 10)?;
    }
    is(rt, map.resizing(), true);
    Ok(map.into_read_only())
}

/// Checks each lookup of a key that is there.
fn finds(rt: &impl Abort, fixed: &Fixed, key: u64) {
    is(rt, fixed.get(&key).copied(), Some(key * 10));
    is(rt, fixed.get_key_value(&key), Some((&key, &(key * 10))));
    is(rt, fixed.contains_key(&key), true);
}

/// Checks each lookup of a key that is not there.
fn finds_none(rt: &impl Abort, fixed: &Fixed, key: u64) {
    is(rt, fixed.get(&key), None);
    is(rt, fixed.get_key_value(&key), None);
    is(rt, fixed.contains_key(&key), false);
}

/// Returns how many entries an iteration returns, and the sums of their keys and of their values.
fn sums<R: Wait>(rt: &R, fixed: &Fixed) -> Result<(u64, u64, u64), Refused> {
    let mut sums = (0u64, 0u64, 0u64);
    for (key, value) in fixed.iter(rt)? {
        sums = (sums.0 + 1, sums.1 + *key, sums.2 + *value);
    }
    Ok(sums)
}

/// Returns the sum of the keys and that of the values, each by an iteration of its own.
fn halves<R: Wait>(rt: &R, fixed: &Fixed) -> Result<(u64, u64), Refused> {
    let mut sums = (0u64, 0u64);
    for key in fixed.keys(rt)? {
        sums.0 += *key;
    }
    for value in fixed.values(rt)? {
        sums.1 += *value;
    }
    Ok(sums)
}

/// Checks that two threads which read at once find what is there.
#[test]
fn threads_read_a_closed_map(rt: HostRuntime) -> Result<(), Fail> {
    let fixed = closed(&rt, rt.alloc())?;
    let reads = || {
        for key in 0..9 {
            finds(&rt, &fixed, key);
        }
        finds_none(&rt, &fixed, 9);
    };
    join(&rt, &reads, &reads);
    Ok(())
}

/// Checks that an iteration returns each entry once, though some had still to be moved.
#[test]
fn a_closed_map_is_iterated_over(rt: HostRuntime) -> Result<(), Fail> {
    let fixed = closed(&rt, rt.alloc())?;
    is(&rt, (fixed.len(), fixed.is_empty()), (9, false));
    is(&rt, sums(&rt, &fixed), Ok((9, 36, 360)));
    is(&rt, halves(&rt, &fixed), Ok((36, 360)));
    finds(&rt, &fixed, 8);
    Ok(())
}

/// Checks that a closed map can be opened and changed again, and closed once more.
#[test]
fn a_closed_map_is_opened_again(rt: HostRuntime) -> Result<(), Fail> {
    let map = closed(&rt, rt.alloc())?.into_map();
    is(&rt, map.pin().remove(&rt, &8), Ok(Some(&80)));
    is(&rt, map.pin().insert(&rt, 9, 90), Ok(None));
    let fixed = map.into_read_only();
    finds(&rt, &fixed, 9);
    finds_none(&rt, &fixed, 8);
    is(&rt, sums(&rt, &fixed), Ok((9, 37, 370)));
    Ok(())
}

/// Checks a closed map that never had an entry.
#[test]
fn an_empty_map_is_closed(rt: HostRuntime) -> Result<(), Fail> {
    let map: Numbers = HashMap::builder().hasher(APART).build(&rt, rt.alloc())?;
    let fixed = map.into_read_only();
    is(&rt, (fixed.len(), fixed.is_empty()), (0, true));
    finds_none(&rt, &fixed, 1);
    is(&rt, sums(&rt, &fixed), Ok((0, 0, 0)));
    Ok(())
}
