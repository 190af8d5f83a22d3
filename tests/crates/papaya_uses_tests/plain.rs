// Calls of a pinned map and with a guard, once each: those that no caller of papaya_uses makes.
use crate::expect::is;
use papaya::{HashMap, Refused};
use std::process::Abort;
use std::sync::Wait;
use std::test::Fail;

type Numbers = HashMap<u64, u64>;

/// Stores entries where there are none.
fn stores_pinned<R: Wait + Abort>(rt: &R, map: &Numbers) {
    is(rt, map.pin().reserve(rt, 8), Ok(()));
    is(rt, map.pin().try_insert(rt, 1, 10), Ok(Ok(&10)));
    is(rt, map.pin().try_insert_with(rt, 2, || 20), Ok(Ok(&20)));
    let pinned = map.pin_owned();
    let updated = pinned.update_or_insert_with(rt, 1, |v| v.wrapping_add(1), || 0);
    is(rt, updated, Ok(&11));
}

/// Returns the sum of a pinned map's keys.
fn walked_pinned<R: Wait>(rt: &R, map: &Numbers) -> Result<u64, Refused> {
    let mut sum = 0u64;
    for key in map.pin().keys(rt)? {
        sum = sum.wrapping_add(*key);
    }
    Ok(sum)
}

/// Looks entries up, and removes one.
fn finds_pinned<R: Wait + Abort>(rt: &R, map: &Numbers) {
    is(rt, map.pin().contains_key(&1), true);
    is(rt, map.pin().get_key_value(&1), Some((&1, &11)));
    is(rt, map.pin().remove_entry(rt, &2), Ok(Some((&2, &20))));
    is(rt, walked_pinned(rt, map), Ok(1));
    is(rt, map.pin().resizing(), false);
}

/// Stores entries with a guard where there are none.
fn stores_guarded<R: Wait + Abort>(rt: &R, map: &Numbers) {
    let guard = map.guard();
    is(rt, map.verify(&guard), Ok(()));
    is(rt, map.reserve(rt, 8, &guard), Ok(()));
    is(rt, map.try_insert(rt, 1, 10, &guard), Ok(Ok(&10)));
    is(rt, map.try_insert_with(rt, 2, || 20, &guard), Ok(Ok(&20)));
    let updated = map.update_or_insert_with(rt, 1, |v| v.wrapping_add(1), || 0, &guard);
    is(rt, updated, Ok(&11));
}

/// Returns the sum of a map's keys, with a guard.
fn walked_guarded<R: Wait>(rt: &R, map: &Numbers) -> Result<u64, Refused> {
    let guard = map.guard();
    let mut sum = 0u64;
    for key in map.keys(rt, &guard)? {
        sum = sum.wrapping_add(*key);
    }
    Ok(sum)
}

/// Looks entries up with a guard, and removes one.
fn finds_guarded<R: Wait + Abort>(rt: &R, map: &Numbers) {
    let guard = map.owned_guard();
    is(rt, map.contains_key(&1, &guard), Ok(true));
    is(rt, map.get_key_value(&1, &guard), Ok(Some((&1, &11))));
    is(rt, map.remove_entry(rt, &2, &guard), Ok(Some((&2, &20))));
    is(rt, walked_guarded(rt, map), Ok(1));
    is(rt, map.resizing(), false);
}

#[test]
fn each_pinned_call(rt: HostRuntime) -> Result<(), Fail> {
    let map: Numbers = HashMap::new(&rt, rt.alloc())?;
    stores_pinned(&rt, &map);
    finds_pinned(&rt, &map);
    Ok(())
}

#[test]
fn each_call_with_a_guard(rt: HostRuntime) -> Result<(), Fail> {
    let map: Numbers = HashMap::new(&rt, rt.alloc())?;
    stores_guarded(&rt, &map);
    finds_guarded(&rt, &map);
    Ok(())
}
