// Each call once, by one thread.
use crate::expect::{is, prints};
use crate::reclaiming::numbers::{Numbers, Way, has, numbers, write};
use papaya_map::map::HashMap;
use papaya_reclaiming::reclaiming::{
    Handle, LEAST_STORED, Reclaiming, ReclaimingMap, ReclaimingSet,
};
use papaya_set::set::HashSet;
use papaya_words::refused::Refused;
use std::process::Abort;
use std::sync::Wait;
use std::test::Fail;

fn is_reclaimed(rt: &(impl Abort + Wait), way: &mut Way<'_>) -> Result<(), Refused> {
    write(rt, way, 5)?;
    has(rt, way, 10, 50, Some(4));
    way.reclaim(rt)?;
    has(rt, way, 10, 10, Some(4));
    Ok(())
}

#[test]
fn a_map_is_reclaimed(rt: HostRuntime) -> Result<(), Fail> {
    let shared = numbers(&rt, rt.alloc())?;
    is(&rt, is_reclaimed(&rt, &mut shared.handle()), Ok(()));
    Ok(())
}

fn is_reclaimed_where_due(rt: &(impl Abort + Wait), way: &mut Way<'_>) -> Result<(), Refused> {
    write(rt, way, 800)?;
    // 8,000 entries are stored, which is not more than LEAST_STORED
    is(rt, LEAST_STORED, 8192);
    is(rt, way.reclaim_if(rt, 2), Ok(false));
    write(rt, way, 100)?;
    for (share, wanted) in [(900, false), (2, true), (2, false)] {
        is(rt, way.reclaim_if(rt, share), Ok(wanted));
    }
    has(rt, way, 10, 10, Some(99));
    Ok(())
}

#[test]
fn a_map_is_reclaimed_where_it_is_due(rt: HostRuntime) -> Result<(), Fail> {
    let shared = numbers(&rt, rt.alloc())?;
    is(
        &rt,
        is_reclaimed_where_due(&rt, &mut shared.handle()),
        Ok(()),
    );
    Ok(())
}

/// Tries to reclaim by another handle while a guard exists; returns whether it does, and how many
/// entries the guard finds and how many are stored.
fn tries_beside_a_guard(
    rt: &impl Wait,
    first: &mut Way<'_>,
    other: &mut Way<'_>,
) -> Result<(bool, usize, usize), Refused> {
    let guard = first.enter(rt);
    let reclaims = other.try_reclaim(rt)?;
    // no thread waits to reclaim, so the guard is as it was
    let guard = guard.refresh(rt);
    Ok((reclaims, guard.len(), guard.stored()))
}

fn is_held_off(
    rt: &(impl Abort + Wait),
    first: &mut Way<'_>,
    other: &mut Way<'_>,
) -> Result<(), Refused> {
    write(rt, first, 2)?;
    is(
        rt,
        tries_beside_a_guard(rt, first, other),
        Ok((false, 10, 20)),
    );
    is(rt, other.try_reclaim(rt), Ok(true));
    has(rt, first, 10, 10, Some(1));
    Ok(())
}

#[test]
fn a_guard_that_is_out_holds_reclaim_off(rt: HostRuntime) -> Result<(), Fail> {
    let shared = numbers(&rt, rt.alloc())?;
    let held_off = is_held_off(&rt, &mut shared.handle(), &mut shared.handle());
    is(&rt, held_off, Ok(()));
    Ok(())
}

#[test]
fn a_map_and_its_handles_are_printed(rt: HostRuntime) -> Result<(), Fail> {
    let map: Numbers = HashMap::new(&rt, rt.alloc())?;
    map.pin().insert(&rt, 1, 10)?;
    let shared: ReclaimingMap<u64, u64> = Reclaiming::new(rt.alloc(), map)?;
    let mut handle = shared.handle();
    prints(&rt, rt.alloc(), &shared, "Reclaiming({1: 10})")?;
    prints(&rt, rt.alloc(), &handle, "Handle { place: 0, .. }")?;
    prints(&rt, rt.alloc(), &handle.enter(&rt), "{1: 10}")
}

#[test]
fn a_map_comes_out_again(rt: HostRuntime) -> Result<(), Fail> {
    let shared = numbers(&rt, rt.alloc())?;
    write(&rt, &mut shared.handle(), 1)?;
    let map = shared.into_inner();
    is(&rt, map.map(|map| map.len()), Some(10));
    Ok(())
}

/// Stores twenty entries, then none, and some after a reclaim.
fn counts_what_is_left(rt: &(impl Abort + Wait), way: &mut Way<'_>) {
    is(rt, write(rt, way, 2), Ok(()));
    is(rt, write(rt, way, 1), Err(Refused::Limit));
    is(rt, way.reclaim(rt), Ok(()));
    is(rt, write(rt, way, 1), Ok(()));
}

#[test]
fn a_limit_counts_what_is_left(rt: HostRuntime) -> Result<(), Fail> {
    let map: Numbers = HashMap::builder().pair_limit(20).build(&rt, rt.alloc())?;
    let shared: ReclaimingMap<u64, u64> = Reclaiming::new(rt.alloc(), map)?;
    counts_what_is_left(&rt, &mut shared.handle());
    Ok(())
}

/// Stores the keys from 0 to 9, and removes those below 5.
fn keeps_five(rt: &impl Wait, way: &mut Handle<'_, HashSet<u64>>) -> Result<(), Refused> {
    for key in 0..10u64 {
        way.enter(rt).pin().insert(rt, key)?;
    }
    for key in 0..5u64 {
        way.enter(rt).pin().remove(rt, &key)?;
    }
    Ok(())
}

/// Checks that five keys are there, and are stored.
fn has_five(rt: &(impl Abort + Wait), way: &mut Handle<'_, HashSet<u64>>) {
    let entered = way.enter(rt);
    is(rt, (entered.len(), entered.stored()), (5, 5));
    let pinned = entered.pin();
    is(
        rt,
        (pinned.contains(&7), pinned.contains(&2)),
        (true, false),
    );
}

fn is_a_set_reclaimed(rt: &(impl Abort + Wait), way: &mut Handle<'_, HashSet<u64>>) {
    is(rt, keeps_five(rt, way), Ok(()));
    is(rt, way.reclaim(rt), Ok(()));
    has_five(rt, way);
}

#[test]
fn a_set_is_reclaimed(rt: HostRuntime) -> Result<(), Fail> {
    let set: HashSet<u64> = HashSet::new(&rt, rt.alloc())?;
    let shared: ReclaimingSet<u64> = Reclaiming::new(rt.alloc(), set)?;
    is_a_set_reclaimed(&rt, &mut shared.handle());
    Ok(())
}
