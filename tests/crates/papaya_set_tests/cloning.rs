// Sets of clones of a set's keys, sets that are reclaimed, and what the shared ones and their
// guards, passes and sessions print.
use crate::expect::{is, prints};
use crate::labels::{Keys, any, key};
use papaya_map::session::Session;
use papaya_set::seq::HashSet;
use papaya_testing::labels::Labelled;
use papaya_words::refused::Refused;
use std::alloc::Global;
use std::process::Abort;
use std::sync::Wait;
use std::test::Fail;

/// The set for one caller.
type Alone = HashSet<u64>;

/// Checks that the copy has all keys of the set: those below `end`.
fn is_whole(rt: &impl Abort, set: &Alone, copy: &Alone, end: u64) {
    is(rt, (copy.len() as u64, set.eq(copy)), (end, true));
}

/// Checks that a copy of a set for one caller has its keys, and that the set is unchanged if the
/// copy takes another key, loses it and is reclaimed.
fn stands_alone(rt: &impl Abort, set: &Alone, copy: &mut Alone, end: u64) {
    is_whole(rt, set, copy, end);
    is(rt, copy.insert(end), Ok(true));
    is(rt, (set.contains(&end), set.eq(copy)), (false, false));
    is(rt, copy.remove(&end), Ok(true));
    is(rt, copy.reclaim(), Ok(()));
    is_whole(rt, set, copy, end);
}

fn copies_alone(rt: &impl Abort, alloc: Global, end: u64) -> Result<(), Fail> {
    let set: Alone = HashSet::from_iter(alloc, 0..end)?;
    let mut copy = set.try_clone(alloc)?;
    stands_alone(rt, &set, &mut copy, end);
    Ok(())
}

/// Returns a set that threads share, of these keys.
fn made<R: Wait>(rt: &R, alloc: Global, keys: &[Labelled]) -> Result<Keys, Refused> {
    let set = Keys::new(rt, alloc)?;
    set.extend_ref(rt, keys)?;
    Ok(set)
}

/// Checks that this set has this many keys, and whether it is equal to the other one.
fn has<R: Wait + Abort>(rt: &R, set: &Keys, other: &Keys, keys: usize, is_equal: bool) {
    is(rt, (set.len(), set.eq(rt, other)), (keys, Ok(is_equal)));
}

/// Checks the same for a copy of a set that threads share.
fn stands_apart<R: Wait + Abort>(rt: &R, set: &Keys, copy: &mut Keys, keys: usize) {
    has(rt, copy, set, keys, true);
    is(rt, copy.pin().insert(rt, any(9)), Ok(true));
    has(rt, set, copy, keys, false);
    is(rt, copy.pin().remove(rt, &any(9)), Ok(true));
    is(rt, copy.reclaim(rt), Ok(()));
    has(rt, copy, set, keys, true);
}

fn copies_shared<R: Wait + Abort>(rt: &R, alloc: Global, keys: &[Labelled]) -> Result<(), Fail> {
    let set = made(rt, alloc, keys)?;
    let mut copy = set.try_clone(rt, alloc)?;
    stands_apart(rt, &set, &mut copy, keys.len());
    Ok(())
}

#[test]
fn a_copy_stands_alone(rt: HostRuntime) -> Result<(), Fail> {
    let alloc = rt.alloc();
    copies_alone(&rt, alloc, 0)?;
    copies_alone(&rt, alloc, 100)?;
    copies_shared(&rt, alloc, &[])?;
    copies_shared(&rt, alloc, &[any(1), any(2)])
}

/// Checks that an iterator over a set of one key prints what it has not returned yet.
fn prints_its_rest<R: Wait + Abort>(rt: &R, alloc: Global, set: &Keys) -> Result<(), Fail> {
    let mut keys = set.pin().iter(rt)?;
    prints(rt, alloc, &keys, "[Labelled { number: 7, label: 'x' }]")?;
    is(rt, keys.next().is_some(), true);
    prints(rt, alloc, &keys, "[]")
}

/// Checks that an empty set prints no key, and then one.
fn prints_its_keys<R: Wait + Abort>(rt: &R, alloc: Global, set: &Keys) -> Result<(), Fail> {
    prints(rt, alloc, set, "{}")?;
    is(rt, set.pin().insert(rt, key(7, 'x')), Ok(true));
    prints(rt, alloc, set, "{Labelled { number: 7, label: 'x' }}")
}

#[test]
fn a_shared_set_prints_its_keys(rt: HostRuntime) -> Result<(), Fail> {
    let set = Keys::new(&rt, rt.alloc())?;
    prints_its_keys(&rt, rt.alloc(), &set)?;
    prints_its_rest(&rt, rt.alloc(), &set)
}

/// Guards and passes print their numbers, which a collector gives one after another.
fn prints_numbers<R: Wait + Abort>(rt: &R, alloc: Global, set: &Keys) -> Result<(), Fail> {
    let wanted = "LocalGuard { collector: 0, number: 0 }";
    prints(rt, alloc, &set.guard(), wanted)?;
    let wanted = "OwnedGuard { collector: 0, number: 1 }";
    prints(rt, alloc, &set.owned_guard(), wanted)?;
    prints(rt, alloc, &set.map().pass(), "Pass { number: Some(2) }")
}

#[test]
fn guards_passes_and_sessions_print(rt: HostRuntime) -> Result<(), Fail> {
    let set = Keys::new(&rt, rt.alloc())?;
    prints_numbers(&rt, rt.alloc(), &set)?;
    is(&rt, set.pin().insert(&rt, key(7, 'x')), Ok(true));
    let wanted = "{Labelled { number: 7, label: 'x' }: ()}";
    prints(&rt, rt.alloc(), &Session::new(set.map()), wanted)
}
