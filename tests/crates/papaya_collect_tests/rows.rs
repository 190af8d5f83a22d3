// The entries of which collections are made, which collections are equal, and what a reclaimed one
// has.
use crate::collection::{Collection, Maker, has_below};
use crate::expect::is_at;
use crate::keys::{Key, MODES, Pair};
use papaya_map::map;
use papaya_seq::seq;
use papaya_set::{seq as set_alone, set};
use papaya_words::refused::Refused;
use std::alloc::Global;
use std::process::Abort;
use std::sync::Wait;
use std::test::Fail;

/// Entries with three keys, the same in another order, and others.
const THREE: [Pair; 3] = [(Key(1), 10), (Key(2), 20), (Key(3), 30)];

const TURNED: [Pair; 3] = [(Key(3), 30), (Key(1), 10), (Key(2), 20)];

const OTHER_VALUE: [Pair; 3] = [(Key(1), 10), (Key(2), 21), (Key(3), 30)];

const OTHER_KEY: [Pair; 3] = [(Key(1), 10), (Key(4), 20), (Key(3), 30)];

/// Entries with two keys, and with one.
const TWO: [Pair; 3] = [(Key(1), 10), (Key(2), 21), (Key(2), 20)];

const ONE: [Pair; 3] = [(Key(0), 1), (Key(0), 2), (Key(0), 3)];

/// Entries, and what an iterator of their map returns: how many, and the sums of keys and values.
type Made = ([Pair; 3], (u64, u64, u64));

const MADE: [Made; 3] = [(THREE, (3, 6, 60)), (TWO, (2, 3, 30)), (ONE, (1, 0, 3))];

/// Returns the sum of the values; a set has none.
fn values_of(has_values: bool, sum: u64) -> u64 {
    if has_values { sum } else { 0 }
}

/// Checks that it was made, and what its iterator returns.
fn is_made<R: Wait + Abort, C: Collection + Drop>(
    rt: &R,
    case: usize,
    made: Result<C, Refused>,
    wanted: (u64, u64, u64),
) -> Result<(), Refused> {
    let it = made?;
    is_at(rt, case, it.count(), wanted.0);
    is_at(rt, case, it.walk(rt), Ok(wanted));
    Ok(())
}

/// Checks that a collection is made of these, by an iterator and by an array.
fn is_made_of<R: Wait + Abort, C: Collection + Drop>(
    rt: &R,
    alloc: Global,
    case: usize,
    items: [Pair; 3],
    wanted: (u64, u64, u64),
) -> Result<(), Refused> {
    is_made::<R, C>(rt, case, C::of_items(rt, alloc, items), wanted)?;
    is_made::<R, C>(rt, case, C::of_array(rt, alloc, items), wanted)
}

/// Checks this for each of these lists, and for none.
fn are_made<R: Wait + Abort, C: Collection + Drop>(
    rt: &R,
    alloc: Global,
    has_values: bool,
) -> Result<(), Refused> {
    is_made::<R, C>(rt, MADE.len(), C::of_nothing(rt, alloc), (0, 0, 0))?;
    for (case, (items, walked)) in MADE.into_iter().enumerate() {
        let wanted = (walked.0, walked.1, values_of(has_values, walked.2));
        is_made_of::<R, C>(rt, alloc, case, items, wanted)?;
    }
    Ok(())
}

/// Entries of which one gets another value from the ten further ones.
const BEFORE: [Pair; 3] = [(Key(1), 10), (Key(25), 7), (Key(29), 290)];

/// Inserts the ten further entries, owned or by reference.
fn take_further<R: Wait, C: Collection>(rt: &R, it: &mut C, lent: bool) -> Result<(), Refused> {
    if lent { it.take_lent(rt) } else { it.take(rt) }
}

/// Returns what an iterator returns then, or why they were not inserted.
fn walked_after<R: Wait, C: Collection + Drop>(
    rt: &R,
    alloc: Global,
    lent: bool,
) -> Result<(u64, u64, u64), Refused> {
    let mut it: C = C::of_items(rt, alloc, BEFORE)?;
    take_further(rt, &mut it, lent)?;
    it.walk(rt)
}

/// Checks that the later value of two with one key stays.
fn are_taken<R: Wait + Abort, C: Collection + Drop>(rt: &R, alloc: Global, has_values: bool) {
    let wanted = (11, 246, values_of(has_values, 2460));
    is_at(rt, 0, walked_after::<R, C>(rt, alloc, false), Ok(wanted));
    is_at(rt, 1, walked_after::<R, C>(rt, alloc, true), Ok(wanted));
}

/// The entries of two maps, whether these are equal, and whether the sets of their keys are.
type Compared = ([Pair; 3], [Pair; 3], bool, bool);

const COMPARED: [Compared; 6] = [
    (THREE, THREE, true, true),
    (THREE, TURNED, true, true),
    (THREE, OTHER_VALUE, false, true),
    (THREE, OTHER_KEY, false, false),
    (THREE, TWO, false, false),
    (ONE, ONE, true, true),
];

/// Returns whether the first is equal to the second, and the second to the first.
fn equal<R: Wait, C: Collection>(rt: &R, one: &C, other: &C) -> Result<(bool, bool), Refused> {
    Ok((one.equals(rt, other)?, other.equals(rt, one)?))
}

/// Checks which collections are equal. None with a key is equal to an empty one; a copy of an empty
/// one is.
fn are_compared<R: Wait + Abort, C: Collection + Drop>(
    rt: &R,
    alloc: Global,
    has_values: bool,
) -> Result<(), Refused> {
    let none: C = C::of_nothing(rt, alloc)?;
    let copy: C = none.copied(rt, alloc)?;
    is_at(
        rt,
        COMPARED.len(),
        equal(rt, &none, &copy),
        Ok((true, true)),
    );
    for (case, (one, other, maps, sets)) in COMPARED.into_iter().enumerate() {
        let one: C = C::of_items(rt, alloc, one)?;
        let other: C = C::of_items(rt, alloc, other)?;
        let wanted = if has_values { maps } else { sets };
        is_at(rt, case, equal(rt, &one, &other), Ok((wanted, wanted)));
        is_at(rt, case, equal(rt, &one, &none), Ok((false, false)));
    }
    Ok(())
}

/// The keys below this one are stored twice before a collection is reclaimed.
const TWICE: u64 = 100;

/// Stores each of them twice, the second time with ten times itself.
fn store_twice<R: Wait, C: Collection>(rt: &R, it: &mut C) -> Result<(), Refused> {
    for key in 0..TWICE {
        it.store(rt, (Key(key), 1000))?;
        it.store(rt, (Key(key), key.wrapping_mul(10)))?;
    }
    Ok(())
}

/// Reclaims it; returns whether it has just its keys, is equal to an earlier copy, and takes a
/// further key that the copy has not.
fn goes_on<R: Wait, C: Collection>(rt: &R, it: &mut C, before: &C) -> Result<bool, Refused> {
    it.make_anew(rt)?;
    let is_same = has_below(it, TWICE) && it.equals(rt, before)?;
    let is_new = it.store(rt, (Key(TWICE), 1000))? && has_below(it, 101);
    Ok(is_same && is_new && has_below(before, TWICE) && !it.equals(rt, before)?)
}

/// Checks this in each mode.
fn are_made_anew<R: Wait + Abort, C: Collection + Drop>(
    rt: &R,
    alloc: Global,
) -> Result<(), Refused> {
    for (case, mode) in MODES.into_iter().enumerate() {
        let mut it: C = C::none(rt, alloc, Maker::Parts(mode))?;
        store_twice(rt, &mut it)?;
        let before = it.copied(rt, alloc)?;
        is_at(rt, case, goes_on(rt, &mut it, &before), Ok(true));
    }
    Ok(())
}

/// Checks all of this.
fn rows<R: Wait + Abort, C: Collection + Drop>(
    rt: &R,
    alloc: Global,
    has_values: bool,
) -> Result<(), Fail> {
    are_made::<R, C>(rt, alloc, has_values)?;
    are_taken::<R, C>(rt, alloc, has_values);
    are_compared::<R, C>(rt, alloc, has_values)?;
    are_made_anew::<R, C>(rt, alloc)?;
    Ok(())
}

#[test]
fn rows_of_maps(rt: HostRuntime) -> Result<(), Fail> {
    rows::<_, seq::HashMap<Key, u64>>(&rt, rt.alloc(), true)?;
    rows::<_, map::HashMap<Key, u64>>(&rt, rt.alloc(), true)
}

#[test]
fn rows_of_sets(rt: HostRuntime) -> Result<(), Fail> {
    rows::<_, set_alone::HashSet<Key>>(&rt, rt.alloc(), false)?;
    rows::<_, set::HashSet<Key>>(&rt, rt.alloc(), false)
}
