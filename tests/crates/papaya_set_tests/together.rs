// Sets that are made of keys, compared and printed.
use crate::expect::{is, prints};
use papaya_set::seq::HashSet;
use std::alloc::Global;
use std::process::Abort;
use std::test::Fail;

type Keys = HashSet<u64>;

/// Checks whether both sets are equal, each to the other.
fn compare(rt: &impl Abort, one: &Keys, other: &Keys, wanted: bool) {
    is(rt, one.eq(other), wanted);
    is(rt, other.eq(one), wanted);
}

/// Checks that the set has this many keys and slots.
fn has(rt: &impl Abort, set: &Keys, keys: usize, slots: usize) {
    is(rt, (set.len(), set.map().slots()), (keys, slots));
}

#[test]
fn sets_are_made_of_keys(rt: HostRuntime) -> Result<(), Fail> {
    let alloc = rt.alloc();
    has(&rt, &HashSet::from_iter(alloc, 0..0)?, 0, 0);
    has(
        &rt,
        &HashSet::from_iter(alloc, vec![in alloc; 0, 0, 0]?)?,
        1,
        32,
    );
    has(&rt, &HashSet::from_array(alloc, [1, 2, 1, 3])?, 3, 32);
    Ok(())
}

/// Returns a set of these keys.
fn made(alloc: Global, keys: &[u64]) -> Result<Keys, Fail> {
    let mut set: Keys = HashSet::default(alloc)?;
    set.extend_ref(keys)?;
    Ok(set)
}

#[test]
fn sets_of_equal_keys_are_equal(rt: HostRuntime) -> Result<(), Fail> {
    let sets: [(&[u64], &[u64], bool); 5] = [
        (&[], &[], true),
        (&[1, 2, 3], &[1, 2], false),
        (&[1], &[1], true),
        (&[1], &[2], false),
        (&[1, 2, 3], &[3, 2, 1], true),
    ];
    for (one, other, wanted) in sets {
        compare(
            &rt,
            &made(rt.alloc(), one)?,
            &made(rt.alloc(), other)?,
            wanted,
        );
    }
    Ok(())
}

/// Checks that the set prints 42 and 16, in some order.
fn prints_both(rt: &impl Abort, alloc: Global, set: &Keys) -> Result<(), Fail> {
    let text = format!(in alloc; "{set:?}")?;
    let is_so = text.as_str() == "{42, 16}" || text.as_str() == "{16, 42}";
    is(rt, is_so, true);
    Ok(())
}

/// Checks that an empty set prints the keys that it is given.
fn prints_its_keys(rt: &impl Abort, alloc: Global, set: &mut Keys) -> Result<(), Fail> {
    prints(rt, alloc, set, "{}")?;
    is(rt, set.insert(42), Ok(true));
    prints(rt, alloc, set, "{42}")?;
    is(rt, set.insert(16), Ok(true));
    prints_both(rt, alloc, set)
}

#[test]
fn a_set_prints_its_keys(rt: HostRuntime) -> Result<(), Fail> {
    let mut set: Keys = HashSet::with_capacity(rt.alloc(), 2)?;
    prints_its_keys(&rt, rt.alloc(), &mut set)
}
