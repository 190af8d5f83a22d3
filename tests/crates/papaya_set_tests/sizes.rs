// The sizes that a shared set returns: keys in its arena, and slots of its table.
use crate::expect::is;
use crate::labels::{Keys, any};
use papaya_set::set::HashSet;
use std::process::Abort;
use std::test::Fail;

/// Checks that the set holds this many keys, in a table of this many slots, and moves none.
fn holds(rt: &impl Abort, set: &Keys, stored: usize, slots: usize) {
    is(rt, (set.stored(), set.slots()), (stored, slots));
    is(rt, (set.pin().stored(), set.pin().slots()), (stored, slots));
    is(rt, (set.resizing(), set.pin().resizing()), (false, false));
}

#[test]
fn keys_stay_until_the_set_is_reclaimed(rt: HostRuntime) -> Result<(), Fail> {
    let mut set: Keys = HashSet::builder().capacity(1000).build(&rt, rt.alloc())?;
    is(&rt, set.pin().insert(&rt, any(1)), Ok(true));
    is(&rt, set.pin().insert(&rt, any(1)), Ok(false));
    holds(&rt, &set, 2, 2048);
    set.reclaim(&rt)?;
    holds(&rt, &set, 1, 2048);
    Ok(())
}
