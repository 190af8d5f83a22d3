// Each call of a session once, and two threads with a session each.
use crate::expect::is;
use papaya::{Compute, HashMap, NotInserted, OccupiedError, Operation, Refused, Session};
use std::process::Abort;
use std::sync::Wait;
use std::test::Fail;
use std::thread::{Threads, join};

type Numbers = HashMap<u64, u64>;

type NumbersSession<'a> = Session<'a, u64, u64>;

/// Stores the value 10 and then 11 at key 1.
fn stores<R: Wait + Abort>(rt: &R, session: &mut NumbersSession<'_>) {
    is(rt, session.insert(rt, 1, 10), Ok(None));
    is(rt, session.insert(rt, 1, 11), Ok(Some(&10)));
    is(rt, session.get(&1), Some(&11));
    is(rt, session.get_key_value(&1), Some((&1, &11)));
    is(rt, session.contains_key(&2), false);
}

/// Removes key 1 only by a removal that agrees to 11.
fn removes<R: Wait + Abort>(rt: &R, session: &mut NumbersSession<'_>) {
    let kept = session.remove_if(rt, &1, |_, value| *value == 10);
    is(rt, kept, Ok(Err((&1, &11))));
    is(rt, session.remove(rt, &1), Ok(Some(&11)));
    is(rt, session.insert(rt, 1, 12), Ok(None));
    is(rt, session.remove_entry(rt, &1), Ok(Some((&1, &12))));
    is(rt, session.contains_key(&1), false);
}

/// Returns the sums of an iterator's keys and values.
fn walked<R: Wait>(rt: &R, session: &mut NumbersSession<'_>) -> Result<(u64, u64), Refused> {
    let mut keys = 0u64;
    let mut values = 0u64;
    for (key, value) in session.iter(rt)? {
        keys = keys.wrapping_add(*key);
        values = values.wrapping_add(*value);
    }
    Ok((keys, values))
}

/// Returns the sum of an iterator's keys.
fn walked_keys<R: Wait>(rt: &R, session: &mut NumbersSession<'_>) -> Result<u64, Refused> {
    let mut sum = 0u64;
    for key in session.keys(rt)? {
        sum = sum.wrapping_add(*key);
    }
    Ok(sum)
}

/// Retains 2 of the keys 2 and 3, and then clears the map.
fn scans<R: Wait + Abort>(rt: &R, session: &mut NumbersSession<'_>) {
    is(rt, session.reserve(rt, 100), Ok(()));
    is(rt, session.insert(rt, 2, 20), Ok(None));
    is(rt, session.insert(rt, 3, 30), Ok(None));
    is(rt, session.retain(rt, |key, _| *key == 2), Ok(()));
    is(rt, walked(rt, session), Ok((2, 20)));
    is(rt, walked_keys(rt, session), Ok(2));
    is(rt, session.pinned().contains_key(&3), false);
    is(rt, session.clear(rt), Ok(()));
    is(rt, walked(rt, session), Ok((0, 0)));
}

/// Stores the value 50 at key 5, which no further value replaces, and a closure's value at key 6.
fn stores_where_absent<R: Wait + Abort>(rt: &R, session: &mut NumbersSession<'_>) {
    let occupied = OccupiedError {
        current: &50,
        not_inserted: NotInserted::Value(51),
    };
    is(rt, session.try_insert(rt, 5, 50), Ok(Ok(&50)));
    is(rt, session.try_insert(rt, 5, 51), Ok(Err(occupied)));
    is(rt, session.try_insert_with(rt, 6, || 60), Ok(Ok(&60)));
    is(rt, session.get_or_insert(rt, 5, 52), Ok(&50));
    is(rt, session.get_or_insert_with(rt, 6, || 61), Ok(&60));
}

/// Counts on from the value of key 5, and begins to count at key 7.
fn updates<R: Wait + Abort>(rt: &R, session: &mut NumbersSession<'_>) {
    is(
        rt,
        session.update(rt, 5, |v| v.wrapping_add(1)),
        Ok(Some(&51)),
    );
    is(rt, session.update(rt, 8, |v| v.wrapping_add(1)), Ok(None));
    let counted = session.update_or_insert(rt, 5, |v| v.wrapping_add(1), 1);
    is(rt, counted, Ok(&52));
    let begun = session.update_or_insert_with(rt, 7, |v| v.wrapping_add(1), || 1);
    is(rt, begun, Ok(&1));
}

/// Removes an entry, and aborts with 9 if there is none.
fn taken(shown: Option<(&u64, &u64)>) -> Operation<u64, u64> {
    match shown {
        Some(_) => Operation::Remove,
        None => Operation::Abort(9),
    }
}

/// Removes key 7 by a compute, after which there is none.
fn computes<R: Wait + Abort>(rt: &R, session: &mut NumbersSession<'_>) {
    let removed = session.compute(rt, 7, |shown| taken(shown));
    is(rt, removed, Ok(Compute::Removed(&7, &1)));
    let aborted = session.compute(rt, 7, |shown| taken(shown));
    is(rt, aborted, Ok(Compute::Aborted(9)));
}

/// Checks that a session finds what another one stored that it has met.
fn meets<R: Wait + Abort>(rt: &R, map: &Numbers) {
    let mut first = Session::new(map);
    let mut second = Session::new(map);
    is(rt, first.insert(rt, 4, 40), Ok(None));
    first.meet(&mut second);
    is(rt, second.get(&4), Some(&40));
}

#[test]
fn each_call_of_a_session(rt: HostRuntime) -> Result<(), Fail> {
    let map: Numbers = HashMap::new(&rt, rt.alloc())?;
    let mut session = Session::new(&map);
    stores(&rt, &mut session);
    removes(&rt, &mut session);
    scans(&rt, &mut session);
    meets(&rt, &map);
    Ok(())
}

#[test]
fn each_compute_of_a_session(rt: HostRuntime) -> Result<(), Fail> {
    let map: Numbers = HashMap::new(&rt, rt.alloc())?;
    let mut session = Session::new(&map);
    stores_where_absent(&rt, &mut session);
    updates(&rt, &mut session);
    computes(&rt, &mut session);
    Ok(())
}

/// Stores 100 values at a key of the thread's own; returns whether it read each back, and replaced
/// it by the next.
fn reads_own_writes<R: Wait>(rt: &R, map: &Numbers, key: u64) -> bool {
    let mut session = Session::new(map);
    for value in 0..100u64 {
        let before = session.insert(rt, key, value);
        if before.map(|old| old.copied()) != Ok(value.checked_sub(1))
            || session.get(&key) != Some(&value)
        {
            return false;
        }
    }
    true
}

/// Lets two threads at a time read on one map.
fn both_read<R: Threads + Wait + Sync + Abort>(rt: &R, map: &Numbers) {
    let both = join(
        rt,
        || reads_own_writes(rt, map, 1),
        || reads_own_writes(rt, map, 2),
    );
    is(rt, both, (true, true));
    let mut session = Session::new(map);
    is(
        rt,
        (session.get(&1), session.get(&2)),
        (Some(&99), Some(&99)),
    );
}

#[test]
fn each_thread_has_a_session(rt: HostRuntime) -> Result<(), Fail> {
    let map: Numbers = HashMap::new(&rt, rt.alloc())?;
    both_read(&rt, &map);
    Ok(())
}
