// Keys and values are dropped with their map or set.
use crate::expect::is;
use papaya_map::map;
use papaya_seq::seq;
use papaya_set::seq::HashSet;
use papaya_set::set;
use std::alloc::Global;
use std::process::Abort;
use std::sync::{Arc, Wait};
use std::test::Fail;

type Key = Arc<u64>;

/// Checks that this many clones of the key are alive.
fn are_alive(rt: &impl Abort, key: &Key, clones: usize) {
    is(rt, Arc::strong_count(key), clones);
}

/// Stores the key in a map for one caller, both as a key and as a value.
fn alone(rt: &impl Abort, alloc: Global, key: &Key) -> Result<(), Fail> {
    let mut map: seq::HashMap<Key, Key> = seq::HashMap::default(alloc)?;
    is(
        rt,
        map.put(Arc::try_clone(key)?, Arc::try_clone(key)?),
        Ok(true),
    );
    are_alive(rt, key, 3);
    Ok(())
}

/// Stores it so in a map that threads share.
fn shared<R: Wait + Abort>(rt: &R, alloc: Global, key: &Key) -> Result<(), Fail> {
    let map: map::HashMap<Key, Key> = map::HashMap::default(rt, alloc)?;
    let stored = map
        .pin()
        .insert(rt, Arc::try_clone(key)?, Arc::try_clone(key)?);
    is(rt, stored.is_ok(), true);
    are_alive(rt, key, 3);
    Ok(())
}

/// Stores it in a set for one caller.
fn in_a_set(rt: &impl Abort, alloc: Global, key: &Key) -> Result<(), Fail> {
    let mut set: HashSet<Key> = HashSet::default(alloc)?;
    is(rt, set.insert(Arc::try_clone(key)?), Ok(true));
    are_alive(rt, key, 2);
    Ok(())
}

/// Stores it in a set that threads share.
fn in_a_shared_set<R: Wait + Abort>(rt: &R, alloc: Global, key: &Key) -> Result<(), Fail> {
    let set: set::HashSet<Key> = set::HashSet::default(rt, alloc)?;
    is(rt, set.pin().insert(rt, Arc::try_clone(key)?), Ok(true));
    are_alive(rt, key, 2);
    Ok(())
}

#[test]
fn keys_and_values_end_with_their_map(rt: HostRuntime) -> Result<(), Fail> {
    let alloc = rt.alloc();
    let key = Arc::new(alloc, 7u64)?;
    alone(&rt, alloc, &key)?;
    are_alive(&rt, &key, 1);
    shared(&rt, alloc, &key)?;
    are_alive(&rt, &key, 1);
    in_a_set(&rt, alloc, &key)?;
    are_alive(&rt, &key, 1);
    in_a_shared_set(&rt, alloc, &key)?;
    are_alive(&rt, &key, 1);
    Ok(())
}
