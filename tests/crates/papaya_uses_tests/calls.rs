// Examples of calls whose comments have none, each run once: docs/SIGNATURES.md quotes the lines of
// the function that is named after its type and call. The comments at the ends of lines are results,
// which the tests check.
use crate::expect::is;
use papaya::json::{
    map_from_value, map_to_value, set_from_value, set_to_value, shared_map_from_value,
    shared_map_to_value, shared_set_from_value, shared_set_to_value,
};
use papaya::reclaiming::Handle;
use papaya::{
    Compute, HashMap, HashSet, Operation, Reclaiming, ReclaimingMap, Refused, Session, seq,
};
use serde_json::Value;
use std::alloc::Global;
use std::hash::{BuildHasherDefault, FoldHasher, RandomState};
use std::process::Abort;
use std::sync::Wait;
use std::test::Fail;

/// The map of the examples.
type Numbers = HashMap<u64, u64, BuildHasherDefault<FoldHasher>>;

/// The set of the examples.
type Keys = HashSet<u64, BuildHasherDefault<FoldHasher>>;

fn session_get(rt: &impl Wait, map: &Numbers) -> Result<Option<u64>, Refused> {
    let mut session = Session::new(map);
    session.insert(rt, 1, 10)?;
    let value = session.get(&1); // Some(&10)
    Ok(value.copied())
}

fn session_get_key_value(rt: &impl Wait, map: &Numbers) -> Result<bool, Refused> {
    let mut session = Session::new(map);
    session.insert(rt, 1, 10)?;
    let entry = session.get_key_value(&1); // Some((&1, &10))
    Ok(entry == Some((&1, &10)))
}

fn session_contains_key(rt: &impl Wait, map: &Numbers) -> Result<bool, Refused> {
    let mut session = Session::new(map);
    session.insert(rt, 1, 10)?;
    let present = session.contains_key(&1); // true
    Ok(present)
}

fn session_insert(rt: &impl Wait, map: &Numbers) -> Result<bool, Refused> {
    let mut session = Session::new(map);
    let first = session.insert(rt, 1, 10)?; // None
    let second = session.insert(rt, 1, 11)?; // Some(&10)
    Ok(first.is_none() && second == Some(&10))
}

fn session_try_insert(rt: &impl Wait, map: &Numbers) -> Result<u64, Refused> {
    let mut session = Session::new(map);
    session.insert(rt, 1, 10)?;
    let value = match session.try_insert(rt, 1, 11)? {
        Ok(inserted) => inserted,
        Err(error) => error.current, // &10, which stays in the map
    };
    Ok(*value)
}

fn session_try_insert_with(rt: &impl Wait, map: &Numbers) -> Result<bool, Refused> {
    let mut session = Session::new(map);
    let first = session.try_insert_with(rt, 1, || 10)?; // Ok(&10)
    let second = session.try_insert_with(rt, 1, || 11)?; // Err(&10)
    Ok(first == Ok(&10) && second == Err(&10))
}

fn session_get_or_insert(rt: &impl Wait, map: &Numbers) -> Result<bool, Refused> {
    let mut session = Session::new(map);
    let first = session.get_or_insert(rt, 1, 10)?; // &10
    let second = session.get_or_insert(rt, 1, 11)?; // &10
    Ok((*first, *second) == (10, 10))
}

fn session_get_or_insert_with(rt: &impl Wait, map: &Numbers) -> Result<bool, Refused> {
    let mut session = Session::new(map);
    let first = session.get_or_insert_with(rt, 1, || 10)?; // &10
    let second = session.get_or_insert_with(rt, 1, || 11)?; // &10
    Ok((*first, *second) == (10, 10))
}

fn session_update(rt: &impl Wait, map: &Numbers) -> Result<bool, Refused> {
    let mut session = Session::new(map);
    session.insert(rt, 1, 10)?;
    let value = session.update(rt, 1, |old| old.saturating_add(1))?; // Some(&11)
    let absent = session.update(rt, 2, |old| old.saturating_add(1))?; // None
    Ok(value == Some(&11) && absent.is_none())
}

fn session_update_or_insert(rt: &impl Wait, map: &Numbers) -> Result<bool, Refused> {
    let mut session = Session::new(map);
    let first = session.update_or_insert(rt, 1, |count| count.saturating_add(1), 1)?; // &1
    let second = session.update_or_insert(rt, 1, |count| count.saturating_add(1), 1)?; // &2
    Ok((*first, *second) == (1, 2))
}

fn session_update_or_insert_with(rt: &impl Wait, map: &Numbers) -> Result<bool, Refused> {
    let mut session = Session::new(map);
    let value = session.update_or_insert_with(rt, 1, |n| n.saturating_add(1), || 1)?; // &1
    Ok(*value == 1)
}

fn session_compute(rt: &impl Wait, map: &Numbers) -> Result<bool, Refused> {
    let mut session = Session::new(map);
    session.insert(rt, 1, 10)?;
    let computed = session.compute(rt, 1, |entry| match entry {
        Some((_, left)) if *left > 1 => Operation::Insert(left.saturating_sub(1)),
        Some(_) => Operation::Remove,
        None => Operation::Abort(()),
    })?; // Compute::Updated { old: (&1, &10), new: (&1, &9) }
    Ok(is_nine(&computed))
}

fn session_remove(rt: &impl Wait, map: &Numbers) -> Result<bool, Refused> {
    let mut session = Session::new(map);
    session.insert(rt, 1, 10)?;
    let first = session.remove(rt, &1)?; // Some(&10)
    let second = session.remove(rt, &1)?; // None
    Ok(first == Some(&10) && second.is_none())
}

fn session_remove_entry(rt: &impl Wait, map: &Numbers) -> Result<bool, Refused> {
    let mut session = Session::new(map);
    session.insert(rt, 1, 10)?;
    let removed = session.remove_entry(rt, &1)?; // Some((&1, &10))
    Ok(removed == Some((&1, &10)))
}

fn session_remove_if(rt: &impl Wait, map: &Numbers) -> Result<bool, Refused> {
    let mut session = Session::new(map);
    session.insert(rt, 1, 10)?;
    let kept = session.remove_if(rt, &1, |_, value| *value > 10)?; // Err((&1, &10))
    let removed = session.remove_if(rt, &1, |_, value| *value == 10)?; // Ok(Some((&1, &10)))
    Ok(kept == Err((&1, &10)) && removed == Ok(Some((&1, &10))))
}

fn session_retain(rt: &impl Wait, map: &Numbers) -> Result<bool, Refused> {
    let mut session = Session::new(map);
    session.insert(rt, 1, 10)?;
    session.insert(rt, 2, 20)?;
    session.retain(rt, |_, value| *value > 10)?;
    let len = session.len(); // 1
    Ok(len == 1)
}

fn session_clear(rt: &impl Wait, map: &Numbers) -> Result<bool, Refused> {
    let mut session = Session::new(map);
    session.insert(rt, 1, 10)?;
    session.clear(rt)?;
    let empty = session.is_empty(); // true
    Ok(empty)
}

fn session_iter(rt: &impl Wait, map: &Numbers) -> Result<bool, Refused> {
    let mut session = Session::new(map);
    session.insert(rt, 1, 10)?;
    session.insert(rt, 2, 20)?;
    let mut sum = 0u64;
    for (_, value) in session.iter(rt)? {
        sum = sum.saturating_add(*value);
    }
    // sum is 30
    Ok(sum == 30)
}

fn session_keys(rt: &impl Wait, map: &Numbers) -> Result<bool, Refused> {
    let mut session = Session::new(map);
    session.insert(rt, 1, 10)?;
    let first = session.keys(rt)?.next(); // Some(&1)
    Ok(first == Some(&1))
}

fn session_values(rt: &impl Wait, map: &Numbers) -> Result<bool, Refused> {
    let mut session = Session::new(map);
    session.insert(rt, 1, 10)?;
    let first = session.values(rt)?.next(); // Some(&10)
    Ok(first == Some(&10))
}

fn session_reserve(rt: &impl Wait, map: &Numbers) -> Result<bool, Refused> {
    Session::new(map).reserve(rt, 1000)?;
    let slots = map.slots(); // 2048
    Ok(slots == 2048)
}

fn session_pinned(rt: &impl Wait, map: &Numbers) -> Result<bool, Refused> {
    let mut session = Session::new(map);
    session.insert(rt, 1, 10)?;
    let value = session.pinned().get(&1); // Some(&10)
    Ok(value == Some(&10))
}

fn pinned_try_insert_with(rt: &impl Wait, map: &Numbers) -> Result<bool, Refused> {
    let first = map.pin().try_insert_with(rt, 1, || 10)?; // Ok(&10)
    let second = map.pin().try_insert_with(rt, 1, || 11)?; // Err(&10)
    Ok(first == Ok(&10) && second == Err(&10))
}

fn pinned_get_or_insert(rt: &impl Wait, map: &Numbers) -> Result<bool, Refused> {
    let first = map.pin().get_or_insert(rt, 1, 10)?; // &10
    let second = map.pin().get_or_insert(rt, 1, 11)?; // &10
    Ok((*first, *second) == (10, 10))
}

fn pinned_update_or_insert_with(rt: &impl Wait, map: &Numbers) -> Result<bool, Refused> {
    let value = map
        .pin()
        .update_or_insert_with(rt, 1, |n| n.saturating_add(1), || 1)?; // &1
    Ok(*value == 1)
}

fn pinned_remove_entry(rt: &impl Wait, map: &Numbers) -> Result<bool, Refused> {
    map.pin().insert(rt, 1, 10)?;
    let removed = map.pin().remove_entry(rt, &1)?; // Some((&1, &10))
    Ok(removed == Some((&1, &10)))
}

fn pinned_keys(rt: &impl Wait, map: &Numbers) -> Result<bool, Refused> {
    map.pin().insert(rt, 1, 10)?;
    let first = map.pin().keys(rt)?.next(); // Some(&1)
    Ok(first == Some(&1))
}

fn pinned_values(rt: &impl Wait, map: &Numbers) -> Result<bool, Refused> {
    map.pin().insert(rt, 1, 10)?;
    let first = map.pin().values(rt)?.next(); // Some(&10)
    Ok(first == Some(&10))
}

fn map_with_capacity(rt: &impl Wait, alloc: Global) -> Result<bool, Refused> {
    let map: HashMap<u64, u64> = HashMap::with_capacity(rt, alloc, 1000)?;
    let slots = map.slots(); // 2048
    Ok(slots == 2048)
}

fn map_with_hasher(rt: &impl Wait, alloc: Global, random: RandomState) -> Result<bool, Refused> {
    let map: HashMap<u64, u64, RandomState> = HashMap::with_hasher(rt, alloc, random)?;
    let empty = map.is_empty(); // true
    Ok(empty)
}

fn map_from_array(rt: &impl Wait, alloc: Global) -> Result<bool, Refused> {
    let map: HashMap<u64, u64> = HashMap::from_array(rt, alloc, [(1, 10), (2, 20)])?;
    let len = map.len(); // 2
    Ok(len == 2)
}

fn map_from_iter(rt: &impl Wait, alloc: Global) -> Result<bool, Refused> {
    let map: HashMap<u64, u64> = HashMap::from_iter(rt, alloc, [(1, 10), (2, 20)])?;
    let len = map.len(); // 2
    Ok(len == 2)
}

fn map_extend(rt: &impl Wait, map: &Numbers) -> Result<bool, Refused> {
    map.extend(rt, [(1, 10), (2, 20)])?;
    let len = map.len(); // 2
    Ok(len == 2)
}

fn map_extend_ref(rt: &impl Wait, map: &Numbers, other: &Numbers) -> Result<bool, Refused> {
    other.pin().insert(rt, 3, 30)?;
    map.extend_ref(rt, other.pin().iter(rt)?)?;
    let value = map.pin().get(&3); // Some(&30)
    Ok(value == Some(&30))
}

fn map_eq(rt: &impl Wait, map: &Numbers, other: &Numbers) -> Result<bool, Refused> {
    map.pin().insert(rt, 1, 10)?;
    other.pin().insert(rt, 1, 10)?;
    let equal = map.eq(rt, other)?; // true
    Ok(equal)
}

fn map_try_clone(rt: &impl Wait, alloc: Global, map: &Numbers) -> Result<bool, Refused> {
    map.pin().insert(rt, 1, 10)?;
    let copy = map.try_clone(rt, alloc)?;
    let value = copy.pin().get(&1); // Some(&10)
    Ok(value == Some(&10))
}

fn handle_try_reclaim(rt: &impl Wait, handle: &mut Handle<'_, Numbers>) -> Result<bool, Refused> {
    handle.enter(rt).pin().insert(rt, 1, 10)?;
    let reclaimed = handle.try_reclaim(rt)?; // true, since no guard exists
    Ok(reclaimed)
}

fn handle_reclaim(rt: &impl Wait, handle: &mut Handle<'_, Numbers>) -> Result<bool, Refused> {
    handle.enter(rt).pin().insert(rt, 1, 10)?;
    handle.enter(rt).pin().insert(rt, 1, 11)?;
    handle.reclaim(rt)?;
    let stored = handle.enter(rt).stored(); // 1
    Ok(stored == 1)
}

fn entered_refresh(rt: &impl Wait, handle: &mut Handle<'_, Numbers>) -> Result<bool, Refused> {
    let mut entered = handle.enter(rt);
    for request in 0..3 {
        entered.pin().insert(rt, request, 10)?;
        entered = entered.refresh(rt); // a waiting reclaim goes ahead here
    }
    Ok(entered.len() >= 3)
}

fn pinned_set_remove(rt: &impl Wait, set: &Keys) -> Result<bool, Refused> {
    set.pin().insert(rt, 1)?;
    let first = set.pin().remove(rt, &1)?; // true
    let second = set.pin().remove(rt, &1)?; // false
    Ok(first && !second)
}

fn pinned_set_iter(rt: &impl Wait, set: &Keys) -> Result<bool, Refused> {
    set.pin().insert(rt, 1)?;
    set.pin().insert(rt, 2)?;
    let mut sum = 0u64;
    for key in set.pin().iter(rt)? {
        sum = sum.saturating_add(*key);
    }
    // sum is 3
    Ok(sum == 3)
}

fn pinned_set_retain(rt: &impl Wait, set: &Keys) -> Result<bool, Refused> {
    set.pin().insert(rt, 1)?;
    set.pin().insert(rt, 2)?;
    set.pin().retain(rt, |key| *key > 1)?;
    let len = set.len(); // 1
    Ok(len == 1)
}

fn seq_update_or_insert(map: &mut seq::HashMap<u64, u64>) -> Result<bool, Refused> {
    map.update_or_insert(1, |count| count.saturating_add(1), 1)?;
    map.update_or_insert(1, |count| count.saturating_add(1), 1)?;
    let count = map.get(&1); // Some(&2)
    Ok(count == Some(&2))
}

fn seq_remove(map: &mut seq::HashMap<u64, u64>) -> Result<bool, Refused> {
    map.insert(1, 10)?;
    let removed = map.remove(&1)?.copied(); // Some(10)
    Ok(removed == Some(10))
}

fn seq_iter(map: &mut seq::HashMap<u64, u64>) -> Result<bool, Refused> {
    map.clear()?;
    map.insert(1, 10)?;
    map.insert(2, 20)?;
    let mut sum = 0u64;
    for (_, value) in &*map {
        sum = sum.saturating_add(*value);
    }
    // sum is 30
    Ok(sum == 30)
}

fn json_map_to_value(alloc: Global, map: &mut seq::HashMap<u64, u64>) -> Result<bool, Fail> {
    map.clear()?;
    map.insert(1, 10)?;
    let number = |value: &u64| Some(Value::from(*value));
    let object = map_to_value(alloc, map, |key| key.to_string(alloc).ok(), number)?;
    let text = object.to_string(alloc)?; // {"1":10}
    Ok(text.as_str() == "{\"1\":10}")
}

fn json_map_from_value(alloc: Global, v: &Value) -> Result<bool, Fail> {
    let map: seq::HashMap<u64, u64> = map_from_value(
        alloc,
        v, // {"1":10}
        BuildHasherDefault::new(),
        |text| text.parse().ok(),
        Value::as_u64,
    )?;
    let value = map.get(&1); // Some(&10)
    Ok(value == Some(&10))
}

fn json_set_to_value(alloc: Global, set: &mut seq::HashSet<u64>) -> Result<bool, Fail> {
    set.insert(1)?;
    let array = set_to_value(alloc, set, |key| Some(Value::from(*key)))?;
    let text = array.to_string(alloc)?; // [1]
    Ok(text.as_str() == "[1]")
}

fn json_set_from_value(alloc: Global, v: &Value) -> Result<bool, Fail> {
    let set: seq::HashSet<u64> = set_from_value(
        alloc,
        v, // [1]
        BuildHasherDefault::new(),
        Value::as_u64,
    )?;
    let present = set.contains(&1); // true
    Ok(present)
}

fn json_shared_map_to_value(rt: &impl Wait, alloc: Global, map: &Numbers) -> Result<bool, Fail> {
    map.pin().insert(rt, 1, 10)?;
    let number = |value: &u64| Some(Value::from(*value));
    let object = shared_map_to_value(rt, alloc, map, |key| key.to_string(alloc).ok(), number)?;
    let text = object.to_string(alloc)?; // {"1":10}
    Ok(text.as_str() == "{\"1\":10}")
}

fn json_shared_map_from_value(rt: &impl Wait, alloc: Global, v: &Value) -> Result<bool, Fail> {
    let map: HashMap<u64, u64> = shared_map_from_value(
        rt,
        alloc,
        v, // {"1":10}
        BuildHasherDefault::new(),
        |text| text.parse().ok(),
        Value::as_u64,
    )?;
    let value = map.pin().get(&1); // Some(&10)
    Ok(value == Some(&10))
}

fn json_shared_set_to_value(rt: &impl Wait, alloc: Global, set: &Keys) -> Result<bool, Fail> {
    set.pin().insert(rt, 1)?;
    let array = shared_set_to_value(rt, alloc, set, |key| Some(Value::from(*key)))?;
    let text = array.to_string(alloc)?; // [1]
    Ok(text.as_str() == "[1]")
}

fn json_shared_set_from_value(rt: &impl Wait, alloc: Global, v: &Value) -> Result<bool, Fail> {
    let set: HashSet<u64> = shared_set_from_value(
        rt,
        alloc,
        v, // [1]
        BuildHasherDefault::new(),
        Value::as_u64,
    )?;
    let present = set.pin().contains(&1); // true
    Ok(present)
}

/// Returns whether a compute has replaced 10 by 9.
fn is_nine(computed: &Compute<'_, u64, u64, ()>) -> bool {
    *computed
        == Compute::Updated {
            old: (&1, &10),
            new: (&1, &9),
        }
}

/// Removes all entries, so that an example begins with an empty map.
fn emptied<'m>(rt: &impl Wait, map: &'m Numbers) -> Result<&'m Numbers, Refused> {
    map.pin().clear(rt)?;
    Ok(map)
}

/// Removes all keys, so that an example begins with an empty set.
fn emptied_set<'s>(rt: &impl Wait, set: &'s Keys) -> Result<&'s Keys, Refused> {
    set.pin().clear(rt)?;
    Ok(set)
}

/// Checks what the lookups and removals of a session return.
fn sessions_look_up(rt: &(impl Abort + Wait), map: &Numbers) -> Result<(), Refused> {
    is(rt, session_get(rt, map), Ok(Some(10)));
    is(rt, session_get_key_value(rt, map), Ok(true));
    is(rt, session_contains_key(rt, map), Ok(true));
    is(rt, session_remove(rt, map), Ok(true));
    is(rt, session_remove_entry(rt, map), Ok(true));
    is(rt, session_remove_if(rt, map), Ok(true));
    is(rt, session_retain(rt, emptied(rt, map)?), Ok(true));
    is(rt, session_clear(rt, map), Ok(true));
    is(rt, session_iter(rt, emptied(rt, map)?), Ok(true));
    is(rt, session_keys(rt, emptied(rt, map)?), Ok(true));
    is(rt, session_values(rt, emptied(rt, map)?), Ok(true));
    is(rt, session_reserve(rt, map), Ok(true));
    is(rt, session_pinned(rt, map), Ok(true));
    Ok(())
}

/// Checks what the insertions and computes of a session return.
fn sessions_store(rt: &(impl Abort + Wait), map: &Numbers) -> Result<(), Refused> {
    is(rt, session_insert(rt, emptied(rt, map)?), Ok(true));
    is(rt, session_try_insert(rt, map), Ok(10));
    is(rt, session_try_insert_with(rt, emptied(rt, map)?), Ok(true));
    is(rt, session_get_or_insert(rt, emptied(rt, map)?), Ok(true));
    is(
        rt,
        session_get_or_insert_with(rt, emptied(rt, map)?),
        Ok(true),
    );
    is(rt, session_update(rt, emptied(rt, map)?), Ok(true));
    is(
        rt,
        session_update_or_insert(rt, emptied(rt, map)?),
        Ok(true),
    );
    is(
        rt,
        session_update_or_insert_with(rt, emptied(rt, map)?),
        Ok(true),
    );
    is(rt, session_compute(rt, map), Ok(true));
    Ok(())
}

/// Checks what the calls of a pinned map and of the map return.
fn maps(rt: &(impl Abort + Wait), alloc: Global, map: &Numbers) -> Result<(), Refused> {
    is(rt, pinned_try_insert_with(rt, emptied(rt, map)?), Ok(true));
    is(rt, pinned_get_or_insert(rt, emptied(rt, map)?), Ok(true));
    is(
        rt,
        pinned_update_or_insert_with(rt, emptied(rt, map)?),
        Ok(true),
    );
    is(rt, pinned_remove_entry(rt, map), Ok(true));
    is(rt, pinned_keys(rt, emptied(rt, map)?), Ok(true));
    is(rt, pinned_values(rt, emptied(rt, map)?), Ok(true));
    is(rt, map_extend(rt, emptied(rt, map)?), Ok(true));
    let other: Numbers = HashMap::new(rt, alloc)?;
    is(rt, map_extend_ref(rt, map, &other), Ok(true));
    other.pin().clear(rt)?;
    is(rt, map_eq(rt, emptied(rt, map)?, &other), Ok(true));
    is(rt, map_try_clone(rt, alloc, map), Ok(true));
    Ok(())
}

/// Checks what the calls on sets return.
fn sets(rt: &(impl Abort + Wait), set: &Keys) -> Result<(), Refused> {
    is(rt, pinned_set_remove(rt, set), Ok(true));
    is(rt, pinned_set_iter(rt, emptied_set(rt, set)?), Ok(true));
    is(rt, pinned_set_retain(rt, emptied_set(rt, set)?), Ok(true));
    Ok(())
}

/// Checks the conversions to JSON and back.
fn converts(rt: &(impl Abort + Wait), alloc: Global) -> Result<(), Fail> {
    let object = Value::from_str(alloc, "{\"1\":10}")?;
    let array = Value::from_str(alloc, "[1]")?;
    let map: Numbers = HashMap::new(rt, alloc)?;
    let set: Keys = HashSet::new(rt, alloc)?;
    is(
        rt,
        json_map_to_value(alloc, &mut seq::HashMap::new(alloc)?)?,
        true,
    );
    is(rt, json_map_from_value(alloc, &object)?, true);
    is(
        rt,
        json_set_to_value(alloc, &mut seq::HashSet::new(alloc)?)?,
        true,
    );
    is(rt, json_set_from_value(alloc, &array)?, true);
    is(rt, json_shared_map_to_value(rt, alloc, &map)?, true);
    is(rt, json_shared_map_from_value(rt, alloc, &object)?, true);
    is(rt, json_shared_set_to_value(rt, alloc, &set)?, true);
    is(rt, json_shared_set_from_value(rt, alloc, &array)?, true);
    Ok(())
}

#[test]
fn sessions(rt: HostRuntime) -> Result<(), Fail> {
    let map: Numbers = HashMap::new(&rt, rt.alloc())?;
    sessions_look_up(&rt, &map)?;
    sessions_store(&rt, &map)?;
    Ok(())
}

#[test]
fn maps_and_sets(rt: HostRuntime) -> Result<(), Fail> {
    let map: Numbers = HashMap::new(&rt, rt.alloc())?;
    maps(&rt, rt.alloc(), &map)?;
    let set: Keys = HashSet::new(&rt, rt.alloc())?;
    sets(&rt, &set)?;
    Ok(())
}

#[test]
fn created_maps(rt: HostRuntime) -> Result<(), Fail> {
    let random = RandomState::new(&rt)?;
    is(&rt, map_with_capacity(&rt, rt.alloc()), Ok(true));
    is(&rt, map_with_hasher(&rt, rt.alloc(), random), Ok(true));
    is(&rt, map_from_array(&rt, rt.alloc()), Ok(true));
    is(&rt, map_from_iter(&rt, rt.alloc()), Ok(true));
    Ok(())
}

#[test]
fn reclaimed_maps(rt: HostRuntime) -> Result<(), Fail> {
    let shared: ReclaimingMap<u64, u64> = Reclaiming::new(
        rt.alloc(),
        HashMap::new(&rt, rt.alloc())?,
    )?;
    is(&rt, handle_try_reclaim(&rt, &mut shared.handle()), Ok(true));
    is(&rt, handle_reclaim(&rt, &mut shared.handle()), Ok(true));
    is(&rt, entered_refresh(&rt, &mut shared.handle()), Ok(true));
    Ok(())
}

#[test]
fn maps_for_one_thread(rt: HostRuntime) -> Result<(), Fail> {
    let mut map: seq::HashMap<u64, u64> = seq::HashMap::new(rt.alloc())?;
    is(&rt, seq_update_or_insert(&mut map), Ok(true));
    is(&rt, seq_remove(&mut map), Ok(true));
    is(&rt, seq_iter(&mut map), Ok(true));
    converts(&rt, rt.alloc())?;
    Ok(())
}
