// The examples of the documentation, each run once. The comment of a call quotes the lines of the
// function of its name, and `tests/readme_code.sh` compares them. The comments at the ends of lines
// are results, which the tests check.
use crate::expect::is;
use papaya::reclaiming::Handle;
use papaya::{
    Compute, HashMap, HashSet, Operation, Reclaiming, ReclaimingMap, Refused, ResizeMode, Session,
    seq,
};
use std::alloc::Global;
use std::hash::{BuildHasherDefault, FoldHasher};
use std::process::Abort;
use std::sync::Wait;
use std::test::Fail;

/// The map of the examples.
type Numbers = HashMap<u64, u64, BuildHasherDefault<FoldHasher>>;

/// The set of the examples.
type Keys = HashSet<u64, BuildHasherDefault<FoldHasher>>;

/// The two results of an example, or the refusal of a call.
type Found = Result<(Option<u64>, Option<u64>), Refused>;

fn new(rt: &impl Wait, alloc: Global) -> Result<usize, Refused> {
    let map: HashMap<u64, u64> = HashMap::new(rt, alloc)?;
    map.pin().insert(rt, 1, 10)?;
    let len = map.len(); // 1
    Ok(len)
}

fn builder(rt: &impl Wait, alloc: Global) -> Result<usize, Refused> {
    let map: HashMap<u64, u64> = HashMap::builder()
        .capacity(1000)
        .resize_mode(ResizeMode::Blocking)
        .build(rt, alloc)?;
    Ok(map.len())
}

fn session_new(rt: &impl Wait, alloc: Global) -> Result<Option<u64>, Refused> {
    let map: HashMap<u64, u64> = HashMap::new(rt, alloc)?;
    let mut session = Session::new(&map);
    session.insert(rt, 1, 10)?;
    let value = session.get(&1); // Some(&10)
    Ok(value.copied())
}

fn reclaiming(rt: &impl Wait, alloc: Global) -> Result<bool, Refused> {
    let map: ReclaimingMap<u64, u64> = Reclaiming::new(alloc, HashMap::new(rt, alloc)?)?;
    let mut handle = map.handle(); // one for each thread
    handle.enter(rt).pin().insert(rt, 1, 10)?;
    let reclaimed = handle.reclaim_if(rt, 2)?; // false, since only one entry is stored
    Ok(reclaimed)
}

fn enter(rt: &impl Wait, handle: &mut Handle<'_, Numbers>) -> Result<usize, Refused> {
    let entered = handle.enter(rt);
    entered.pin().insert(rt, 1, 10)?;
    let len = entered.len(); // 1
    Ok(len)
}

fn reclaim(rt: &impl Wait, map: &mut Numbers) -> Result<(usize, usize), Refused> {
    map.pin().insert(rt, 1, 10)?;
    map.pin().insert(rt, 1, 11)?;
    let before = map.stored(); // 2, since the old entry is still in memory
    map.reclaim(rt)?;
    let after = map.stored(); // 1
    Ok((before, after))
}

fn reclaim_as(rt: &impl Wait, map: &mut Numbers) -> Result<Option<u64>, Refused> {
    let mut pass = map.pass();
    map.pin().insert_as(rt, 1, 10, &mut pass)?;
    map.reclaim_as(rt, &mut pass)?;
    let value = map.pin().get(&1); // Some(&10)
    Ok(value.copied())
}

fn session_try_clone(rt: &impl Wait, alloc: Global, map: &Numbers) -> Result<Option<u64>, Refused> {
    let mut session = Session::new(map);
    session.insert(rt, 1, 10)?;
    let copy = session.try_clone(rt, alloc)?;
    let value = copy.pin().get(&1); // Some(&10)
    Ok(value.copied())
}

fn pin(rt: &impl Wait, map: &Numbers) -> Found {
    let pinned = map.pin();
    let old = pinned.insert(rt, 1, 10)?; // None
    let value = pinned.get(&1); // Some(&10)
    Ok((old.copied(), value.copied()))
}

fn guard(rt: &impl Wait, map: &Numbers) -> Found {
    let guard = map.guard();
    let old = map.insert(rt, 1, 10, &guard)?; // None
    let value = map.get(&1, &guard)?; // Some(&10)
    Ok((old.copied(), value.copied()))
}

fn get(rt: &impl Wait, map: &Numbers) -> Found {
    map.pin().insert(rt, 1, 10)?;
    let value = map.pin().get(&1); // Some(&10)
    let absent = map.pin().get(&2); // None
    Ok((value.copied(), absent.copied()))
}

fn get_key_value(rt: &impl Wait, map: &Numbers) -> Result<bool, Refused> {
    map.pin().insert(rt, 1, 10)?;
    let entry = map.pin().get_key_value(&1); // Some((&1, &10))
    Ok(entry == Some((&1, &10)))
}

fn contains_key(rt: &impl Wait, map: &Numbers) -> Result<(bool, bool), Refused> {
    map.pin().insert(rt, 1, 10)?;
    let present = map.pin().contains_key(&1); // true
    let absent = map.pin().contains_key(&2); // false
    Ok((present, !absent))
}

fn insert(rt: &impl Wait, map: &Numbers) -> Found {
    let first = map.pin().insert(rt, 1, 10)?; // None
    let second = map.pin().insert(rt, 1, 11)?; // Some(&10)
    Ok((first.copied(), second.copied()))
}

fn try_insert(rt: &impl Wait, map: &Numbers) -> Result<u64, Refused> {
    map.pin().insert(rt, 1, 10)?;
    let value = match map.pin().try_insert(rt, 1, 11)? {
        Ok(inserted) => inserted,
        Err(error) => error.current, // &10, which stays in the map
    };
    Ok(*value)
}

fn get_or_insert_with(rt: &impl Wait, map: &Numbers) -> Found {
    let first = map.pin().get_or_insert_with(rt, 1, || 10)?; // &10
    let second = map.pin().get_or_insert_with(rt, 1, || 11)?; // &10
    Ok((Some(*first), Some(*second)))
}

fn update(rt: &impl Wait, map: &Numbers) -> Found {
    map.pin().insert(rt, 1, 10)?;
    let value = map.pin().update(rt, 1, |old| old.saturating_add(1))?; // Some(&11)
    let absent = map.pin().update(rt, 2, |old| old.saturating_add(1))?; // None
    Ok((value.copied(), absent.copied()))
}

fn update_or_insert(rt: &impl Wait, map: &Numbers) -> Found {
    let pinned = map.pin();
    let first = pinned.update_or_insert(rt, 1, |count| count.saturating_add(1), 1)?; // &1
    let second = pinned.update_or_insert(rt, 1, |count| count.saturating_add(1), 1)?; // &2
    Ok((Some(*first), Some(*second)))
}

fn compute(rt: &impl Wait, map: &Numbers) -> Found {
    map.pin().insert(rt, 1, 10)?;
    let computed = map.pin().compute(rt, 1, |entry| match entry {
        Some((_, left)) if *left > 1 => Operation::Insert(left.saturating_sub(1)),
        Some(_) => Operation::Remove,
        None => Operation::Abort(()),
    })?; // Compute::Updated { old: (&1, &10), new: (&1, &9) }
    Ok(replaced(&computed))
}

fn remove(rt: &impl Wait, map: &Numbers) -> Found {
    map.pin().insert(rt, 1, 10)?;
    let first = map.pin().remove(rt, &1)?; // Some(&10)
    let second = map.pin().remove(rt, &1)?; // None
    Ok((first.copied(), second.copied()))
}

fn remove_if(rt: &impl Wait, map: &Numbers) -> Result<bool, Refused> {
    map.pin().insert(rt, 1, 10)?;
    let kept = map.pin().remove_if(rt, &1, |_, value| *value > 10)?; // Err((&1, &10))
    let removed = map.pin().remove_if(rt, &1, |_, value| *value == 10)?; // Ok(Some((&1, &10)))
    Ok(kept == Err((&1, &10)) && removed == Ok(Some((&1, &10))))
}

fn retain(rt: &impl Wait, map: &Numbers) -> Result<usize, Refused> {
    map.pin().insert(rt, 1, 10)?;
    map.pin().insert(rt, 2, 20)?;
    map.pin().retain(rt, |_, value| *value > 10)?;
    let len = map.len(); // 1
    Ok(len)
}

fn clear(rt: &impl Wait, map: &Numbers) -> Result<bool, Refused> {
    map.pin().insert(rt, 1, 10)?;
    map.pin().clear(rt)?;
    let empty = map.is_empty(); // true
    Ok(empty)
}

fn iter(rt: &impl Wait, map: &Numbers) -> Result<u64, Refused> {
    map.pin().insert(rt, 1, 10)?;
    map.pin().insert(rt, 2, 20)?;
    let mut sum = 0u64;
    for (_, value) in map.pin().iter(rt)? {
        sum = sum.saturating_add(*value);
    }
    // sum is 30
    Ok(sum)
}

fn len(rt: &impl Wait, map: &Numbers) -> Result<usize, Refused> {
    map.pin().insert(rt, 1, 10)?;
    map.pin().insert(rt, 1, 11)?;
    let len = map.len(); // 1
    Ok(len)
}

fn reserve(rt: &impl Wait, map: &Numbers) -> Result<bool, Refused> {
    map.pin().reserve(rt, 1000)?;
    let slots = map.slots(); // 2048
    Ok(slots == 2048)
}

fn set_insert(rt: &impl Wait, set: &Keys) -> Result<(bool, bool), Refused> {
    let first = set.pin().insert(rt, 1)?; // true
    let second = set.pin().insert(rt, 1)?; // false
    Ok((first, !second))
}

fn set_contains(rt: &impl Wait, set: &Keys) -> Result<(bool, bool), Refused> {
    set.pin().insert(rt, 1)?;
    let present = set.pin().contains(&1); // true
    let absent = set.pin().contains(&2); // false
    Ok((present, !absent))
}

fn set_map(rt: &impl Wait, set: &Keys) -> Result<bool, Refused> {
    let mut session = Session::new(set.map());
    let removed = session.remove(rt, &1)?; // Some(&()) if the key was in the set
    Ok(removed.is_some())
}

fn seq_insert(map: &mut seq::HashMap<u64, u64>) -> Found {
    let first = map.insert(1, 10)?.copied(); // None
    let second = map.insert(1, 11)?.copied(); // Some(10)
    Ok((first, second))
}

fn seq_get(map: &mut seq::HashMap<u64, u64>) -> Found {
    map.insert(1, 10)?;
    let value = map.get(&1); // Some(&10)
    let absent = map.get(&2); // None
    Ok((value.copied(), absent.copied()))
}

/// Returns the old value and the new one of an entry that a compute has replaced.
fn replaced(computed: &Compute<'_, u64, u64, ()>) -> (Option<u64>, Option<u64>) {
    match computed {
        Compute::Updated { old, new } => (Some(*old.1), Some(*new.1)),
        _ => (None, None),
    }
}

/// Removes all entries, so that an example begins with an empty map.
fn emptied<'m>(rt: &impl Wait, map: &'m Numbers) -> Result<&'m Numbers, Refused> {
    map.pin().clear(rt)?;
    Ok(map)
}

/// Checks what the lookups and removals of the examples return.
fn looks_up(rt: &(impl Abort + Wait), map: &Numbers) -> Result<(), Refused> {
    is(rt, pin(rt, emptied(rt, map)?), Ok((None, Some(10))));
    is(rt, guard(rt, emptied(rt, map)?), Ok((None, Some(10))));
    is(rt, get(rt, map), Ok((Some(10), None)));
    is(rt, get_key_value(rt, map), Ok(true));
    is(rt, contains_key(rt, map), Ok((true, true)));
    is(rt, remove(rt, map), Ok((Some(10), None)));
    is(rt, remove_if(rt, map), Ok(true));
    is(rt, retain(rt, emptied(rt, map)?), Ok(1));
    is(rt, clear(rt, map), Ok(true));
    is(rt, iter(rt, emptied(rt, map)?), Ok(30));
    is(rt, len(rt, emptied(rt, map)?), Ok(1));
    is(rt, reserve(rt, map), Ok(true));
    Ok(())
}

/// Checks what the insertions and computes of the examples return.
fn stores(rt: &(impl Abort + Wait), map: &Numbers) -> Result<(), Refused> {
    is(rt, insert(rt, emptied(rt, map)?), Ok((None, Some(10))));
    is(rt, try_insert(rt, map), Ok(10));
    is(
        rt,
        get_or_insert_with(rt, emptied(rt, map)?),
        Ok((Some(10), Some(10))),
    );
    is(rt, update(rt, map), Ok((Some(11), None)));
    is(
        rt,
        update_or_insert(rt, emptied(rt, map)?),
        Ok((Some(1), Some(2))),
    );
    is(rt, compute(rt, map), Ok((Some(10), Some(9))));
    Ok(())
}

fn into_read_only(rt: &impl Wait, map: Numbers) -> Found {
    map.pin().insert(rt, 1, 10)?;
    let fixed = map.into_read_only();
    let value = fixed.get(&1); // Some(&10)
    let absent = fixed.get(&2); // None
    Ok((value.copied(), absent.copied()))
}

fn into_map(rt: &impl Wait, map: Numbers) -> Result<Option<u64>, Refused> {
    map.pin().insert(rt, 1, 10)?;
    let fixed = map.into_read_only();
    let map = fixed.into_map();
    let old = map.pin().insert(rt, 1, 11)?; // Some(&10)
    Ok(old.copied())
}

fn read_only_iter(rt: &impl Wait, map: Numbers) -> Result<u64, Refused> {
    map.pin().insert(rt, 1, 10)?;
    map.pin().insert(rt, 2, 20)?;
    let fixed = map.into_read_only();
    let mut sum = 0u64;
    for (_, value) in fixed.iter(rt)? {
        sum = sum.saturating_add(*value);
    }
    // sum is 30
    Ok(sum)
}

#[test]
fn read_only_maps(rt: HostRuntime) -> Result<(), Fail> {
    is(
        &rt,
        into_read_only(&rt, HashMap::new(&rt, rt.alloc())?),
        Ok((Some(10), None)),
    );
    is(
        &rt,
        into_map(&rt, HashMap::new(&rt, rt.alloc())?),
        Ok(Some(10)),
    );
    is(
        &rt,
        read_only_iter(&rt, HashMap::new(&rt, rt.alloc())?),
        Ok(30),
    );
    Ok(())
}

#[test]
fn shared_maps(rt: HostRuntime) -> Result<(), Fail> {
    let mut map: Numbers = HashMap::new(&rt, rt.alloc())?;
    is(&rt, reclaim(&rt, &mut map), Ok((2, 1)));
    map.pin().clear(&rt)?;
    is(&rt, reclaim_as(&rt, &mut map), Ok(Some(10)));
    let copied = session_try_clone(&rt, rt.alloc(), &map);
    is(&rt, copied, Ok(Some(10)));
    map.pin().clear(&rt)?;
    looks_up(&rt, &map)?;
    stores(&rt, &map)?;
    Ok(())
}

#[test]
fn created_maps(rt: HostRuntime) -> Result<(), Fail> {
    is(&rt, new(&rt, rt.alloc()), Ok(1));
    is(&rt, builder(&rt, rt.alloc()), Ok(0));
    is(&rt, session_new(&rt, rt.alloc()), Ok(Some(10)));
    is(&rt, reclaiming(&rt, rt.alloc()), Ok(false));
    let shared: ReclaimingMap<u64, u64> = Reclaiming::new(
        rt.alloc(),
        HashMap::new(&rt, rt.alloc())?,
    )?;
    is(&rt, enter(&rt, &mut shared.handle()), Ok(1));
    Ok(())
}

#[test]
fn sets_and_maps_for_one_thread(rt: HostRuntime) -> Result<(), Fail> {
    let set: Keys = HashSet::new(&rt, rt.alloc())?;
    is(&rt, set_insert(&rt, &set), Ok((true, true)));
    is(&rt, set_contains(&rt, &set), Ok((true, true)));
    is(&rt, set_map(&rt, &set), Ok(true));
    let mut map: seq::HashMap<u64, u64> = seq::HashMap::new(rt.alloc())?;
    is(&rt, seq_insert(&mut map), Ok((None, Some(10))));
    is(&rt, seq_get(&mut map), Ok((Some(10), None)));
    Ok(())
}
