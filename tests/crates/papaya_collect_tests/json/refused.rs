// A refused allocation makes nothing, and the same call then succeeds. If `tests/refused.py` refuses a
// request for memory, a call here meets it.
use crate::expect::is;
use crate::json::numbers::{Numbers, digits, number};
use crate::json::reads::numbers_of;
use crate::json::sets::{Keys, keys_of};
use papaya_json::to_value::{map_to_value, set_to_value};
use papaya_seq::seq::HashMap;
use papaya_set::seq::HashSet;
use papaya_words::refused::Refused;
use std::alloc::Global;
use std::test::Fail;

/// Returns the call's result, also if memory was at first refused to it or to the function that
/// makes a text for it.
fn again<T: Drop, F: Fn() -> Result<T, Refused>>(call: F) -> Result<T, Refused>
    requires { F.IsAlwaysCallable call }
{
    match call() {
        Err(Refused::Memory | Refused::Item) => call(),
        answer => answer,
    }
}

/// The number of keys of the maps and sets, so that their tables grow.
const KEYS: u64 = 40;

/// Returns a map of these keys.
fn filled_map(alloc: Global) -> Result<Numbers, Refused> {
    let mut map = again(|| HashMap::new(alloc))?;
    for key in 0..KEYS {
        match map.put(key, key) {
            Err(Refused::Memory) => map.put(key, key)?,
            answer => answer?,
        };
    }
    Ok(map)
}

/// Returns a set of these keys.
fn filled_set(alloc: Global) -> Result<Keys, Refused> {
    let mut set = again(|| HashSet::new(alloc))?;
    for key in 0..KEYS {
        match set.insert(key) {
            Err(Refused::Memory) => set.insert(key)?,
            answer => answer?,
        };
    }
    Ok(set)
}

/// Returns the map that is read from a map's JSON.
fn map_again(alloc: Global, map: &Numbers) -> Result<Numbers, Refused> {
    let value = again(|| map_to_value(alloc, map, |key| digits(alloc, key), number))?;
    again(|| numbers_of(alloc, &value))
}

#[test]
fn refused_growth_makes_no_map(rt: HostRuntime) -> Result<(), Fail> {
    let map = filled_map(rt.alloc())?;
    let back = map_again(rt.alloc(), &map)?;
    is(&rt, (map.len(), back.eq(&map)), (40, true));
    Ok(())
}

/// Returns the set that is read from a set's JSON.
fn set_again(alloc: Global, set: &Keys) -> Result<Keys, Refused> {
    let value = again(|| set_to_value(alloc, set, number))?;
    again(|| keys_of(alloc, &value))
}

#[test]
fn refused_growth_makes_no_set(rt: HostRuntime) -> Result<(), Fail> {
    let set = filled_set(rt.alloc())?;
    let back = set_again(rt.alloc(), &set)?;
    is(&rt, (set.len(), back.eq(&set)), (40, true));
    Ok(())
}
