// Maps that are read from JSON, and the refusals.
use crate::expect::is;
use crate::json::numbers::{Numbers, digits, number};
use papaya_json::from_value::map_from_value;
use papaya_json::to_value::map_to_value;
use papaya_seq::seq::HashMap;
use papaya_words::refused::Refused;
use papaya_words_keys::guard::TextKey;
use serde_json::Value;
use std::alloc::Global;
use std::hash::BuildHasherDefault;
use std::process::Abort;
use std::test::Fail;

type Texts = HashMap<String, u64>;

/// Returns the map of numbers of this value.
pub fn numbers_of(alloc: Global, v: &Value) -> Result<Numbers, Refused> {
    map_from_value(
        alloc,
        v,
        BuildHasherDefault::new(),
        |text| text.parse().ok(),
        Value::as_u64,
    )
}

/// Returns the map of this text's members, with their texts in lower case.
fn lowered(alloc: Global, text: &str) -> Result<Texts, Fail> {
    let v = Value::from_str(alloc, text)?;
    let lower = |text: &str| text.to_ascii_lowercase(alloc).ok();
    Ok(map_from_value(alloc, &v, BuildHasherDefault::new(), lower, Value::as_u64)?)
}

/// Checks that a text whose JSON is no map of numbers is refused for this reason.
fn refuses(rt: &impl Abort, alloc: Global, text: &str, wanted: Refused) -> Result<(), Fail> {
    let v = Value::from_str(alloc, text)?;
    is(rt, numbers_of(alloc, &v).err(), Some(wanted));
    Ok(())
}

#[test]
fn later_equal_keys_replace(rt: HostRuntime) -> Result<(), Fail> {
    let map = lowered(rt.alloc(), "{\"A\":2,\"a\":1}")?;
    is(&rt, map.len(), 1);
    is(&rt, map.get(&TextKey("a")), Some(&1));
    Ok(())
}

#[test]
fn other_shapes_and_missing_members_are_refused(rt: HostRuntime) -> Result<(), Fail> {
    for (text, wanted) in [
        ("null", Refused::Shape),
        ("[1,2]", Refused::Shape),
        ("\"0\"", Refused::Shape),
        ("{\"1\":1,\"2\":2,\"3\":null}", Refused::Item),
        ("{\"1\":1,\"b\":2}", Refused::Item),
    ] {
        refuses(&rt, rt.alloc(), text, wanted)?;
    }
    Ok(())
}

/// Returns a map of forty keys.
fn filled(alloc: Global) -> Result<Numbers, Refused> {
    let mut map: Numbers = HashMap::new(alloc)?;
    for key in 0..40u64 {
        map.put(key, key.wrapping_mul(10))?;
    }
    Ok(map)
}

/// Returns the map that is read from a map's JSON.
fn read_back(alloc: Global, map: &Numbers) -> Result<Numbers, Refused> {
    let value = map_to_value(alloc, map, |key| digits(alloc, key), number)?;
    numbers_of(alloc, &value)
}

#[test]
fn a_map_is_read_back(rt: HostRuntime) -> Result<(), Fail> {
    let map = filled(rt.alloc())?;
    let back = read_back(rt.alloc(), &map)?;
    is(&rt, (back.len(), back.eq(&map)), (40, true));
    Ok(())
}
