// Maps that threads share as JSON, by one caller.
use crate::expect::is;
use crate::json::numbers::{digits, number};
use papaya_json::shared::{shared_map_from_value, shared_map_to_value};
use papaya_map::map::HashMap;
use papaya_words::refused::Refused;
use serde_json::Value;
use std::alloc::Global;
use std::hash::BuildHasherDefault;
use std::sync::Wait;
use std::test::Fail;

type Shared = HashMap<u64, u64>;

/// Returns the map of numbers of this value.
fn shared_of<R: Wait>(rt: &R, alloc: Global, v: &Value) -> Result<Shared, Refused> {
    let hasher = BuildHasherDefault::new();
    shared_map_from_value(
        rt,
        alloc,
        v,
        hasher,
        |text| text.parse().ok(),
        Value::as_u64,
    )
}

/// Returns the text of the JSON of the map of this text.
fn printed<R: Wait>(rt: &R, alloc: Global, text: &str) -> Result<String, Fail> {
    let map = shared_of(rt, alloc, &Value::from_str(alloc, text)?)?;
    let value = shared_map_to_value(rt, alloc, &map, |key| digits(alloc, key), number)?;
    Ok(value.to_string(alloc)?)
}

#[test]
fn a_shared_map_is_read_back(rt: HostRuntime) -> Result<(), Fail> {
    for (text, wanted) in [
        ("{}", "{}"),
        ("{\"1\":3, \"0\":4}", "{\"0\":4,\"1\":3}"),
        ("{\"1\":3, \"01\":4}", "{\"1\":3}"),
    ] {
        is(&rt, printed(&rt, rt.alloc(), text)?.as_str(), wanted);
    }
    Ok(())
}

/// Returns why this text is no map of numbers.
fn refusal<R: Wait>(rt: &R, alloc: Global, text: &str) -> Result<Option<Refused>, Fail> {
    Ok(shared_of(rt, alloc, &Value::from_str(alloc, text)?).err())
}

#[test]
fn other_shapes_are_no_shared_maps(rt: HostRuntime) -> Result<(), Fail> {
    for (text, wanted) in [
        ("null", Refused::Shape),
        ("[1,2]", Refused::Shape),
        ("{\"1\":1,\"2\":2,\"3\":null}", Refused::Item),
        ("{\"1\":1,\"b\":2}", Refused::Item),
    ] {
        is(&rt, refusal(&rt, rt.alloc(), text)?, Some(wanted));
    }
    Ok(())
}

/// Returns a value as a JSON number, unless it is 4.
fn no_four(value: &u64) -> Option<Value> {
    if *value == 4 { None } else { number(value) }
}

/// Returns why the map has no JSON with one text for all keys.
fn clash<R: Wait, W: Fn(&u64) -> Option<Value>>(
    rt: &R,
    alloc: Global,
    map: &Shared,
    value: W,
) -> Option<Refused>
    requires { W.IsAlwaysCallable value }
{
    shared_map_to_value(rt, alloc, map, |_| "k".to_string(alloc).ok(), value).err()
}

#[test]
fn equal_texts_of_a_shared_map_are_refused(rt: HostRuntime) -> Result<(), Fail> {
    let alloc = rt.alloc();
    let map = shared_of(&rt, alloc, &Value::from_str(alloc, "{\"0\":4,\"1\":3}")?)?;
    is(
        &rt,
        clash(&rt, alloc, &map, number),
        Some(Refused::KeyClash),
    );
    is(&rt, clash(&rt, alloc, &map, no_four), Some(Refused::Item));
    Ok(())
}
