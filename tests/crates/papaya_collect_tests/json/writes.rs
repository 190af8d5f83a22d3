// Maps as JSON, and the refusals.
use crate::expect::is;
use crate::json::numbers::{Numbers, digits, number};
use papaya_json::to_value::map_to_value;
use papaya_seq::seq::HashMap;
use papaya_words::refused::Refused;
use serde_json::Value;
use std::alloc::Global;
use std::process::Abort;
use std::test::Fail;

/// Returns a value as a JSON number, unless it is 4.
fn no_four(value: &u64) -> Option<Value> {
    if *value == 4 { None } else { number(value) }
}

/// Checks that this is the text of the map's JSON.
fn prints(rt: &impl Abort, alloc: Global, map: &Numbers, wanted: &str) -> Result<(), Fail> {
    let value = map_to_value(alloc, map, |key| digits(alloc, key), number)?;
    is(rt, value.to_string(alloc)?.as_str(), wanted);
    Ok(())
}

/// Checks that the map has no JSON with one text for all keys, for this reason.
fn clashes<W: Fn(&u64) -> Option<Value>>(
    rt: &impl Abort,
    alloc: Global,
    map: &Numbers,
    value: W,
    wanted: Refused,
)
    requires { W.IsAlwaysCallable value }
{
    let found = map_to_value(alloc, map, |_| "k".to_string(alloc).ok(), value);
    is(rt, found.err(), Some(wanted));
}

/// Returns a map of these entries.
fn map_of(alloc: Global, pairs: &[(u64, u64)]) -> Result<Numbers, Refused> {
    let mut map: Numbers = HashMap::new(alloc)?;
    for (key, value) in pairs {
        map.put(*key, *value)?;
    }
    Ok(map)
}

#[test]
fn members_are_in_the_order_of_their_texts(rt: HostRuntime) -> Result<(), Fail> {
    let cases: [(&[(u64, u64)], &str); 2] = [
        (&[], "{}"),
        (&[(9, 2), (10, 1), (8, 3)], "{\"10\":1,\"8\":3,\"9\":2}"),
    ];
    for (pairs, wanted) in cases {
        prints(&rt, rt.alloc(), &map_of(rt.alloc(), pairs)?, wanted)?;
    }
    Ok(())
}

#[test]
fn equal_texts_and_missing_values_are_refused(rt: HostRuntime) -> Result<(), Fail> {
    let map = map_of(rt.alloc(), &[(0, 4), (1, 3)])?;
    prints(&rt, rt.alloc(), &map, "{\"0\":4,\"1\":3}")?;
    clashes(&rt, rt.alloc(), &map, number, Refused::KeyClash);
    clashes(&rt, rt.alloc(), &map, no_four, Refused::Item);
    Ok(())
}
