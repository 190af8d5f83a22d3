// Sets that threads share as JSON, by one caller.
use crate::expect::is;
use crate::json::numbers::number;
use crate::json::sets::{Keys, keys_of};
use papaya_json::shared::{shared_set_from_value, shared_set_to_value};
use papaya_set::set::HashSet;
use papaya_words::refused::Refused;
use serde_json::Value;
use std::alloc::Global;
use std::hash::BuildHasherDefault;
use std::process::Abort;
use std::sync::Wait;
use std::test::Fail;

type Shared = HashSet<u64>;

/// Returns the set of numbers of this value.
fn shared_of<R: Wait>(rt: &R, alloc: Global, v: &Value) -> Result<Shared, Refused> {
    shared_set_from_value(rt, alloc, v, BuildHasherDefault::new(), Value::as_u64)
}

/// Returns the keys of a set's JSON.
fn written<R: Wait>(rt: &R, alloc: Global, set: &Shared) -> Result<Keys, Refused> {
    let value = shared_set_to_value(rt, alloc, set, number)?;
    keys_of(alloc, &value)
}

/// Returns whether the set's JSON has just the keys of this value.
fn is_read_back<R: Wait>(rt: &R, alloc: Global, set: &Shared, v: &Value) -> Result<bool, Refused> {
    let keys = written(rt, alloc, set)?;
    Ok(keys.eq(&keys_of(alloc, v)?))
}

/// Returns how many keys the set of this text has, and whether its JSON has just the same keys.
fn read_back<R: Wait>(rt: &R, alloc: Global, text: &str) -> Result<(usize, bool), Fail> {
    let v = Value::from_str(alloc, text)?;
    let set = shared_of(rt, alloc, &v)?;
    Ok((set.len(), is_read_back(rt, alloc, &set, &v)?))
}

#[test]
fn a_shared_set_is_read_back(rt: HostRuntime) -> Result<(), Fail> {
    for (text, keys) in [
        ("[]", 0),
        ("[7,7]", 1),
        ("[1,2,1]", 2),
        ("[8,7,6,5,4,3,2,1,0,9,10,11,12,13,14,15,16,17,18,19]", 20),
    ] {
        is(&rt, read_back(&rt, rt.alloc(), text)?, (keys, true));
    }
    Ok(())
}

/// Returns why this text is no set of numbers.
fn refusal<R: Wait>(rt: &R, alloc: Global, text: &str) -> Result<Option<Refused>, Fail> {
    Ok(shared_of(rt, alloc, &Value::from_str(alloc, text)?).err())
}

#[test]
fn other_shapes_are_no_shared_sets(rt: HostRuntime) -> Result<(), Fail> {
    for (text, wanted) in [
        ("null", Refused::Shape),
        ("{\"1\":1}", Refused::Shape),
        ("[1,\"2\"]", Refused::Item),
    ] {
        is(&rt, refusal(&rt, rt.alloc(), text)?, Some(wanted));
    }
    Ok(())
}

/// Checks that the set's JSON has this text, and that there is none if a key has no item.
fn prints<R: Wait + Abort>(rt: &R, alloc: Global, set: &Shared, wanted: &str) -> Result<(), Fail> {
    let refused = shared_set_to_value(rt, alloc, set, |_| None).err();
    is(rt, refused, Some(Refused::Item));
    let value = shared_set_to_value(rt, alloc, set, number)?;
    is(rt, value.to_string(alloc)?.as_str(), wanted);
    Ok(())
}

#[test]
fn a_key_of_a_shared_set_without_an_item_is_refused(rt: HostRuntime) -> Result<(), Fail> {
    let value = Value::from_str(rt.alloc(), "[7,7]")?;
    let set = shared_of(&rt, rt.alloc(), &value)?;
    prints(&rt, rt.alloc(), &set, "[7]")
}
