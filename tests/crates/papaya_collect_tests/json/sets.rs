// Sets as JSON, and sets that are read from JSON.
use crate::expect::is;
use crate::json::numbers::number;
use papaya_json::from_value::set_from_value;
use papaya_json::to_value::set_to_value;
use papaya_set::seq::HashSet;
use papaya_words::refused::Refused;
use serde_json::Value;
use std::alloc::Global;
use std::hash::BuildHasherDefault;
use std::process::Abort;
use std::test::Fail;

/// The sets of the tests.
pub type Keys = HashSet<u64>;

/// Returns the set of numbers of this value.
pub fn keys_of(alloc: Global, v: &Value) -> Result<Keys, Refused> {
    set_from_value(alloc, v, BuildHasherDefault::new(), Value::as_u64)
}

/// Checks how many keys the set of this text has, or why there is none.
fn reads(
    rt: &impl Abort,
    alloc: Global,
    text: &str,
    wanted: Result<usize, Refused>,
) -> Result<(), Fail> {
    let v = Value::from_str(alloc, text)?;
    is(rt, keys_of(alloc, &v).map(|set| set.len()), wanted);
    Ok(())
}

#[test]
fn arrays_are_sets_of_their_items(rt: HostRuntime) -> Result<(), Fail> {
    for (text, wanted) in [
        ("[]", Ok(0)),
        ("[1,2,1]", Ok(2)),
        ("{}", Err(Refused::Shape)),
        ("null", Err(Refused::Shape)),
        ("[1,\"2\",null]", Err(Refused::Item)),
    ] {
        reads(&rt, rt.alloc(), text, wanted)?;
    }
    Ok(())
}

/// Returns a set of forty keys.
fn filled(alloc: Global) -> Result<Keys, Refused> {
    let mut set: Keys = HashSet::new(alloc)?;
    for key in 0..40u64 {
        set.insert(key)?;
    }
    Ok(set)
}

/// Returns the set that is read from a set's JSON.
fn read_back(alloc: Global, set: &Keys) -> Result<Keys, Refused> {
    let value = set_to_value(alloc, set, number)?;
    keys_of(alloc, &value)
}

#[test]
fn a_set_is_read_back(rt: HostRuntime) -> Result<(), Fail> {
    let set = filled(rt.alloc())?;
    let back = read_back(rt.alloc(), &set)?;
    is(&rt, (back.len(), back.eq(&set)), (40, true));
    Ok(())
}

/// Checks that this is the text of the set's JSON.
fn prints(rt: &impl Abort, alloc: Global, set: &Keys, wanted: &str) -> Result<(), Fail> {
    let value = set_to_value(alloc, set, number)?;
    is(rt, value.to_string(alloc)?.as_str(), wanted);
    Ok(())
}

#[test]
fn a_key_without_an_item_is_refused(rt: HostRuntime) -> Result<(), Fail> {
    let mut set: Keys = HashSet::new(rt.alloc())?;
    prints(&rt, rt.alloc(), &set, "[]")?;
    is(&rt, set.insert(7), Ok(true));
    prints(&rt, rt.alloc(), &set, "[7]")?;
    let refused = set_to_value(rt.alloc(), &set, |_| None).err();
    is(&rt, refused, Some(Refused::Item));
    Ok(())
}
