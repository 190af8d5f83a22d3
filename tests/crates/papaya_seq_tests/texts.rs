// A map of texts, looked up by borrowed texts.
use crate::expect::is;
use papaya_seq::seq::HashMap;
use papaya_words::refused::Refused;
use papaya_words_keys::guard::TextKey;
use std::alloc::Global;
use std::process::Abort;
use std::test::Fail;

type Texts = HashMap<String, u64>;

/// Checks the result of an insertion of this text.
fn inserts(
    rt: &impl Abort,
    alloc: Global,
    map: &mut Texts,
    key: &str,
    value: u64,
    wanted: Result<Option<&u64>, Refused>,
) -> Result<(), Fail> {
    let key = key.to_string(alloc)?;
    is(rt, map.insert(key, value), wanted);
    Ok(())
}

/// Checks the results of a lookup by this text and of `contains_key`.
fn finds(rt: &impl Abort, map: &Texts, key: &str, wanted: Option<&u64>) {
    is(rt, map.get(&TextKey(key)), wanted);
    is(rt, map.contains_key(&TextKey(key)), wanted.is_some());
}

/// Stores two texts and looks them up.
fn finds_two(rt: &impl Abort, alloc: Global, map: &mut Texts) -> Result<(), Fail> {
    inserts(rt, alloc, map, "red", 1, Ok(None))?;
    inserts(rt, alloc, map, "blue", 2, Ok(None))?;
    finds(rt, map, "red", Some(&1));
    finds(rt, map, "green", None);
    let blue = "blue".to_string(alloc)?;
    is(rt, map.contains_key(&blue), true);
    Ok(())
}

/// Replaces one of the two texts and removes it.
fn removes_red(rt: &impl Abort, alloc: Global, map: &mut Texts) -> Result<(), Fail> {
    inserts(rt, alloc, map, "red", 3, Ok(Some(&1)))?;
    is(rt, map.remove(&TextKey("red")), Ok(Some(&3)));
    finds(rt, map, "red", None);
    is(rt, map.len(), 1);
    Ok(())
}

fn goes(rt: &impl Abort, alloc: Global, map: &mut Texts) -> Result<(), Fail> {
    finds_two(rt, alloc, map)?;
    removes_red(rt, alloc, map)
}

#[test]
fn texts_are_looked_up_and_removed_by_text(rt: HostRuntime) -> Result<(), Fail> {
    let mut map: Texts = HashMap::new(rt.alloc())?;
    goes(&rt, rt.alloc(), &mut map)
}
