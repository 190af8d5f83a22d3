// Removals: their results, and the map afterwards.
use crate::expect::is;
use crate::numbers::{Numbers, Parts, finds, has, inserts, made, removes};
use papaya_testing::times::TOGETHER;
use papaya_words::refused::Refused;
use std::process::Abort;
use std::test::Fail;

/// Checks the pair that a removal returns.
fn removes_entry(
    rt: &impl Abort,
    map: &mut Numbers,
    key: u64,
    wanted: Result<Option<(&u64, &u64)>, Refused>,
) {
    is(rt, map.remove_entry(&key), wanted);
}

/// Removes two of four keys, each once.
fn removes_two(rt: &impl Abort, map: &mut Numbers) {
    for key in 0..4u64 {
        inserts(rt, map, key, key + 10, Ok(None));
    }
    removes(rt, map, 2, Ok(Some(&12)));
    removes(rt, map, 2, Ok(None));
    removes_entry(rt, map, 1, Ok(Some((&1, &11))));
    removes_entry(rt, map, 1, Ok(None));
    finds(rt, map, 0, Some(&10));
    finds(rt, map, 1, None);
    finds(rt, map, 2, None);
    finds(rt, map, 3, Some(&13));
    has(rt, map, 2);
    is(rt, map.resizing(), false);
}

#[test]
fn remove_answers_what_went(rt: HostRuntime) -> Result<(), Fail> {
    let mut map = made(rt.alloc(), Parts::Hasher(TOGETHER))?;
    removes_two(&rt, &mut map);
    Ok(())
}
