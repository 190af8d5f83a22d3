// A refused allocation leaves the set as it was. If `tests/refused.py` refuses a request for
// memory, a call here meets it.
use crate::expect::is_at;
use papaya_set::seq::HashSet;
use papaya_testing::times::{TOGETHER, Times};
use papaya_words::refused::Refused;
use std::alloc::Global;
use std::test::Fail;

type Keys = HashSet<u64, Times>;

/// Returns a set, also if memory was refused for it at first.
fn made(alloc: Global) -> Result<Keys, Refused> {
    match HashSet::with_hasher(alloc, TOGETHER) {
        Err(Refused::Memory) => HashSet::with_hasher(alloc, TOGETHER),
        made => made,
    }
}

/// Returns whether the set has the keys below this one, and no other.
fn has_below(set: &Keys, end: u64) -> bool {
    for key in 0..end {
        if !set.contains(&key) {
            return false;
        }
    }
    set.len() as u64 == end
}

/// Inserts a new key, and again after `Refused::Memory`; returns whether the set was as expected.
fn insert_again(set: &mut Keys, key: u64) -> Result<bool, Refused> {
    match set.insert(key) {
        Err(Refused::Memory) => {
            let kept = has_below(set, key);
            Ok(set.insert(key)? && kept)
        }
        first => first,
    }
}

#[test]
fn refused_growth_leaves_the_set(rt: HostRuntime) -> Result<(), Fail> {
    let mut set = made(rt.alloc())?;
    for key in 0..40u64 {
        is_at(&rt, key as usize, insert_again(&mut set, key), Ok(true));
        is_at(
            &rt,
            key as usize,
            has_below(&set, key.wrapping_add(1)),
            true,
        );
    }
    Ok(())
}
