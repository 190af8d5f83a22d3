// The map of these tests, and checks of its contents.
use crate::expect::is;
use papaya_map::map::HashMap;
use papaya_reclaiming::reclaiming::{Handle, Reclaiming, ReclaimingMap};
use papaya_words::refused::Refused;
use std::alloc::Global;
use std::hash::{BuildHasherDefault, FoldHasher};
use std::process::Abort;
use std::sync::Wait;

/// The map of these tests; `Way` is a thread's handle to it.
pub type Numbers = HashMap<u64, u64, BuildHasherDefault<FoldHasher>>;

pub type Way<'a> = Handle<'a, Numbers>;

pub fn numbers(rt: &impl Wait, alloc: Global) -> Result<ReclaimingMap<u64, u64>, Refused> {
    Reclaiming::new(alloc, Numbers::new(rt, alloc)?)
}

/// Stores a value at each of the keys 0 to 9, this many times.
pub fn write(rt: &impl Wait, way: &mut Way<'_>, times: u64) -> Result<(), Refused> {
    let entered = way.enter(rt);
    let map = entered.pin();
    for time in 0..times {
        for key in 0..10u64 {
            map.insert(rt, key, time)?;
        }
    }
    Ok(())
}

/// Checks that the map has this many entries, stores this many, and has this value at key 3.
pub fn has(
    rt: &(impl Abort + Wait),
    way: &mut Way<'_>,
    pairs: usize,
    stored: usize,
    third: Option<u64>,
) {
    let entered = way.enter(rt);
    is(rt, (entered.len(), entered.stored()), (pairs, stored));
    is(rt, entered.pin().get(&3).copied(), third);
}
