// Maps of numbers, and their calls with the results that are wanted. A function that owns a map
// makes it and passes it on, since its proof covers everything that may become of the map.
use crate::expect::is;
use papaya_seq::seq::HashMap;
use papaya_testing::times::Times;
use papaya_words::refused::Refused;
use papaya_words::resize_mode::ResizeMode;
use papaya_words_keys::results::OccupiedError;
use std::alloc::Global;
use std::hash::{BuildHasher, BuildHasherDefault, FoldHasher};
use std::process::Abort;
use std::test::Fail;

/// A hasher for the tests in which any will do.
pub type Fold = BuildHasherDefault<FoldHasher>;

/// A map with that hasher.
pub type Usual = HashMap<u64, u64, Fold>;

/// A map with a hasher that decides which keys share a probe sequence.
pub type Numbers = HashMap<u64, u64, Times>;

/// How a map with the usual hasher is made.
#[derive(Clone, Copy)]
pub enum Making {
    New,
    Default,
    /// For this many pairs.
    Capacity(usize),
    /// With this limit on its pairs.
    Limit(u64),
}

pub fn usual(alloc: Global, making: Making) -> Result<Usual, Refused> {
    match making {
        Making::New => HashMap::new(alloc),
        Making::Default => HashMap::default(alloc),
        Making::Capacity(capacity) => HashMap::with_capacity(alloc, capacity),
        Making::Limit(pairs) => {
            let hasher = BuildHasherDefault::<FoldHasher>::new();
            HashMap::with_parts(alloc, ResizeMode::default(), 0, 1, hasher, Some(pairs))
        }
    }
}

/// How a map is made whose hasher decides which keys share a probe sequence.
#[derive(Clone, Copy)]
pub enum Parts {
    /// With only this hasher.
    Hasher(Times),
    /// With this mode, for this many pairs, and with this hasher.
    All(ResizeMode, usize, Times),
}

pub fn made(alloc: Global, parts: Parts) -> Result<Numbers, Refused> {
    match parts {
        Parts::Hasher(hasher) => HashMap::with_hasher(alloc, hasher),
        Parts::All(mode, capacity, hasher) => {
            HashMap::with_parts(alloc, mode, capacity, 1, hasher, None)
        }
    }
}

/// A test's work with a map.
pub trait Work<S: BuildHasher> {
    fn is_done<R: Abort>(
        self,
        rt: &R,
        alloc: Global,
        map: &mut HashMap<u64, u64, S>,
    ) -> Result<(), Fail>;
}

/// Makes a map in this way, and does the work with it.
pub fn on_usual<R: Abort, W: Work<Fold> + Copy>(
    rt: &R,
    alloc: Global,
    making: Making,
    work: W,
) -> Result<(), Fail> {
    let mut map = usual(alloc, making)?;
    work.is_done(rt, alloc, &mut map)
}

/// Does the same, and makes the map again if memory ran out at first.
pub fn on_made<R: Abort, W: Work<Times> + Copy>(
    rt: &R,
    alloc: Global,
    parts: Parts,
    work: W,
) -> Result<(), Fail> {
    let mut map = match made(alloc, parts) {
        Err(Refused::Memory) => made(alloc, parts)?,
        first => first?,
    };
    work.is_done(rt, alloc, &mut map)
}

/// Checks the result of an insertion.
pub fn inserts<S: BuildHasher>(
    rt: &impl Abort,
    map: &mut HashMap<u64, u64, S>,
    key: u64,
    value: u64,
    wanted: Result<Option<&u64>, Refused>,
) {
    is(rt, map.insert(key, value), wanted);
}

/// Checks the result of an insertion that never replaces.
pub fn tries<S: BuildHasher>(
    rt: &impl Abort,
    map: &mut HashMap<u64, u64, S>,
    key: u64,
    value: u64,
    wanted: Result<Result<&u64, OccupiedError<'_, u64>>, Refused>,
) {
    is(rt, map.try_insert(key, value), wanted);
}

/// Checks the result of a lookup.
pub fn finds<S: BuildHasher>(
    rt: &impl Abort,
    map: &HashMap<u64, u64, S>,
    key: u64,
    wanted: Option<&u64>,
) {
    is(rt, map.get(&key), wanted);
}

/// Checks the result of a removal.
pub fn removes<S: BuildHasher>(
    rt: &impl Abort,
    map: &mut HashMap<u64, u64, S>,
    key: u64,
    wanted: Result<Option<&u64>, Refused>,
) {
    is(rt, map.remove(&key), wanted);
}

/// Checks the number of pairs of the map.
pub fn has<S: BuildHasher>(rt: &impl Abort, map: &HashMap<u64, u64, S>, pairs: usize) {
    is(rt, map.len(), pairs);
    assert!(rt; map.is_empty() == (pairs == 0));
}
