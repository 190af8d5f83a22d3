// Maps with a limit on the entries that they store.
use crate::answers::Answer;
use crate::answers::Answer::{Absent, Is, Number, Pair, Refused as No};
use crate::builders::Asked;
use crate::crowd::Crowd::Eight;
use crate::crowd::Job::FillUp;
use crate::expect::is;
use crate::numbers::{Numbers, Pinned};
use crate::seen::Says;
use crate::shared::Turn::{Calls as Does, Threads};
use crate::shared::{Making, Shared, Turn, runs};
use crate::steps::Step::{
    Compute, Get, GetOrInsert, Insert, IsEmpty, Iter, Len, Remove, TryInsert, Update,
    UpdateOrInsert,
};
use crate::steps::{Calls, Script, Step, answer};
use papaya_testing::gate::Gate;
use papaya_testing::tries::{ReadyCall, TryResult, tries};
use papaya_words::refused::Refused;
use papaya_words::resize_mode::ResizeMode;
use std::alloc::Global;
use std::process::Abort;
use std::sync::Wait;
use std::test::Fail;

/// The result of a call at the limit.
const AT_LIMIT: Answer = No(Refused::Limit);

/// Maps that store three entries at most.
const THREE: [Making; 4] = [
    Making::Built(Asked::Limit(3)),
    Making::Limited(ResizeMode::Blocking, 3),
    Making::Limited(ResizeMode::Incremental(1), 3),
    Making::Limited(ResizeMode::Incremental(64), 3),
];

/// Three entries are stored, one of them in place of another.
const SPENDS: Script = &[
    (Insert(1, 10), Absent),
    (Insert(2, 20), Absent),
    (Insert(1, 11), Number(10)),
    (Insert(3, 30), AT_LIMIT),
    (Len, Number(2)),
];

/// Calls that need no entry succeed then, and a removal makes no room for one.
const IS_SPENT: Script = &[
    (GetOrInsert(1, 5), Number(11)),
    (TryInsert(2, 5), Answer::Kept(20, 5)),
    (GetOrInsert(3, 5), AT_LIMIT),
    (UpdateOrInsert(1, 5), AT_LIMIT),
    (Remove(1), Number(11)),
    (Insert(3, 30), AT_LIMIT),
    (Len, Number(1)),
];

/// One entry is left, and there is room for two more.
const GOES_ON: Script = &[
    (Get(2), Number(20)),
    (Insert(3, 30), Absent),
    (Insert(4, 40), Absent),
    (Insert(5, 50), AT_LIMIT),
    (Len, Number(3)),
];

/// Fills a map to its limit, reclaims it and fills it again.
fn spends<R: Wait + Abort, M: Shared>(rt: &R, at: usize, map: &mut M) {
    map.goes(rt, at, SPENDS);
    map.goes_with_own(rt, at, false, IS_SPENT);
    is(rt, map.made_anew(rt), Ok(()));
    map.goes(rt, at, GOES_ON);
}

/// Fills each of these in this way.
fn each_spends<R: Wait + Abort, M: Shared + Drop>(rt: &R, alloc: Global) -> Result<(), Refused> {
    for (at, making) in THREE.into_iter().enumerate() {
        let mut map: M = M::made(rt, alloc, making)?;
        spends(rt, at, &mut map);
    }
    Ok(())
}

#[test]
fn a_map_that_is_made_anew_counts_what_it_keeps(rt: HostRuntime) -> Result<(), Fail> {
    each_spends::<_, Numbers>(&rt, rt.alloc())?;
    Ok(())
}

/// A map that may store no entry stores none.
const NONE: [Turn; 1] = [Does(&[
    (Insert(1, 10), AT_LIMIT),
    (Compute(1, Says::Store(10)), AT_LIMIT),
    (Update(1), Absent),
    (Remove(1), Absent),
    (Get(1), Absent),
    (IsEmpty, Is(true)),
])];

#[test]
fn a_map_that_logs_no_pair_stores_none(rt: HostRuntime) -> Result<(), Fail> {
    runs::<_, Numbers>(&rt, rt.alloc(), &[Making::Built(Asked::Limit(0))], &NONE)
}

/// Inserts absent keys, each with itself, some of which may be refused at the limit; returns
/// whether just the others are there.
pub fn fills_up<R: Wait, C: Calls>(rt: &R, map: &mut C, from: u64, end: u64) -> bool {
    let (mut taken, mut found) = (0u64, 0u64);
    for key in from..end {
        match map.insert(rt, key, key) {
            Absent => taken = taken.wrapping_add(1),
            Answer::Refused(Refused::Limit) => {}
            _ => return false,
        }
    }
    for key in from..end {
        found = found.wrapping_add(u64::from(map.get(key) == Number(key)));
    }
    taken == found
}

/// Maps that store 100 entries at most.
const HUNDRED: [Making; 3] = [
    Making::Limited(ResizeMode::Blocking, 100),
    Making::Limited(ResizeMode::Incremental(1), 100),
    Making::Limited(ResizeMode::Incremental(64), 100),
];

/// Eight threads insert 32 keys each, of which 100 are stored.
const FILL_UP: [Turn; 2] = [
    Threads(Eight(
        [
            FillUp(0, 32),
            FillUp(32, 64),
            FillUp(64, 96),
            FillUp(96, 128),
        ],
        [
            FillUp(128, 160),
            FillUp(160, 192),
            FillUp(192, 224),
            FillUp(224, 256),
        ],
    )),
    Does(&[
        (Len, Number(100)),
        (Iter, Pair(100, 0)),
        (Insert(0, 0), AT_LIMIT),
    ]),
];

#[test]
fn threads_that_meet_the_limit_store_as_many_pairs(rt: HostRuntime) -> Result<(), Fail> {
    runs::<_, Numbers>(&rt, rt.alloc(), &HUNDRED, &FILL_UP)
}

/// Calls that need an entry.
const STORE: [Step; 4] = [
    Insert(1, 12),
    Insert(3, 30),
    Update(1),
    Compute(3, Says::Store(30)),
];

/// A map at its limit.
#[derive(Drop)]
struct Spent<'r, 'm, R, C> {
    rt: &'r R,
    map: &'m mut C,
}

impl<R: Wait, C: Calls> ReadyCall for Spent<'_, '_, R, C> {
    fn is_made(&mut self) -> Result<bool, Refused> {
        for step in STORE {
            if answer(self.rt, self.map, step, &Gate::open()) != AT_LIMIT {
                return Ok(false);
            }
        }
        Ok(true)
    }

    fn is_kept(&mut self) -> bool {
        true
    }
}

/// Checks that no call at the limit requests memory. So if memory would be refused as well, the
/// call still fails with `Refused::Limit`.
fn asks_for_none<R: Wait + Abort>(rt: &R, alloc: Global, map: &Numbers) {
    let map = &mut Pinned::of(map);
    is(
        rt,
        tries(alloc, &mut Spent { rt, map }, 1) == TryResult::Answers,
        true,
    );
}

/// Checks this for each of these maps.
fn each_asks_for_none<R: Wait + Abort, M: Shared + Drop>(
    rt: &R,
    alloc: Global,
) -> Result<(), Refused> {
    for (at, making) in THREE.into_iter().enumerate() {
        let map: M = M::made(rt, alloc, making)?;
        map.goes(rt, at, SPENDS);
        asks_for_none(rt, alloc, map.numbers());
    }
    Ok(())
}

#[test]
fn a_call_at_the_limit_asks_for_no_memory(rt: HostRuntime) -> Result<(), Fail> {
    each_asks_for_none::<_, Numbers>(&rt, rt.alloc())?;
    Ok(())
}
