// Computes and updates by threads: no addition is lost.
use crate::answers::Answer::{Absent, Is, Number};
use crate::crowd::Crowd::{Eight, Two};
use crate::crowd::Job::{Add, Count, ReadThenStore, Update};
use crate::numbers::Numbers;
use crate::shared::Turn::{Calls, Threads};
use crate::shared::{MODES, Turn, runs};
use crate::steps::Step::{HasBelow, Insert, InsertBelow, Len};
use std::test::Fail;

/// Checks that each of four keys ends at 2000.
const ENDS_AT_2000: Turn = Calls(&[(Len, Number(4)), (HasBelow(4, 0, 2000), Is(true))]);

/// Eight threads add 250 to each of four keys of an empty map, by computes.
const COMPUTES: [Turn; 2] = [Threads(Eight([Add; 4], [Add; 4])), ENDS_AT_2000];

/// Checks that no addition of eight threads is lost or made twice.
#[test]
fn each_addition_is_made_once(rt: HostRuntime) -> Result<(), Fail> {
    runs::<_, Numbers>(&rt, rt.alloc(), &MODES, &COMPUTES)
}

/// Eight threads call `update_or_insert` 250 times for each of four keys.
const COUNTS: [Turn; 2] = [Threads(Eight([Count; 4], [Count; 4])), ENDS_AT_2000];

#[test]
fn each_count_is_made_once(rt: HostRuntime) -> Result<(), Fail> {
    runs::<_, Numbers>(&rt, rt.alloc(), &MODES, &COUNTS)
}

/// Eight threads read a value before one of them stores the next one.
const LOSES_ADDITIONS: [Turn; 3] = [
    Calls(&[(Insert(0, 0), Absent)]),
    Threads(Eight([ReadThenStore; 4], [ReadThenStore; 4])),
    Calls(&[
        (HasBelow(1, 0, 8), Is(false)),
        (HasBelow(1, 0, 1), Is(true)),
    ]),
];

/// Checks that additions by a lookup and an insertion are lost, and that the test notices it.
#[test]
fn additions_by_two_calls_are_lost(rt: HostRuntime) -> Result<(), Fail> {
    runs::<_, Numbers>(&rt, rt.alloc(), &MODES, &LOSES_ADDITIONS)
}

/// Two threads add to each of 64 values.
const UPDATES: [Turn; 3] = [
    Calls(&[(InsertBelow(64), Is(true))]),
    Threads(Two([Update, Update])),
    Calls(&[(HasBelow(64, 1, 2), Is(true))]),
];

#[test]
fn each_update_is_made_once(rt: HostRuntime) -> Result<(), Fail> {
    runs::<_, Numbers>(&rt, rt.alloc(), &MODES, &UPDATES)
}
