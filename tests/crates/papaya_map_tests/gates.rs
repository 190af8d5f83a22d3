// An entry that is replaced while a closure is called with it.
use crate::answers::Answer::{Absent, Number, Pair, Updated};
use crate::crowd::Crowd::{Apart, Two};
use crate::crowd::Job::{Gated, Replace};
use crate::numbers::Numbers;
use crate::seen::Says;
use crate::shared::Turn::{Calls, Fails, Threads};
use crate::shared::{MODES, Turn, runs};
use crate::steps::Step::{Compute, Get, Insert, Len, RemoveIf};
use std::test::Fail;

/// An entry is stored, and then removed and replaced at the same time.
const REMOVES_WHAT_REPLACED: [Turn; 3] = [
    Calls(&[(Insert(1, 10), Absent)]),
    Threads(Two([Gated(RemoveIf(1, true), Pair(1, 20)), Replace])),
    Calls(&[(Get(1), Absent), (Len, Number(0))]),
];

/// Checks that an entry is not removed if it is replaced during the closure's call: the closure is
/// called with the new one.
#[test]
fn a_removal_shows_what_replaced_its_pair(rt: HostRuntime) -> Result<(), Fail> {
    runs::<_, Numbers>(&rt, rt.alloc(), &MODES, &REMOVES_WHAT_REPLACED)
}

/// An entry is stored, and then added to and replaced at the same time.
const UPDATES_WHAT_REPLACED: [Turn; 3] = [
    Calls(&[(Insert(1, 10), Absent)]),
    Threads(Two([Gated(Compute(1, Says::Next), Updated(20, 21)), Replace])),
    Calls(&[(Get(1), Number(21)), (Len, Number(1))]),
];

/// Checks that a value is not added to if it is replaced during the closure's call: the closure is
/// called with the new one.
#[test]
fn a_compute_shows_what_replaced_its_pair(rt: HostRuntime) -> Result<(), Fail> {
    runs::<_, Numbers>(&rt, rt.alloc(), &MODES, &UPDATES_WHAT_REPLACED)
}

/// The second call is made after the first has ended.
const ONE_CALL_AFTER_THE_OTHER: [Turn; 3] = [
    Calls(&[(Insert(1, 10), Absent)]),
    Fails(
        Apart([Gated(Compute(1, Says::Next), Updated(20, 21)), Replace]),
        (false, false),
    ),
    Calls(&[(Get(1), Number(20))]),
];

/// Checks that calls which do not overlap do not pass the gate.
#[test]
fn one_call_after_the_other_is_found_out(rt: HostRuntime) -> Result<(), Fail> {
    runs::<_, Numbers>(&rt, rt.alloc(), &MODES, &ONE_CALL_AFTER_THE_OTHER)
}
