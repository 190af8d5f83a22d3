// A call whose closure does not return while other threads need the map. They look keys up, store,
// replace and remove, make the table grow, and iterate. They never wait.
use crate::answers::Answer::{Aborted, Absent, Done, Inserted, Is, Number, Pair, Updated};
use crate::crowd::Crowd::{Apart, Stuck};
use crate::crowd::Job;
use crate::growth::FOR_SIX;
use crate::numbers::Numbers;
use crate::seen::Says;
use crate::shared::Turn::{Calls, Fails, Threads};
use crate::shared::{Turn, runs};
use crate::steps::Keeps::EvenKeys;
use crate::steps::Step::{
    Compute, Get, HasBelow, InsertBelow, Keys, Len, RemoveIf, Retain, Update,
};
use std::test::Fail;

/// Six keys, and a hundred that two threads insert meanwhile, with themselves as values.
const BEFORE: Turn = Calls(&[(InsertBelow(6), Is(true))]);

/// A compute is called with what replaced its entry, and adds to it.
const IN_A_COMPUTE: [Turn; 3] = [
    BEFORE,
    Threads(Stuck(Compute(1, Says::Next), Updated(1, 2))),
    Calls(&[
        (Get(1), Number(2)),
        (Keys(6), Pair(6, 14965)),
        (Len, Number(106)),
    ]),
];

#[test]
fn a_compute_is_stuck(rt: HostRuntime) -> Result<(), Fail> {
    runs::<_, Numbers>(&rt, rt.alloc(), &FOR_SIX, &IN_A_COMPUTE)
}

/// The same for a compute that was called with `None`.
const BEFORE_A_PAIR: [Turn; 3] = [
    BEFORE,
    Threads(Stuck(Compute(5000, Says::Store(7)), Inserted(5000, 7))),
    Calls(&[
        (Get(5000), Number(7)),
        (HasBelow(6, 1, 0), Is(true)),
        (Len, Number(107)),
    ]),
];

#[test]
fn a_compute_without_a_pair_is_stuck(rt: HostRuntime) -> Result<(), Fail> {
    runs::<_, Numbers>(&rt, rt.alloc(), &FOR_SIX, &BEFORE_A_PAIR)
}

/// A removal is called with what replaced its entry, and removes that.
const IN_A_REMOVAL: [Turn; 3] = [
    BEFORE,
    Threads(Stuck(RemoveIf(1, true), Pair(1, 1))),
    Calls(&[
        (Get(1), Absent),
        (Keys(6), Pair(5, 14964)),
        (Len, Number(105)),
    ]),
];

#[test]
fn a_removal_is_stuck(rt: HostRuntime) -> Result<(), Fail> {
    runs::<_, Numbers>(&rt, rt.alloc(), &FOR_SIX, &IN_A_REMOVAL)
}

/// An update adds to what replaced its value.
const IN_AN_UPDATE: [Turn; 3] = [
    BEFORE,
    Threads(Stuck(Update(1), Number(2))),
    Calls(&[
        (Get(1), Number(2)),
        (Keys(6), Pair(6, 14965)),
        (Len, Number(106)),
    ]),
];

#[test]
fn an_update_is_stuck(rt: HostRuntime) -> Result<(), Fail> {
    runs::<_, Numbers>(&rt, rt.alloc(), &FOR_SIX, &IN_AN_UPDATE)
}

/// A retain continues with what is there then, and is called with what replaced its entry. It
/// depends on the table in which it continues which of the new keys it is called with.
const IN_A_RETAIN: [Turn; 3] = [
    BEFORE,
    Threads(Stuck(Retain(EvenKeys), Done)),
    Calls(&[
        (Get(0), Number(0)),
        (Get(1), Absent),
        (Get(3), Absent),
        (Get(4), Number(4)),
    ]),
];

#[test]
fn a_retain_is_stuck(rt: HostRuntime) -> Result<(), Fail> {
    runs::<_, Numbers>(&rt, rt.alloc(), &FOR_SIX, &IN_A_RETAIN)
}

/// If the others run after the call has ended, its closure continues too early.
const ONE_AFTER_THE_OTHER: [Turn; 2] = [
    BEFORE,
    Fails(
        Apart([
            Job::Stuck(Compute(1, Says::Leave(9)), Aborted(9)),
            Job::Has(6),
        ]),
        (false, true),
    ),
];

#[test]
fn others_that_wait_for_a_closure_are_found_out(rt: HostRuntime) -> Result<(), Fail> {
    runs::<_, Numbers>(&rt, rt.alloc(), &FOR_SIX, &ONE_AFTER_THE_OTHER)
}
