// Computes and removals by one caller, and the arguments of their closures.
use crate::answers::Answer::{
    Aborted, Absent, Inserted, Is, Kept, Number, Pair, Refused, Removed, Saw, Updated,
};
use crate::numbers::Numbers;
use crate::seen::Says;
use crate::shared::Turn::Calls;
use crate::shared::{MODES, Turn, runs};
use crate::steps::Step::{Compute, Get, Insert, IsEmpty, Len, RemoveIf, Seen};
use papaya_words::refused::Refused::RemoveNothing;
use std::test::Fail;

/// A removal by a compute fails if there is no entry, and an abort returns its argument.
const CHANGES_NOTHING: [Turn; 1] = [Calls(&[
    (Compute(1, Says::Remove), Refused(RemoveNothing)),
    (Len, Number(0)),
    (IsEmpty, Is(true)),
    (Compute(1, Says::Leave(5)), Aborted(5)),
    (Len, Number(0)),
    (IsEmpty, Is(true)),
    (Get(1), Absent),
])];

#[test]
fn a_compute_has_nothing_to_remove(rt: HostRuntime) -> Result<(), Fail> {
    runs::<_, Numbers>(&rt, rt.alloc(), &MODES, &CHANGES_NOTHING)
}

/// The arguments of the closures of some computes in a row.
const COMPUTES: [Turn; 1] = [Calls(&[
    (Compute(7, Says::Leave(0)), Aborted(0)),
    (Seen, Saw(1, 0, None)),
    (Compute(7, Says::Remove), Refused(RemoveNothing)),
    (Seen, Saw(1, 0, None)),
    (Compute(7, Says::Store(70)), Inserted(7, 70)),
    (Seen, Saw(1, 0, None)),
    (Compute(7, Says::Leave(0)), Aborted(0)),
    (Seen, Saw(0, 1, Some((7, 70)))),
    (Compute(7, Says::Store(71)), Updated(70, 71)),
    (Seen, Saw(0, 1, Some((7, 70)))),
    (Compute(7, Says::Remove), Removed(7, 71)),
    (Seen, Saw(0, 1, Some((7, 71)))),
    (Compute(7, Says::Leave(0)), Aborted(0)),
    (Seen, Saw(1, 0, None)),
    (Len, Number(0)),
    (IsEmpty, Is(true)),
])];

/// Checks that a closure is called once, whatever it returns, if no other thread acts.
#[test]
fn a_closure_is_called_once(rt: HostRuntime) -> Result<(), Fail> {
    runs::<_, Numbers>(&rt, rt.alloc(), &MODES, &COMPUTES)
}

/// Calls the closure for the first of two keys, and removes it.
const REMOVALS: [Turn; 1] = [Calls(&[
    (Insert(7, 70), Absent),
    (Insert(8, 80), Absent),
    (RemoveIf(9, true), Absent),
    (Seen, Saw(0, 0, None)),
    (RemoveIf(7, false), Kept(7, 70)),
    (Seen, Saw(0, 1, Some((7, 70)))),
    (RemoveIf(7, true), Pair(7, 70)),
    (Seen, Saw(0, 1, Some((7, 70)))),
    (RemoveIf(7, true), Absent),
    (Seen, Saw(0, 0, None)),
    (Get(8), Number(80)),
    (Len, Number(1)),
    (IsEmpty, Is(false)),
])];

/// Checks that a closure is called once with the stored entry, and not for an absent key, if no
/// other thread acts.
#[test]
fn a_closure_is_shown_the_pair_once(rt: HostRuntime) -> Result<(), Fail> {
    runs::<_, Numbers>(&rt, rt.alloc(), &MODES, &REMOVALS)
}
