// The calls of a pinned map without a pass.
use crate::answers::Answer::{Absent, Is, Number, Pair};
use crate::numbers::Numbers;
use crate::shared::Turn::Calls;
use crate::shared::{MODES, Turn, runs};
use crate::steps::Step::{
    Contains, GetAlone, InsertAlone, IsEmpty, Len, LenOfMap, RemoveAlone, RemoveEntry,
};
use std::test::Fail;

/// Stores 9 at 1, replaces it by 10 and then by 11, and looks up 1 and 2. 1 is removed, and
/// inserted and removed once more.
const CALLS: [Turn; 1] = [Calls(&[
    (GetAlone(1), Absent),
    (InsertAlone(1, 9), Absent),
    (InsertAlone(1, 10), Number(9)),
    (InsertAlone(1, 11), Number(10)),
    (GetAlone(1), Number(11)),
    (Contains(1), Is(true)),
    (Contains(2), Is(false)),
    (Len, Number(1)),
    (IsEmpty, Is(false)),
    (RemoveEntry(1), Pair(1, 11)),
    (RemoveEntry(1), Absent),
    (InsertAlone(1, 13), Absent),
    (RemoveAlone(1), Number(13)),
    (IsEmpty, Is(true)),
    (LenOfMap, Number(0)),
])];

#[test]
fn a_pinned_map_takes_calls_without_a_pass(rt: HostRuntime) -> Result<(), Fail> {
    runs::<_, Numbers>(&rt, rt.alloc(), &MODES, &CALLS)
}
