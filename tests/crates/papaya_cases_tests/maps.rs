// The cases of papaya's own tests of the map that `papaya-run` cannot express. Each begins with a
// new map.
use crate::answers::Answer;
use crate::answers::Answer::{
    Aborted, Absent, Done, Is, Kept, NotMade, Number, Occupied, Pair, Removed, Updated, Walked,
};
use crate::expect::answers;
use crate::steps::Agrees::{Always, Never, To};
use crate::steps::Step::{
    Compute, Contains, Get, GetBelow, GetKeyValue, GetOrInsert, GetOrInsertWith, Insert,
    InsertBelow, Len, Remove, RemoveBelow, RemoveIf, RetainBelow, TryInsert, TryInsertWith, Update,
    UpdateBelow, UpdateOrInsert, UpdateOrInsertWith, Walk,
};
use crate::steps::{Calls, Step, answer};
use std::process::Abort;

/// Calls, each with its result.
pub type Case = &'static [(Step, Answer)];

const GET_KEY_VALUE_EMPTY: Case = &[(GetKeyValue(42), Absent)];

const INSERT_AND_GET_KEY_VALUE: Case = &[(Insert(42, 0), Absent), (GetKeyValue(42), Pair(42, 0))];

const REMOVE_IF: Case = &[
    (RemoveIf(1, Always), Absent),
    (Insert(1, 0), Absent),
    (RemoveIf(0, Always), Absent),
    (RemoveIf(1, Never), Kept(1, 0)),
    (RemoveIf(1, To(1)), Kept(1, 0)),
    (Get(1), Number(0)),
    (RemoveIf(1, To(0)), Pair(1, 0)),
    (RemoveIf(1, Always), Absent),
];

const UPDATE_OR_INSERT: Case = &[
    (UpdateOrInsert(42, 0), Number(0)),
    (Len, Number(1)),
    (Get(42), Number(0)),
    (UpdateOrInsert(42, 0), Number(1)),
    (Len, Number(1)),
    (UpdateOrInsert(42, 0), Number(2)),
    (Len, Number(1)),
    (Get(42), Number(2)),
];

const UPDATE_OR_INSERT_WITH: Case = &[
    (UpdateOrInsertWith(42, 0), Number(0)),
    (Len, Number(1)),
    (Get(42), Number(0)),
    (UpdateOrInsertWith(42, 0), Number(1)),
    (Len, Number(1)),
    (UpdateOrInsertWith(42, 0), Number(2)),
    (Len, Number(1)),
    (Get(42), Number(2)),
];

const GET_OR_INSERT: Case = &[
    (GetOrInsert(42, 0), Number(0)),
    (Len, Number(1)),
    (Get(42), Number(0)),
    (GetOrInsert(42, 1), Number(0)),
    (Len, Number(1)),
];

const GET_OR_INSERT_WITH: Case = &[
    (GetOrInsertWith(42, 0), Number(0)),
    (Len, Number(1)),
    (Get(42), Number(0)),
    (GetOrInsertWith(42, 1), Number(0)),
    (Len, Number(1)),
];

const TRY_INSERT: Case = &[
    (TryInsert(42, 1), Number(1)),
    (Len, Number(1)),
    (Get(42), Number(1)),
    (TryInsert(42, 2), Occupied(1, 2)),
    (Len, Number(1)),
    (Get(42), Number(1)),
    (TryInsert(43, 2), Number(2)),
];

const TRY_INSERT_WITH: Case = &[
    (TryInsertWith(42, 1), Number(1)),
    (Len, Number(1)),
    (Get(42), Number(1)),
    (TryInsertWith(42, 2), NotMade(1)),
    (Len, Number(1)),
    (Get(42), Number(1)),
    (TryInsertWith(43, 2), Number(2)),
];

const COMPUTE: Case = &[
    (Compute(7), Aborted),
    (Get(7), Absent),
    (Len, Number(0)),
    (Insert(7, 1), Absent),
    (Len, Number(1)),
    (Compute(7), Updated(1, 2)),
    (Compute(7), Removed(7, 2)),
    (Len, Number(0)),
];

const RETAIN_EMPTY: Case = &[(RetainBelow(0), Done), (Len, Number(0))];

const RETAIN_ALL_FALSE: Case = &[
    (InsertBelow(100, 0), Number(100)),
    (RetainBelow(0), Done),
    (Len, Number(0)),
    (Walk, Walked(0, 0, 0)),
];

const RETAIN_ALL_TRUE: Case = &[
    (InsertBelow(100, 0), Number(100)),
    (RetainBelow(100), Done),
    (Len, Number(100)),
];

const RETAIN_SOME: Case = &[
    (InsertBelow(100, 0), Number(100)),
    (RetainBelow(5), Done),
    (Len, Number(5)),
    (Walk, Walked(5, 10, 10)),
    (GetBelow(100, 0), Number(5)),
];

/// The number that is added to take 1 off.
const LESS: u64 = u64::MAX;

const MIXED: Case = &[
    (Get(100), Absent),
    (Insert(100, 101), Absent),
    (Get(100), Number(101)),
    (Update(100, 2), Number(103)),
    (Get(100), Number(103)),
    (Insert(200, 202), Absent),
    (Get(200), Number(202)),
    (Get(300), Absent),
    (Remove(100), Number(103)),
    (Remove(200), Number(202)),
    (Remove(300), Absent),
    (Get(100), Absent),
    (Get(200), Absent),
    (Get(300), Absent),
    (InsertBelow(120, 1), Number(120)),
    (GetBelow(120, 1), Number(120)),
    (UpdateBelow(120, LESS), Number(120)),
    (GetBelow(120, 0), Number(120)),
    (RemoveBelow(120, 0), Number(120)),
    (GetBelow(120, 0), Number(0)),
    (InsertBelow(240, 1), Number(240)),
    (GetBelow(240, 1), Number(240)),
];

/// With the hasher whose hash is the greatest number, a path begins at a table's last slot.
const TEST_MAX_HASHER: Case = &[
    (InsertBelow(100, 0), Number(100)),
    (Contains(u64::MAX), Is(false)),
    (Contains(1 << 63), Is(false)),
    (GetBelow(101, 0), Number(100)),
    (Contains(99), Is(true)),
    (Contains(100), Is(false)),
];

pub const CASES: [Case; 16] = [
    GET_KEY_VALUE_EMPTY,
    INSERT_AND_GET_KEY_VALUE,
    REMOVE_IF,
    UPDATE_OR_INSERT,
    UPDATE_OR_INSERT_WITH,
    GET_OR_INSERT,
    GET_OR_INSERT_WITH,
    TRY_INSERT,
    TRY_INSERT_WITH,
    COMPUTE,
    RETAIN_EMPTY,
    RETAIN_ALL_FALSE,
    RETAIN_ALL_TRUE,
    RETAIN_SOME,
    MIXED,
    TEST_MAX_HASHER,
];

/// Checks that the calls of a case have these results.
pub fn goes<C: Calls>(rt: &impl Abort, at: usize, case: &[(Step, Answer)], map: &mut C) {
    for (step, &(call, wanted)) in case.iter().enumerate() {
        answers(rt, at, step, answer(map, call), wanted);
    }
}
