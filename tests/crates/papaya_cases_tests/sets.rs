// The cases of papaya's own tests of the set. Each begins with a new set.
use crate::answers::Answer;
use crate::answers::Answer::{Absent, Done, Is, Number, Walked};
use crate::expect::answers;
use crate::key_steps::Step::{
    Clear, Contains, Extend, ExtendRef, Get, GetBelow, Insert, InsertBelow, Len, Remove,
    RemoveBelow, Reserve, RetainFrom, Walk,
};
use crate::key_steps::{Calls, Step, answer};
use papaya_words::refused::Refused;
use std::process::Abort;

/// Calls, each with its result.
pub type Case = &'static [(Step, Answer)];

const NEW: Case = &[(Len, Number(0)), (Walk, Walked(0, 0, 0))];

const CLEAR: Case = &[
    (InsertBelow(5), Number(5)),
    (Clear, Done),
    (Len, Number(0)),
    (GetBelow(5), Number(0)),
];

const INSERT: Case = &[
    (Insert(42), Is(true)),
    (Insert(42), Is(false)),
    (Len, Number(1)),
];

const GET_EMPTY: Case = &[(Get(42), Absent), (Contains(42), Is(false))];

const REMOVE_EMPTY: Case = &[(Remove(42), Is(false))];

const INSERT_AND_REMOVE: Case = &[
    (Insert(42), Is(true)),
    (Remove(42), Is(true)),
    (Get(42), Absent),
];

const INSERT_AND_GET: Case = &[(Insert(42), Is(true)), (Get(42), Number(42))];

const REINSERT: Case = &[
    (Insert(42), Is(true)),
    (Insert(42), Is(false)),
    (Get(42), Number(42)),
];

const EXTEND: Case = &[
    (Extend(16, 19), Done),
    (Len, Number(3)),
    (Walk, Walked(3, 51, 0)),
    (Extend(18, 20), Done),
    (Walk, Walked(4, 70, 0)),
    (Extend(7, 7), Done),
    (Len, Number(4)),
];

const EXTEND_REF: Case = &[
    (ExtendRef([42, 36, 18]), Done),
    (Walk, Walked(3, 96, 0)),
    (ExtendRef([18, 18, 42]), Done),
    (Len, Number(3)),
];

const LEN_AND_ITER: Case = &[
    (InsertBelow(200), Number(200)),
    (Len, Number(200)),
    (Walk, Walked(200, 19900, 0)),
];

const RETAIN_EMPTY: Case = &[(RetainFrom(0), Done), (Len, Number(0))];

const RETAIN_ALL_FALSE: Case = &[
    (InsertBelow(10), Number(10)),
    (RetainFrom(10), Done),
    (Len, Number(0)),
];

const RETAIN_ALL_TRUE: Case = &[
    (InsertBelow(10), Number(10)),
    (RetainFrom(0), Done),
    (Len, Number(10)),
];

const RETAIN_SOME: Case = &[
    (InsertBelow(10), Number(10)),
    (RetainFrom(5), Done),
    (Len, Number(5)),
    (Walk, Walked(5, 35, 0)),
    (GetBelow(10), Number(5)),
];

const MIXED: Case = &[
    (Get(100), Absent),
    (Insert(100), Is(true)),
    (Get(100), Number(100)),
    (Get(200), Absent),
    (Insert(200), Is(true)),
    (Get(200), Number(200)),
    (Get(300), Absent),
    (Remove(100), Is(true)),
    (Remove(200), Is(true)),
    (Remove(300), Is(false)),
    (Get(100), Absent),
    (InsertBelow(120), Number(120)),
    (GetBelow(120), Number(120)),
    (RemoveBelow(120), Number(120)),
    (GetBelow(120), Number(0)),
    (InsertBelow(240), Number(240)),
    (GetBelow(250), Number(240)),
];

/// A case for the hashers that return the least and the greatest number.
const TEST_HASHERS: Case = &[
    (InsertBelow(100), Number(100)),
    (Contains(u64::MAX), Is(false)),
    (Contains(1 << 63), Is(false)),
    (GetBelow(101), Number(100)),
    (Contains(99), Is(true)),
    (Contains(100), Is(false)),
];

/// A case that papaya has not: it reserves room beside keys, and room for too many is refused.
const RESERVE: Case = &[
    (Reserve(20), Done),
    (InsertBelow(9), Number(9)),
    (Reserve(usize::MAX), Answer::Refused(Refused::Capacity)),
    (GetBelow(10), Number(9)),
];

pub const CASES: [Case; 18] = [
    NEW,
    CLEAR,
    INSERT,
    GET_EMPTY,
    REMOVE_EMPTY,
    INSERT_AND_REMOVE,
    INSERT_AND_GET,
    REINSERT,
    EXTEND,
    EXTEND_REF,
    LEN_AND_ITER,
    RETAIN_EMPTY,
    RETAIN_ALL_FALSE,
    RETAIN_ALL_TRUE,
    RETAIN_SOME,
    MIXED,
    TEST_HASHERS,
    RESERVE,
];

/// Checks that the calls of a case have these results.
pub fn goes<C: Calls>(rt: &impl Abort, at: usize, case: &[(Step, Answer)], set: &mut C) {
    for (step, &(call, wanted)) in case.iter().enumerate() {
        answers(rt, at, step, answer(set, call), wanted);
    }
}
