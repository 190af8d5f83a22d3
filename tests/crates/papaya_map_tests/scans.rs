// The calls that scan the whole map.
use crate::answers::Answer::{Absent, Done, Is, Number, Pair};
use crate::numbers::Numbers;
use crate::shared::Turn::{Calls, Guarded};
use crate::shared::{Holder, MODES, Making, Turn, runs};
use crate::steps::Keeps::{EvenKeys, ValuesBelow};
use crate::steps::Step::{Clear, Get, Insert, InsertBelow, Iter, Keys, Len, Retain, Values};
use papaya_testing::times::TOGETHER;
use papaya_words::resize_mode::ResizeMode;
use std::test::Fail;

/// Iterates over each of 100 entries once, retains the five below 5, and clears them.
const SCANS: [Turn; 1] = [Calls(&[
    (InsertBelow(100), Is(true)),
    (Iter, Pair(100, 0)),
    (Keys(100), Pair(100, 4950)),
    (Values, Number(4950)),
    (Retain(ValuesBelow(5)), Done),
    (Len, Number(5)),
    (Iter, Pair(5, 0)),
    (Keys(5), Pair(5, 10)),
    (Values, Number(10)),
    (Clear, Done),
    (Len, Number(0)),
    (Iter, Pair(0, 0)),
    (Keys(100), Pair(0, 0)),
    (Values, Number(0)),
])];

#[test]
fn a_map_is_scanned_in_each_mode(rt: HostRuntime) -> Result<(), Fail> {
    runs::<_, Numbers>(&rt, rt.alloc(), &MODES, &SCANS)
}

/// Maps whose keys all take one path.
const ONE_PATH: [Making; 3] = [
    Making::Parts(ResizeMode::Blocking, 0, TOGETHER),
    Making::Parts(ResizeMode::Incremental(1), 0, TOGETHER),
    Making::Parts(ResizeMode::Incremental(64), 0, TOGETHER),
];

#[test]
fn keys_with_one_path_are_scanned_in_each_mode(rt: HostRuntime) -> Result<(), Fail> {
    runs::<_, Numbers>(&rt, rt.alloc(), &ONE_PATH, &SCANS)
}

/// Retains the even keys of 0 to 7, whose values are ten times as much.
const KEEPS_EVEN: [Turn; 1] = [Guarded(
    Holder::Map,
    &[
        (Insert(0, 0), Absent),
        (Insert(1, 10), Absent),
        (Insert(2, 20), Absent),
        (Insert(3, 30), Absent),
        (Insert(4, 40), Absent),
        (Insert(5, 50), Absent),
        (Insert(6, 60), Absent),
        (Insert(7, 70), Absent),
        (Retain(EvenKeys), Done),
        (Len, Number(4)),
        (Get(4), Number(40)),
        (Clear, Done),
        (Len, Number(0)),
    ],
)];

#[test]
fn a_map_is_scanned_with_a_guard(rt: HostRuntime) -> Result<(), Fail> {
    runs::<_, Numbers>(&rt, rt.alloc(), &MODES, &KEEPS_EVEN)
}
