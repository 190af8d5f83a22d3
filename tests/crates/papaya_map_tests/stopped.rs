// A thread that is stopped while it asks for the memory of what is written ahead: slots of the next
// table, or of a row of the arena. The others need both, and wait for nobody. What stops it is the
// heap of `tests/refused.py`.
use crate::answers::Answer::{Absent, Is, Number, Pair};
use crate::crowd::Crowd::Held;
use crate::crowd::Job;
use crate::crowd::Job::Rewrite;
use crate::numbers::Numbers;
use crate::shared::Turn::{Calls, Threads};
use crate::shared::{MODES, Making, Turn, runs};
use crate::steps::Step::{HasBelow, Insert, InsertBelow, Keys, Len};
use papaya_testing::times::APART;
use papaya_words::resize_mode::ResizeMode;
use std::test::Fail;

/// The word of a slot has 8 bytes. The first table has 32 slots, and the next one is written ahead
/// with as many while there are less than 16 pairs.
const TABLE: usize = 32 * 8;

/// Seven pairs fill the first places of one path. Then four threads insert keys, each at first one
/// of that path, and so finds the table crowded. The keys of the others need several tables.
const IN_A_TABLE: [Turn; 3] = [
    Calls(&[
        (Insert(0, 0), Absent),
        (Insert(1, 1), Absent),
        (Insert(3, 3), Absent),
        (Insert(6, 6), Absent),
        (Insert(10, 10), Absent),
        (Insert(15, 15), Absent),
        (Insert(21, 21), Absent),
    ]),
    Threads(Held(
        TABLE,
        [
            Job::Insert(32, 64),
            Job::Insert(64, 128),
            Job::Insert(128, 192),
            Job::Insert(192, 256),
        ],
    )),
    Calls(&[(Keys(32), Pair(7, 32_200)), (Len, Number(231))]),
];

#[test]
fn a_thread_is_stopped_as_it_writes_a_table_ahead(rt: HostRuntime) -> Result<(), Fail> {
    runs::<_, Numbers>(&rt, rt.alloc(), &MODES, &IN_A_TABLE)
}

/// Maps whose arena has 4096 slots in its first row, and as many in the second one.
const FOR_A_ROW: [Making; 3] = [
    Making::Parts(ResizeMode::Blocking, 4096, APART),
    Making::Parts(ResizeMode::Incremental(1), 4096, APART),
    Making::Parts(ResizeMode::Incremental(64), 4096, APART),
];

/// A slot of the arena has 24 bytes. The third row has twice as many as the second one.
const ROW: usize = 8192 * 24;

/// Four threads replace 256 values 20 times each. Any three of them need the third row.
const IN_A_ROW: [Turn; 3] = [
    Calls(&[(InsertBelow(256), Is(true))]),
    Threads(Held(
        ROW,
        [Rewrite(256), Rewrite(256), Rewrite(256), Rewrite(256)],
    )),
    Calls(&[(HasBelow(256, 1, 0), Is(true)), (Len, Number(256))]),
];

#[test]
fn a_thread_is_stopped_as_it_writes_a_row_ahead(rt: HostRuntime) -> Result<(), Fail> {
    runs::<_, Numbers>(&rt, rt.alloc(), &FOR_A_ROW, &IN_A_ROW)
}
