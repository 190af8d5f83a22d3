// Each call on one key, with each of its requests for memory refused in turn, at each stage of the
// growth of a map. The heap of `tests/refused.py` is set to refuse.
use crate::answers::Answer;
use crate::answers::Answer::{Aborted, Absent, Kept, NotMade, Number, Occupied, Pair, Updated};
use crate::expect::is;
use crate::shared::Shared;
use crate::steps::Agrees::{Always, Never};
use crate::steps::Step::{
    Compute, Get, GetBelow, GetOrInsert, GetOrInsertWith, Insert, InsertBelow, Len, Remove,
    RemoveIf, TryInsert, TryInsertWith, Update, UpdateOrInsert, UpdateOrInsertWith,
};
use crate::steps::{Calls, Step, answer};
use papaya_map::map;
use papaya_seq::seq;
use papaya_testing::same::FIRST;
use papaya_testing::tries::{ReadyCall, Trial, TryResult, fails_at, tries};
use papaya_words::refused::Refused;
use papaya_words::resize_mode::ResizeMode;
use std::alloc::Global;
use std::process::Abort;
use std::sync::Wait;

/// A key that is present with this value, and one that is not.
const OLD: u64 = 200;

const VALUE: u64 = 5;

const NEW: u64 = 201;

/// A call, its result, and the values of the old key and of the new one afterwards.
type Row = (Step, Answer, Answer, Answer);

/// Calls on the key that is absent.
const AT_NEW: [Row; 11] = [
    (Insert(NEW, 7), Absent, Number(VALUE), Number(7)),
    (TryInsert(NEW, 7), Number(7), Number(VALUE), Number(7)),
    (TryInsertWith(NEW, 7), Number(7), Number(VALUE), Number(7)),
    (GetOrInsert(NEW, 7), Number(7), Number(VALUE), Number(7)),
    (GetOrInsertWith(NEW, 7), Number(7), Number(VALUE), Number(7)),
    (UpdateOrInsert(NEW, 7), Number(7), Number(VALUE), Number(7)),
    (
        UpdateOrInsertWith(NEW, 7),
        Number(7),
        Number(VALUE),
        Number(7),
    ),
    (Update(NEW, 7), Absent, Number(VALUE), Absent),
    (Compute(NEW), Aborted, Number(VALUE), Absent),
    (Remove(NEW), Absent, Number(VALUE), Absent),
    (RemoveIf(NEW, Always), Absent, Number(VALUE), Absent),
];

/// Calls on the key that is present.
const AT_OLD: [Row; 12] = [
    (Insert(OLD, 7), Number(VALUE), Number(7), Absent),
    (TryInsert(OLD, 7), Occupied(VALUE, 7), Number(VALUE), Absent),
    (TryInsertWith(OLD, 7), NotMade(VALUE), Number(VALUE), Absent),
    (GetOrInsert(OLD, 7), Number(VALUE), Number(VALUE), Absent),
    (
        GetOrInsertWith(OLD, 7),
        Number(VALUE),
        Number(VALUE),
        Absent,
    ),
    (UpdateOrInsert(OLD, 7), Number(6), Number(6), Absent),
    (UpdateOrInsertWith(OLD, 7), Number(6), Number(6), Absent),
    (Update(OLD, 7), Number(12), Number(12), Absent),
    (Compute(OLD), Updated(VALUE, 6), Number(6), Absent),
    (Remove(OLD), Number(VALUE), Absent, Absent),
    (RemoveIf(OLD, Always), Pair(OLD, VALUE), Absent, Absent),
    (
        RemoveIf(OLD, Never),
        Kept(OLD, VALUE),
        Number(VALUE),
        Absent,
    ),
];

/// The contents of a map before a call: the keys below a number, each with itself, and the old one.
#[derive(Clone, Copy)]
struct Start {
    mode: ResizeMode,
    keys: u64,
}

/// Returns how many of the two keys are there.
fn there(old: Answer, new: Answer) -> u64 {
    u64::from(old != Absent).wrapping_add(u64::from(new != Absent))
}

/// Returns whether the map has the keys below this one, these values at the old and the new key,
/// and no other.
fn is_as<C: Calls>(map: &mut C, keys: u64, old: Answer, new: Answer) -> bool {
    let is_there = answer(map, Get(OLD)) == old && answer(map, Get(NEW)) == new;
    let is_kept = answer(map, GetBelow(keys, 0)) == Number(keys);
    is_there && is_kept && answer(map, Len) == Number(keys.wrapping_add(there(old, new)))
}

/// A map, and the call that it is ready for.
#[derive(Drop)]
struct OnKey<'m, C> {
    map: &'m mut C,
    keys: u64,
    row: Row,
}

impl<C: Calls> ReadyCall for OnKey<'_, C> {
    fn is_made(&mut self) -> Result<bool, Refused> {
        let (call, wanted, old, new) = self.row;
        match answer(self.map, call) {
            Answer::Refused(refused) => Err(refused),
            found => Ok(found == wanted && is_as(self.map, self.keys, old, new)),
        }
    }

    fn is_kept(&mut self) -> bool {
        is_as(self.map, self.keys, Number(VALUE), Absent)
    }
}

/// Fills a map, and makes the call with the request of this number refused.
fn tries_on<C: Calls>(alloc: Global, map: &mut C, keys: u64, row: Row, number: usize) -> TryResult {
    let filled = answer(map, InsertBelow(keys, 0)) == Number(keys);
    if !filled || answer(map, Insert(OLD, VALUE)) != Absent {
        return TryResult::Fails;
    }
    tries(alloc, &mut OnKey { map, keys, row }, number)
}

/// A call on maps for one caller.
#[derive(Drop)]
struct Alone {
    alloc: Global,
    start: Start,
    row: Row,
}

impl Trial for Alone {
    fn with_refused(&self, number: usize) -> Result<TryResult, Refused> {
        let Start { mode, keys } = self.start;
        let mut map = seq::HashMap::with_parts(self.alloc, mode, 0, 1, FIRST, None)?;
        Ok(tries_on(self.alloc, &mut map, keys, self.row, number))
    }
}

/// A call on maps that threads share.
#[derive(Drop)]
struct Together<'r, R> {
    rt: &'r R,
    alloc: Global,
    start: Start,
    row: Row,
}

impl<R: Wait> Trial for Together<'_, R> {
    fn with_refused(&self, number: usize) -> Result<TryResult, Refused> {
        let Start { mode, keys } = self.start;
        let map = map::HashMap::with_parts(self.rt, self.alloc, mode, 0, 4, FIRST, None)?;
        let mut shared = Shared {
            rt: self.rt,
            map: &map,
        };
        Ok(tries_on(self.alloc, &mut shared, keys, self.row, number))
    }
}

/// The maps that are tried.
#[derive(Clone, Copy)]
enum Which {
    Alone,
    Together,
}

/// Returns the request whose refusal breaks the call, if there is one.
fn wrong<R: Wait>(
    rt: &R,
    alloc: Global,
    which: Which,
    start: Start,
    row: Row,
) -> Result<Option<usize>, Refused> {
    match which {
        Which::Alone => fails_at(&Alone { alloc, start, row }),
        Which::Together => fails_at(&Together {
            rt,
            alloc,
            start,
            row,
        }),
    }
}

/// Checks that no call of these fails at such a start.
fn each_row<R: Wait + Abort>(rt: &R, alloc: Global, which: Which, start: Start, rows: &[Row]) {
    for (case, &row) in rows.iter().enumerate() {
        let found = wrong(rt, alloc, which, start, row);
        is(rt, (start.keys, case, found), (start.keys, case, Ok(None)));
    }
}

/// The number of keys of one path beside the old key. A table is full at the next key or not, or is
/// being copied; with 64 in all one is given up in `Blocking`.
const STAGES: [u64; 9] = [0, 24, 25, 26, 47, 62, 63, 64, 66];

const MODES: [ResizeMode; 3] = [
    ResizeMode::Blocking,
    ResizeMode::Incremental(1),
    ResizeMode::Incremental(64),
];

/// Makes each call, from each start.
fn each_start<R: Wait + Abort>(rt: &R, alloc: Global, which: Which) {
    for mode in MODES {
        for keys in STAGES {
            let start = Start { mode, keys };
            each_row(rt, alloc, which, start, &AT_NEW);
            each_row(rt, alloc, which, start, &AT_OLD);
        }
    }
}

#[test]
fn calls_of_maps_for_one_caller_are_refused_memory(rt: HostRuntime) {
    each_start(&rt, rt.alloc(), Which::Alone);
}

#[test]
fn calls_of_maps_that_threads_share_are_refused_memory(rt: HostRuntime) {
    each_start(&rt, rt.alloc(), Which::Together);
}

/// A mode, a capacity, the number of keys beside the old one, and the number of slots that the root
/// has with one more. In `Blocking` it is the table after one that is given up, if that many keys
/// are on one path.
type Length = (ResizeMode, usize, u64, usize);

const LENGTHS: [Length; 3] = [
    (ResizeMode::Blocking, 0, 63, 256),
    (ResizeMode::Blocking, 6, 7, 16),
    (ResizeMode::Incremental(1), 6, 7, 8),
];

/// An insertion into a map for one caller whose root table has this many slots then.
#[derive(Drop)]
struct Long {
    alloc: Global,
    length: Length,
}

impl Trial for Long {
    fn with_refused(&self, number: usize) -> Result<TryResult, Refused> {
        let (mode, capacity, keys, slots) = self.length;
        let mut map = seq::HashMap::with_parts(self.alloc, mode, capacity, 1, FIRST, None)?;
        let [insertion, ..] = AT_NEW;
        let outcome = tries_on(self.alloc, &mut map, keys, insertion, number);
        Ok(if map.slots() == slots {
            outcome
        } else {
            TryResult::Fails
        })
    }
}

#[test]
fn a_refused_growth_goes_on_to_the_same_length(rt: HostRuntime) {
    let alloc = rt.alloc();
    for (case, length) in LENGTHS.into_iter().enumerate() {
        let found = fails_at(&Long { alloc, length });
        is(&rt, (case, found), (case, Ok(None)));
    }
}
