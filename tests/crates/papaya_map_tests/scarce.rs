// Each call by a pass and with a guard, with each of its requests for memory refused in turn, at
// stages of the growth of a map. The heap of `tests/refused.py` is set to refuse.
use crate::answers::Answer;
use crate::answers::Answer::{
    Aborted, Absent, Done, Inserted, Kept, Number, Pair, Removed, Updated,
};
use crate::expect::is;
use crate::numbers::Numbers;
use crate::seen::Says;
use crate::shared::{Making, Shared};
use crate::steps::Step::{
    Compute, GetOrInsert, GetOrInsertWith, Insert, Iter, Keys, Remove, RemoveEntry, RemoveIf,
    Reserve, TryInsert, TryInsertWith, Update, UpdateOrInsert, UpdateOrInsertWith, Values,
};
use crate::steps::{Calls, Step, answer, has_below, inserts};
use papaya_testing::gate::Gate;
use papaya_testing::times::TOGETHER;
use papaya_testing::tries::{ReadyCall, Trial, TryResult, fails_at, tries};
use papaya_words::refused::Refused;
use papaya_words::resize_mode::ResizeMode;
use std::alloc::Global;
use std::marker::PhantomData;
use std::process::Abort;
use std::sync::Wait;

/// A key that is present with this value, and one that is not.
const OLD: u64 = 200;

const VALUE: u64 = 5;

const NEW: u64 = 201;

/// A call, its result, and the values of the old key and of the new one afterwards.
type Row = (Step, Answer, Answer, Answer);

/// Calls with a pass or a guard. The results of iterators are below.
const EITHER: [Row; 15] = [
    (Insert(NEW, 7), Absent, Number(VALUE), Number(7)),
    (Insert(OLD, 7), Number(VALUE), Number(7), Absent),
    (
        Compute(NEW, Says::Next),
        Inserted(NEW, 1),
        Number(VALUE),
        Number(1),
    ),
    (
        Compute(OLD, Says::Next),
        Updated(VALUE, 6),
        Number(6),
        Absent,
    ),
    (
        Compute(OLD, Says::Remove),
        Removed(OLD, VALUE),
        Absent,
        Absent,
    ),
    (
        Compute(OLD, Says::Leave(9)),
        Aborted(9),
        Number(VALUE),
        Absent,
    ),
    (Update(OLD), Number(6), Number(6), Absent),
    (Remove(OLD), Number(VALUE), Absent, Absent),
    (RemoveEntry(OLD), Pair(OLD, VALUE), Absent, Absent),
    (RemoveIf(OLD, true), Pair(OLD, VALUE), Absent, Absent),
    (
        RemoveIf(OLD, false),
        Kept(OLD, VALUE),
        Number(VALUE),
        Absent,
    ),
    (Reserve(100), Done, Number(VALUE), Absent),
    (Iter, Done, Number(VALUE), Absent),
    (Keys(OLD), Done, Number(VALUE), Absent),
    (Values, Done, Number(VALUE), Absent),
];

/// Calls with a guard only.
const GUARDED: [Row; 12] = [
    (TryInsert(NEW, 7), Number(7), Number(VALUE), Number(7)),
    (TryInsert(OLD, 7), Kept(VALUE, 7), Number(VALUE), Absent),
    (TryInsertWith(NEW, 7), Number(7), Number(VALUE), Number(7)),
    (
        TryInsertWith(OLD, 7),
        Kept(VALUE, VALUE),
        Number(VALUE),
        Absent,
    ),
    (GetOrInsert(NEW, 7), Number(7), Number(VALUE), Number(7)),
    (GetOrInsert(OLD, 7), Number(VALUE), Number(VALUE), Absent),
    (GetOrInsertWith(NEW, 7), Number(7), Number(VALUE), Number(7)),
    (
        GetOrInsertWith(OLD, 7),
        Number(VALUE),
        Number(VALUE),
        Absent,
    ),
    (UpdateOrInsert(NEW, 7), Number(7), Number(VALUE), Number(7)),
    (UpdateOrInsert(OLD, 7), Number(6), Number(6), Absent),
    (
        UpdateOrInsertWith(NEW, 7),
        Number(7),
        Number(VALUE),
        Number(7),
    ),
    (UpdateOrInsertWith(OLD, 7), Number(6), Number(6), Absent),
];

/// Returns the result of a call on a map that has the keys below this one, each with itself, and
/// the old one.
fn wanted(row: Row, keys: u64) -> Answer {
    let sum = keys.wrapping_mul(keys.saturating_sub(1)) / 2;
    match row.0 {
        Iter => Pair(keys, 0),
        Keys(_) => Pair(keys, sum.wrapping_add(OLD)),
        Values => Number(sum.wrapping_add(VALUE)),
        _ => row.1,
    }
}

/// Returns whether the map has the keys below this one, these values at the old and the new key,
/// and no other.
fn is_as<C: Calls>(map: &mut C, keys: u64, old: Answer, new: Answer) -> bool {
    let two = u64::from(old != Absent).wrapping_add(u64::from(new != Absent));
    let is_there = map.get(OLD) == old && map.get(NEW) == new;
    is_there && has_below(map, keys, 1, 0) && map.len() == keys.wrapping_add(two)
}

/// A map, and the call that it is ready for.
#[derive(Drop)]
struct OnKey<'r, 'm, R, C> {
    rt: &'r R,
    map: &'m mut C,
    keys: u64,
    row: Row,
}

impl<R: Wait, C: Calls> ReadyCall for OnKey<'_, '_, R, C> {
    fn is_made(&mut self) -> Result<bool, Refused> {
        let (call, _, old, new) = self.row;
        match answer(self.rt, self.map, call, &Gate::open()) {
            Answer::Refused(refused) => Err(refused),
            found => {
                let is_answered = found == wanted(self.row, self.keys);
                Ok(is_answered && is_as(self.map, self.keys, old, new))
            }
        }
    }

    fn is_kept(&mut self) -> bool {
        is_as(self.map, self.keys, Number(VALUE), Absent)
    }
}

/// A call, and the number of keys that a map has before it.
#[derive(Clone, Copy)]
pub struct Start {
    keys: u64,
    row: Row,
}

/// Fills a map, and makes the call with the request of this number refused.
pub fn tries_on<R: Wait, C: Calls>(
    rt: &R,
    alloc: Global,
    map: &mut C,
    start: Start,
    number: usize,
) -> TryResult {
    let Start { keys, row } = start;
    if !inserts(rt, map, 0, keys) || map.insert(rt, OLD, VALUE) != Absent {
        return TryResult::Fails;
    }
    tries(alloc, &mut OnKey { rt, map, keys, row }, number)
}

/// The way in which a call is made.
#[derive(Clone, Copy)]
pub enum Way {
    ByPass,
    WithGuard,
}

/// A call on new maps.
#[derive(Drop)]
struct Growing<'r, R, M> {
    rt: &'r R,
    alloc: Global,
    mode: ResizeMode,
    way: Way,
    start: Start,
    of: PhantomData<M>,
}

impl<R: Wait, M: Shared + Drop> Trial for Growing<'_, R, M> {
    fn with_refused(&self, number: usize) -> Result<TryResult, Refused> {
        let making = Making::Parts(self.mode, 0, TOGETHER);
        let map: M = M::made(self.rt, self.alloc, making)?;
        Ok(map.tries(self.rt, self.alloc, self.way, self.start, number))
    }
}

/// The number of keys of one path beside the old key. A table is full at the next key or not, or is
/// being copied; with 64 in all one is given up in `Blocking`.
const STAGES: [u64; 9] = [0, 24, 25, 26, 47, 62, 63, 64, 66];

/// Checks that no call of these fails at a stage.
fn each_stage<R: Wait + Abort, M: Shared + Drop>(
    rt: &R,
    alloc: Global,
    mode: ResizeMode,
    way: Way,
    row: Row,
) {
    for keys in STAGES {
        let growing: Growing<'_, R, M> = Growing {
            rt,
            alloc,
            mode,
            way,
            start: Start { keys, row },
            of: PhantomData,
        };
        is(rt, (keys, fails_at(&growing)), (keys, Ok(None)));
    }
}

/// Checks this in each mode.
fn each_mode<R: Wait + Abort, M: Shared + Drop>(rt: &R, alloc: Global, way: Way, rows: &[Row]) {
    for mode in [
        ResizeMode::Blocking,
        ResizeMode::Incremental(1),
        ResizeMode::Incremental(64),
    ] {
        for &row in rows {
            each_stage::<R, M>(rt, alloc, mode, way, row);
        }
    }
}

#[test]
fn calls_by_a_pass_are_refused_memory(rt: HostRuntime) {
    each_mode::<_, Numbers>(&rt, rt.alloc(), Way::ByPass, &EITHER);
}

#[test]
fn calls_with_a_guard_are_refused_memory(rt: HostRuntime) {
    each_mode::<_, Numbers>(&rt, rt.alloc(), Way::WithGuard, &EITHER);
    each_mode::<_, Numbers>(&rt, rt.alloc(), Way::WithGuard, &GUARDED);
}
