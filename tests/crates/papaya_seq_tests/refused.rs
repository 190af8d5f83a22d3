// A refused allocation leaves the map as it was. If the tests run with a failing allocation, as by
// `rt try --test --fail-alloc N`, a call here meets it.
use crate::expect::{is, is_at};
use crate::numbers::{Numbers, Parts, Work, on_made, removes};
use papaya_call::answers::{Listed, Operation};
use papaya_call::call::{Call, Reply};
use papaya_core_timeline::outcome::Outcome;
use papaya_testing::times::{APART, TOGETHER, Times};
use papaya_words::refused::Refused;
use papaya_words::resize_mode::ResizeMode;
use std::alloc::{AllocError, Global};
use std::process::Abort;
use std::test::Fail;

/// Returns whether the map has exactly the keys below this one, each with ten times itself.
fn has_below(map: &Numbers, end: u64) -> bool {
    for key in 0..end {
        if map.get(&key) != Some(&(key.wrapping_mul(10))) {
            return false;
        }
    }
    map.get(&end).is_none() && map.len() as u64 == end
}

/// The calls that insert.
#[derive(Clone, Copy)]
enum Insertion {
    Insert,
    TryInsert,
    GetOrInsert,
    TryInsertWith,
    GetOrInsertWith,
    UpdateOrInsert,
    UpdateOrInsertWith,
    Compute,
}

/// Inserts a key by this call, and again if memory ran out. Returns whether the map was as before
/// after a refusal.
fn insert_again(map: &mut Numbers, key: u64, by: Insertion) -> Result<bool, Refused> {
    let value = key.wrapping_mul(10);
    let first = match by {
        Insertion::Insert => map.insert(key, value).map(|_| ()),
        Insertion::TryInsert => map.try_insert(key, value).map(|_| ()),
        Insertion::GetOrInsert => map.get_or_insert(key, value).map(|_| ()),
        Insertion::TryInsertWith => map.try_insert_with(key, || value).map(|_| ()),
        Insertion::GetOrInsertWith => map.get_or_insert_with(key, || value).map(|_| ()),
        Insertion::UpdateOrInsert => map.update_or_insert(key, |v| *v, value).map(|_| ()),
        Insertion::UpdateOrInsertWith => map
            .update_or_insert_with(key, |v| *v, || value)
            .map(|_| ()),
        Insertion::Compute => map
            .compute(key, |_| Operation::<u64, ()>::Insert(value))
            .map(|_| ()),
    };
    match first {
        Ok(()) => Ok(true),
        Err(Refused::Memory) => {
            let kept = has_below(map, key);
            let _ = map.insert(key, value)?;
            Ok(kept)
        }
        Err(refused) => Err(refused),
    }
}

/// Fills a map by three calls in turn.
fn grows(rt: &impl Abort, map: &mut Numbers) -> Result<(), Fail> {
    for key in 0..20u64 {
        let by = match key % 3 {
            0 => Insertion::Insert,
            1 => Insertion::TryInsert,
            _ => Insertion::GetOrInsert,
        };
        let kept = insert_again(map, key, by)?;
        is_at(
            rt,
            key as usize,
            (kept, has_below(map, key + 1)),
            (true, true),
        );
    }
    // A removal allocates nothing.
    removes(rt, map, 19, Ok(Some(&190)));
    is(rt, has_below(map, 19), true);
    Ok(())
}

/// Fills a map by one call.
fn fills(rt: &impl Abort, map: &mut Numbers, by: Insertion) -> Result<(), Fail> {
    for key in 0..20u64 {
        let kept = insert_again(map, key, by)?;
        is_at(
            rt,
            key as usize,
            (kept, has_below(map, key + 1)),
            (true, true),
        );
    }
    Ok(())
}

/// Updates a key's value to itself. Returns whether the map is right, also after a refusal.
fn updates(map: &mut Numbers, key: u64) -> Result<bool, Refused> {
    match map.update(key, |v| *v) {
        Ok(None) => Ok(false),
        Ok(Some(_)) | Err(Refused::Memory) => Ok(has_below(map, 1)),
        Err(refused) => Err(refused),
    }
}

/// Clones the map. Returns whether both are right, or this one after a refusal.
fn clones(alloc: Global, map: &Numbers, end: u64) -> Result<bool, Refused> {
    match map.try_clone(alloc) {
        Ok(clone) => Ok(has_below(&clone, end) && has_below(map, end)),
        Err(Refused::Memory) => Ok(has_below(map, end)),
        Err(refused) => Err(refused),
    }
}

/// Rebuilds the map. Returns whether it is right, also after a refusal.
fn reclaims(map: &mut Numbers, end: u64) -> Result<bool, Refused> {
    match map.reclaim() {
        Ok(()) | Err(Refused::Memory) => Ok(has_below(map, end)),
        Err(refused) => Err(refused),
    }
}

type Asked = Call<u64, u64, Listed<u64>>;

/// How many keys are inserted by the calls that are run.
const RUN: u64 = 12;

/// The results of a closure, of which a call uses one list.
fn listed(
    alloc: Global,
    op: Option<Operation<u64, u64>>,
    yes: u64,
) -> Result<Listed<u64>, AllocError> {
    let (mut ops, mut agreed) = (Vec::new(alloc), Vec::new(alloc));
    if let Some(op) = op {
        ops.push(op)?;
    }
    for _ in 0..yes {
        agreed.push(true)?;
    }
    Ok(Listed { ops, yes: agreed })
}

/// Calls that are run in turn: three insert the keys, each of which is looked up. Then a resize is
/// ended, room is made, an entry kept, and all entries are retained and iterated over.
fn calls(alloc: Global) -> Result<Vec<Asked>, AllocError> {
    let mut calls = Vec::new(alloc);
    for key in 0..RUN {
        let value = key.wrapping_mul(10);
        calls.push(match key % 3 {
            0 => Call::Insert(key, value),
            1 => Call::TryInsert(key, value),
            _ => Call::Compute(key, listed(alloc, Some(Operation::Insert(value)), 0)?),
        })?;
        calls.push(Call::Get(key))?;
    }
    calls.push(Call::CopyAll)?;
    calls.push(Call::Reserve(40))?;
    calls.push(Call::RemoveIf(0, listed(alloc, None, 0)?))?;
    calls.push(Call::Retain(listed(alloc, None, RUN)?))?;
    calls.push(Call::Walk)?;
    Ok(calls)
}

/// Runs them, also if memory for their list was refused at first.
fn calls_again(alloc: Global) -> Result<Vec<Asked>, AllocError> {
    if let Ok(calls) = calls(alloc) {
        return Ok(calls);
    }
    calls(alloc)
}

/// Runs them on a new map. If there is no room for their outcomes, no call was made.
fn run_again(alloc: Global, map: &mut Numbers) -> Result<Vec<Outcome>, Fail> {
    match map.run(calls_again(alloc)?) {
        Err(Refused::Memory) if has_below(map, 0) => Ok(map.run(calls_again(alloc)?)?),
        outcomes => Ok(outcomes?),
    }
}

/// The kinds of outcomes.
#[derive(Clone, Copy, PartialEq)]
enum OutcomeKind {
    /// An entry was inserted, found or kept.
    Inserted(u64),
    Is(u64),
    Absent,
    Done,
    /// There was no memory.
    Memory,
    Other,
}

fn kind_of(outcome: &Outcome) -> OutcomeKind {
    match outcome {
        Outcome::Replied(Reply::Inserted(number)) => OutcomeKind::Inserted(*number),
        Outcome::Replied(Reply::Found(number) | Reply::Kept(number)) => OutcomeKind::Is(*number),
        Outcome::Replied(Reply::Absent) => OutcomeKind::Absent,
        Outcome::Replied(Reply::Done) => OutcomeKind::Done,
        Outcome::Replied(Reply::Refused(Refused::Memory)) => OutcomeKind::Memory,
        _ => OutcomeKind::Other,
    }
}

/// Returns the kind of the outcome at this place, if there is one.
fn kind_at(outcomes: &[Outcome], at: u64) -> OutcomeKind {
    match outcomes.get(at as usize) {
        Some(outcome) => kind_of(outcome),
        None => OutcomeKind::Other,
    }
}

/// Returns whether a key was inserted with ten times itself and then found, or refused and not
/// found.
fn is_inserted(map: &Numbers, key: u64, inserted: OutcomeKind, found: OutcomeKind) -> bool {
    match inserted {
        OutcomeKind::Inserted(number) => {
            found == OutcomeKind::Is(number)
                && map.pair(number) == Some((&key, &(key.wrapping_mul(10))))
        }
        OutcomeKind::Memory => found == OutcomeKind::Absent,
        _ => false,
    }
}

/// Counts the calls that were refused.
fn refusals(outcomes: &[Outcome]) -> usize {
    let mut refused = 0usize;
    for outcome in outcomes {
        if kind_of(outcome) == OutcomeKind::Memory {
            refused = refused.wrapping_add(1);
        }
    }
    refused
}

/// Returns how many keys were inserted, if each call on a key had the outcome that it should.
fn inserted(map: &Numbers, outcomes: &[Outcome]) -> Option<usize> {
    let mut held = 0usize;
    for key in 0..RUN {
        let at = key.wrapping_mul(2);
        let inserted = kind_at(outcomes, at);
        if !is_inserted(map, key, inserted, kind_at(outcomes, at.wrapping_add(1))) {
            return None;
        }
        if inserted != OutcomeKind::Memory {
            held = held.wrapping_add(1);
        }
    }
    Some(held)
}

/// Returns whether a call on all entries had this outcome, or was refused.
fn is_or_refused(outcomes: &[Outcome], at: u64, wanted: OutcomeKind) -> bool {
    let kind = kind_at(outcomes, at);
    kind == wanted || kind == OutcomeKind::Memory
}

/// Returns whether an iteration yielded this many entries, or was refused.
fn yields(outcomes: &[Outcome], at: u64, held: usize) -> bool {
    match outcomes.get(at as usize) {
        Some(Outcome::Walked(numbers)) => numbers.len() == held,
        Some(outcome) => kind_of(outcome) == OutcomeKind::Memory,
        None => false,
    }
}

/// Returns whether the calls had the outcomes that they should, with at most one request refused.
fn is_run(map: &Numbers, outcomes: &[Outcome]) -> bool {
    let Some(held) = inserted(map, outcomes) else {
        return false;
    };
    let kept = match kind_at(outcomes, 0) {
        OutcomeKind::Inserted(number) => OutcomeKind::Is(number),
        _ => OutcomeKind::Absent,
    };
    let last = RUN.wrapping_mul(2);
    is_or_refused(outcomes, last, OutcomeKind::Done)
        && is_or_refused(outcomes, last.wrapping_add(1), OutcomeKind::Done)
        && is_or_refused(outcomes, last.wrapping_add(2), kept)
        && is_or_refused(outcomes, last.wrapping_add(3), OutcomeKind::Done)
        && yields(outcomes, last.wrapping_add(4), held)
        && refusals(outcomes) <= 1
        && map.len() == held
}

/// Runs the calls, and then inserts each key that was refused.
fn runs(rt: &impl Abort, alloc: Global, map: &mut Numbers) -> Result<(), Fail> {
    let outcomes = run_again(alloc, map)?;
    is(rt, is_run(map, &outcomes), true);
    for key in 0..RUN {
        if map.get(&key).is_none() {
            let _ = map.insert(key, key.wrapping_mul(10))?;
        }
    }
    is(rt, has_below(map, RUN), true);
    Ok(())
}

/// The cases of a new map.
#[derive(Clone, Copy)]
enum Case {
    Runs,
    Grows,
    Fills(Insertion),
    Updates,
    Clones,
}

impl Work<Times> for Case {
    fn is_done<R: Abort>(self, rt: &R, alloc: Global, map: &mut Numbers) -> Result<(), Fail> {
        match self {
            Case::Grows => grows(rt, map),
            Case::Fills(by) => fills(rt, map, by),
            Case::Runs => runs(rt, alloc, map),
            Case::Updates => {
                is(rt, insert_again(map, 0, Insertion::Insert)?, true);
                for time in 0..20 {
                    is_at(rt, time, updates(map, 0)?, true);
                }
                Ok(())
            }
            Case::Clones => {
                for key in 0..9u64 {
                    let kept = insert_again(map, key, Insertion::Insert)?;
                    is_at(rt, key as usize, kept, true);
                }
                is(rt, clones(alloc, map, 9)?, true);
                is(rt, reclaims(map, 9)?, true);
                Ok(())
            }
        }
    }
}

const PARTS: Parts = Parts::Hasher(TOGETHER);

#[test]
fn refused_growth_leaves_the_map(rt: HostRuntime) -> Result<(), Fail> {
    on_made(&rt, rt.alloc(), PARTS, Case::Grows)
}

#[test]
fn refused_computes_leave_the_map(rt: HostRuntime) -> Result<(), Fail> {
    for by in [
        Insertion::TryInsertWith,
        Insertion::GetOrInsertWith,
        Insertion::UpdateOrInsert,
        Insertion::UpdateOrInsertWith,
        Insertion::Compute,
    ] {
        on_made(&rt, rt.alloc(), PARTS, Case::Fills(by))?;
    }
    Ok(())
}

/// In a table of eight slots.
#[test]
fn refused_calls_that_are_run_leave_the_map(rt: HostRuntime) -> Result<(), Fail> {
    for mode in [ResizeMode::Incremental(1), ResizeMode::Blocking] {
        on_made(&rt, rt.alloc(), Parts::All(mode, 6, APART), Case::Runs)?;
    }
    Ok(())
}

#[test]
fn refused_update_leaves_the_map(rt: HostRuntime) -> Result<(), Fail> {
    on_made(&rt, rt.alloc(), PARTS, Case::Updates)
}

#[test]
fn refused_clones_leave_the_map(rt: HostRuntime) -> Result<(), Fail> {
    on_made(&rt, rt.alloc(), PARTS, Case::Clones)
}
