// Calls of maps as values, and the code that makes them.
use crate::answers::Answer;
use crate::refused::{empties, fills, replaces, stores_again};
use crate::seen::{Says, Seen};
use papaya_testing::gate::Gate;
use std::process::Abort;
use std::sync::Wait;

/// The entries that a retain keeps.
#[derive(Clone, Copy)]
pub enum Keeps {
    ValuesBelow(u64),
    ValuesAbove(u64),
    EvenKeys,
}

impl Keeps {
    /// Returns whether this entry stays.
    pub fn has(self, key: u64, value: u64) -> bool {
        match self {
            Keeps::ValuesBelow(end) => value < end,
            Keeps::ValuesAbove(start) => value > start,
            Keeps::EvenKeys => key % 2 == 0,
        }
    }

    /// Returns the same from a closure that waits at the gate.
    pub fn at(self, gate: &Gate, key: u64, value: u64) -> bool {
        gate.wait();
        self.has(key, value)
    }
}

/// A call of a map, or several calls of one kind.
#[derive(Clone, Copy)]
pub enum Step {
    Get(u64),
    Contains(u64),
    Insert(u64, u64),
    Remove(u64),
    RemoveEntry(u64),
    /// With a closure that returns this.
    RemoveIf(u64, bool),
    /// Adds 1 to the value.
    Update(u64),
    Compute(u64, Says),
    /// The arguments of the last closure of a removal or a compute.
    Seen,
    Reserve(usize),
    Retain(Keeps),
    Clear,
    /// Counts an iterator's entries whose key is the value, and those whose key is below it.
    Iter,
    /// Counts an iterator's keys below this one, and sums up all its keys.
    Keys(u64),
    /// Sums up the values of an iterator.
    Values,
    Len,
    IsEmpty,
    /// Inserts the keys below this one, each with itself, and returns whether all were absent.
    InsertBelow(u64),
    /// Returns whether the keys below the first number have their value: this many times
    /// themselves, and this much more.
    HasBelow(u64, u64, u64),
    /// Returns whether each key below this one has the value 0 or 1.
    HasEither(u64),
    /// A call of a map that is refused memory: see the function.
    StoresAgain(u64),
    Fills,
    Empties,
    Replaces,
    // The calls of a pinned map without a pass, for which there is one with a pass.
    GetAlone(u64),
    InsertAlone(u64, u64),
    RemoveAlone(u64),
    LenOfMap,
    /// The two passes of a pinned map meet, or are swapped: calls are by the first of them.
    Meet,
    Swap,
    /// Adds 1 to the value of the first, or stores the second there.
    UpdateOrInsert(u64, u64),
    // Calls with a guard only.
    Verify,
    GetKeyValue(u64),
    TryInsert(u64, u64),
    TryInsertWith(u64, u64),
    GetOrInsert(u64, u64),
    GetOrInsertWith(u64, u64),
    UpdateOrInsertWith(u64, u64),
}

/// Calls, each with its result.
pub type Script = &'static [(Step, Answer)];

/// A map whose calls return this crate's answers.
pub trait Calls {
    fn get(&mut self, key: u64) -> Answer;

    fn contains(&mut self, key: u64) -> Answer;

    fn insert<R: Wait>(&mut self, rt: &R, key: u64, value: u64) -> Answer;

    fn remove<R: Wait>(&mut self, rt: &R, key: u64) -> Answer;

    fn remove_entry<R: Wait>(&mut self, rt: &R, key: u64) -> Answer;

    fn remove_if<R: Wait>(&mut self, rt: &R, key: u64, says: bool, gate: &Gate) -> Answer;

    fn update<R: Wait>(&mut self, rt: &R, key: u64, gate: &Gate) -> Answer;

    fn compute<R: Wait>(&mut self, rt: &R, key: u64, says: Says, gate: &Gate) -> Answer;

    /// Returns the arguments of the last closure of a removal or a compute.
    fn seen(&self) -> Seen;

    fn reserve<R: Wait>(&mut self, rt: &R, more: usize) -> Answer;

    fn retain<R: Wait>(&mut self, rt: &R, keeps: Keeps, gate: &Gate) -> Answer;

    fn clear<R: Wait>(&mut self, rt: &R) -> Answer;

    fn iter<R: Wait>(&mut self, rt: &R) -> Answer;

    fn keys<R: Wait>(&mut self, rt: &R, end: u64) -> Answer;

    fn values<R: Wait>(&mut self, rt: &R) -> Answer;

    fn len(&self) -> u64;

    fn is_empty(&self) -> bool;

    /// Makes a call that maps have in one form only, pinned or with a guard.
    fn other<R: Wait>(&mut self, rt: &R, step: Step) -> Answer;
}

/// Inserts these keys, each with itself, and returns whether all were absent.
pub fn inserts<R: Wait, C: Calls>(rt: &R, map: &mut C, from: u64, end: u64) -> bool {
    for key in from..end {
        if map.insert(rt, key, key) != Answer::Absent {
            return false;
        }
    }
    true
}

/// Returns whether the keys below this one have their value: this many times themselves, and this
/// much more.
pub fn has_below<C: Calls>(map: &mut C, end: u64, times: u64, more: u64) -> bool {
    for key in 0..end {
        let value = key.wrapping_mul(times).wrapping_add(more);
        if map.get(key) != Answer::Number(value) {
            return false;
        }
    }
    true
}

/// Returns whether each key below this one has the value 0 or 1.
fn has_either<C: Calls>(map: &mut C, end: u64) -> bool {
    for key in 0..end {
        match map.get(key) {
            Answer::Number(0 | 1) => {}
            _ => return false,
        }
    }
    true
}

/// Returns the result of a call that changes nothing.
fn asked<R: Wait, C: Calls>(rt: &R, map: &mut C, step: Step) -> Answer {
    match step {
        Step::Get(key) => map.get(key),
        Step::Contains(key) => map.contains(key),
        Step::Seen => map.seen().told(),
        Step::Iter => map.iter(rt),
        Step::Keys(end) => map.keys(rt, end),
        Step::Values => map.values(rt),
        Step::Len => Answer::Number(map.len()),
        Step::IsEmpty => Answer::Is(map.is_empty()),
        Step::HasBelow(end, times, more) => Answer::Is(has_below(map, end, times, more)),
        Step::HasEither(end) => Answer::Is(has_either(map, end)),
        _ => map.other(rt, step),
    }
}

/// Returns the result of several calls of one kind.
fn came_to<R: Wait, C: Calls>(rt: &R, map: &mut C, step: Step) -> Answer {
    match step {
        Step::InsertBelow(end) => Answer::Is(inserts(rt, map, 0, end)),
        Step::StoresAgain(key) => Answer::Is(stores_again(rt, map, key)),
        Step::Fills => Answer::Is(fills(rt, map)),
        Step::Empties => Answer::Is(empties(rt, map)),
        Step::Replaces => Answer::Is(replaces(rt, map)),
        _ => asked(rt, map, step),
    }
}

/// Returns the result of a call whose closure waits at this gate.
pub fn answer<R: Wait, C: Calls>(rt: &R, map: &mut C, step: Step, gate: &Gate) -> Answer {
    match step {
        Step::Insert(key, value) => map.insert(rt, key, value),
        Step::Remove(key) => map.remove(rt, key),
        Step::RemoveEntry(key) => map.remove_entry(rt, key),
        Step::RemoveIf(key, says) => map.remove_if(rt, key, says, gate),
        Step::Update(key) => map.update(rt, key, gate),
        Step::Compute(key, says) => map.compute(rt, key, says, gate),
        Step::Reserve(more) => map.reserve(rt, more),
        Step::Retain(keeps) => map.retain(rt, keeps, gate),
        Step::Clear => map.clear(rt),
        _ => came_to(rt, map, step),
    }
}

/// Checks that a step has the wanted result.
pub fn answers(rt: &impl Abort, at: usize, step: usize, found: Answer, wanted: Answer) {
    assert!(rt; found == wanted, "map {at}, step {step}");
}

/// Checks that the calls of a script have these results. The map is the one of this number in its
/// test.
pub fn goes<R: Wait + Abort, C: Calls>(rt: &R, at: usize, map: &mut C, script: &[(Step, Answer)]) {
    let gate = Gate::open();
    for (step, &(call, wanted)) in script.iter().enumerate() {
        answers(rt, at, step, answer(rt, map, call, &gate), wanted);
    }
}
