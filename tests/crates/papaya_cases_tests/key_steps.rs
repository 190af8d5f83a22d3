// Calls of sets as values, and the code that makes them.
use crate::answers::{Answer, said};
use papaya_words::refused::Refused;

/// A call of a set, or several calls of one kind.
#[derive(Clone, Copy)]
pub enum Step {
    Insert(u64),
    Remove(u64),
    Contains(u64),
    Get(u64),
    Len,
    Walk,
    Clear,
    Reserve(usize),
    /// Keeps the keys from this one on.
    RetainFrom(u64),
    /// Inserts, gets or removes each key below this one; returns how many were new, or were there.
    InsertBelow(u64),
    GetBelow(u64),
    RemoveBelow(u64),
    /// Inserts the keys from one to another, which are owned, or these three, which are references.
    Extend(u64, u64),
    ExtendRef([u64; 3]),
}

/// A set whose calls are made by these steps.
pub trait Calls {
    fn insert_one(&mut self, key: u64) -> Result<bool, Refused>;

    fn remove_one(&mut self, key: u64) -> Result<bool, Refused>;

    fn contains_one(&self, key: u64) -> Result<bool, Refused>;

    fn get_one(&self, key: u64) -> Result<Option<u64>, Refused>;

    fn keys(&self) -> usize;
    /// Returns how many keys an iterator returns, and their sum.
    fn walk(&self) -> Result<(u64, u64), Refused>;

    fn clear_all(&mut self) -> Result<(), Refused>;

    fn make_room(&mut self, more: usize) -> Result<(), Refused>;

    fn retain_from(&mut self, least: u64) -> Result<(), Refused>;

    fn take(&mut self, from: u64, end: u64) -> Result<(), Refused>;

    fn take_lent(&mut self, keys: &[u64]) -> Result<(), Refused>;
}

/// Returns how many keys were new.
fn insert_below<C: Calls>(set: &mut C, end: u64) -> Result<Answer, Refused> {
    let mut new = 0u64;
    for key in 0..end {
        if set.insert_one(key)? {
            new = new.wrapping_add(1);
        }
    }
    Ok(Answer::Number(new))
}

/// Returns how many keys were there.
fn remove_below<C: Calls>(set: &mut C, end: u64) -> Result<Answer, Refused> {
    let mut went = 0u64;
    for key in 0..end {
        if set.remove_one(key)? {
            went = went.wrapping_add(1);
        }
    }
    Ok(Answer::Number(went))
}

/// Returns how many keys are there.
fn get_below<C: Calls>(set: &C, end: u64) -> Result<Answer, Refused> {
    let mut found = 0u64;
    for key in 0..end {
        if set.get_one(key)? == Some(key) {
            found = found.wrapping_add(1);
        }
    }
    Ok(Answer::Number(found))
}

/// Converts the key that was found, if one was.
fn key_of(found: Option<u64>) -> Answer {
    match found {
        Some(key) => Answer::Number(key),
        None => Answer::Absent,
    }
}

/// Returns the result of a call that changes nothing.
fn asked<C: Calls>(set: &C, step: Step) -> Result<Answer, Refused> {
    match step {
        Step::Contains(key) => is(set.contains_one(key)),
        Step::Get(key) => Ok(key_of(set.get_one(key)?)),
        Step::GetBelow(end) => get_below(set, end),
        Step::Walk => {
            let (keys, sum) = set.walk()?;
            Ok(Answer::Walked(keys, sum, 0))
        }
        _ => Ok(Answer::Number(set.keys() as u64)),
    }
}

/// Makes a call of all keys, or of many.
fn made<C: Calls>(set: &mut C, step: Step) -> Result<(), Refused> {
    match step {
        Step::Clear => set.clear_all(),
        Step::Reserve(more) => set.make_room(more),
        Step::RetainFrom(least) => set.retain_from(least),
        Step::Extend(from, end) => set.take(from, end),
        Step::ExtendRef(keys) => set.take_lent(&keys),
        _ => Ok(()),
    }
}

/// Converts the result of a call that returns nothing, or fails.
fn over(made: Result<(), Refused>) -> Result<Answer, Refused> {
    match made {
        Ok(()) => Ok(Answer::Done),
        Err(refused) => Err(refused),
    }
}

/// Converts a Boolean result, or a refusal.
fn is(told: Result<bool, Refused>) -> Result<Answer, Refused> {
    match told {
        Ok(yes) => Ok(Answer::Is(yes)),
        Err(refused) => Err(refused),
    }
}

/// Returns the result of a call.
pub fn answer<C: Calls>(set: &mut C, step: Step) -> Answer {
    said(match step {
        Step::Insert(key) => is(set.insert_one(key)),
        Step::Remove(key) => is(set.remove_one(key)),
        Step::InsertBelow(end) => insert_below(set, end),
        Step::RemoveBelow(end) => remove_below(set, end),
        Step::Clear
        | Step::Reserve(_)
        | Step::RetainFrom(_)
        | Step::Extend(_, _)
        | Step::ExtendRef(_) => over(made(set, step)),
        _ => asked(set, step),
    })
}
