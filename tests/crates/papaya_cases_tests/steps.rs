// Calls of maps as values, and the code that makes them.
use crate::answers::{Answer, said};
use papaya_call::answers::Operation;
use papaya_words::refused::Refused;

/// The result of a removal's closure.
#[derive(Clone, Copy)]
pub enum Agrees {
    Always,
    Never,
    /// True for an entry of this value.
    To(u64),
}

impl Agrees {
    /// Returns whether it is true for this value.
    pub fn to(self, value: u64) -> bool {
        match self {
            Agrees::Always => true,
            Agrees::Never => false,
            Agrees::To(wanted) => value == wanted,
        }
    }
}

/// Removes an even value, and replaces an odd one by the next number.
pub fn by_parity(shown: Option<(&u64, &u64)>) -> Operation<u64, ()> {
    match shown {
        Some((_, value)) if *value % 2 == 0 => Operation::Remove,
        Some((_, value)) => Operation::Insert(value.wrapping_add(1)),
        None => Operation::Abort(()),
    }
}

/// A call of a map, or several calls of one kind.
#[derive(Clone, Copy)]
pub enum Step {
    Insert(u64, u64),
    Get(u64),
    GetKeyValue(u64),
    Contains(u64),
    Remove(u64),
    RemoveIf(u64, Agrees),
    TryInsert(u64, u64),
    TryInsertWith(u64, u64),
    GetOrInsert(u64, u64),
    GetOrInsertWith(u64, u64),
    /// Adds the second number to the value of the first.
    Update(u64, u64),
    /// Adds 1 to the value of the first, or stores the second there.
    UpdateOrInsert(u64, u64),
    UpdateOrInsertWith(u64, u64),
    /// Computes by parity.
    Compute(u64),
    Len,
    Walk,
    /// Keeps the values below this one.
    RetainBelow(u64),
    /// Inserts the keys below the first number, with the sum of key and second number as value;
    /// returns how many were new.
    InsertBelow(u64, u64),
    /// Returns how many of these keys have that value.
    GetBelow(u64, u64),
    /// Adds the second number to the value of each; returns how many were there.
    UpdateBelow(u64, u64),
    /// Removes each; returns how many had that value.
    RemoveBelow(u64, u64),
}

/// A map whose calls return this crate's answers.
pub trait Calls {
    fn insert_one(&mut self, key: u64, value: u64) -> Result<Answer, Refused>;

    fn get_one(&self, key: u64) -> Answer;

    fn get_pair(&self, key: u64) -> Answer;

    fn contains_one(&self, key: u64) -> bool;

    fn remove_one(&mut self, key: u64) -> Result<Answer, Refused>;

    fn remove_one_if(&mut self, key: u64, agrees: Agrees) -> Result<Answer, Refused>;

    fn try_one(&mut self, key: u64, value: u64) -> Result<Answer, Refused>;

    fn try_one_with(&mut self, key: u64, value: u64) -> Result<Answer, Refused>;

    fn get_or_insert_one(&mut self, key: u64, value: u64) -> Result<Answer, Refused>;

    fn get_or_insert_one_with(&mut self, key: u64, value: u64) -> Result<Answer, Refused>;

    fn update_one(&mut self, key: u64, by: u64) -> Result<Answer, Refused>;

    fn update_one_or_insert(&mut self, key: u64, value: u64) -> Result<Answer, Refused>;

    fn update_one_or_insert_with(&mut self, key: u64, value: u64) -> Result<Answer, Refused>;

    fn compute_one(&mut self, key: u64) -> Result<Answer, Refused>;

    fn pairs(&self) -> usize;

    fn walk(&self) -> Result<Answer, Refused>;

    fn retain_below(&mut self, end: u64) -> Result<(), Refused>;
}

/// Returns how many keys were new.
fn insert_below<C: Calls>(map: &mut C, end: u64, more: u64) -> Result<Answer, Refused> {
    let mut new = 0u64;
    for key in 0..end {
        if map.insert_one(key, key.wrapping_add(more))? == Answer::Absent {
            new = new.wrapping_add(1);
        }
    }
    Ok(Answer::Number(new))
}

/// Returns how many keys had the value.
fn get_below<C: Calls>(map: &C, end: u64, more: u64) -> Answer {
    let mut found = 0u64;
    for key in 0..end {
        if map.get_one(key) == Answer::Number(key.wrapping_add(more)) {
            found = found.wrapping_add(1);
        }
    }
    Answer::Number(found)
}

/// Returns how many keys were there.
fn update_below<C: Calls>(map: &mut C, end: u64, by: u64) -> Result<Answer, Refused> {
    let mut updated = 0u64;
    for key in 0..end {
        if map.update_one(key, by)? != Answer::Absent {
            updated = updated.wrapping_add(1);
        }
    }
    Ok(Answer::Number(updated))
}

/// Returns how many keys had the value.
fn remove_below<C: Calls>(map: &mut C, end: u64, more: u64) -> Result<Answer, Refused> {
    let mut went = 0u64;
    for key in 0..end {
        if map.remove_one(key)? == Answer::Number(key.wrapping_add(more)) {
            went = went.wrapping_add(1);
        }
    }
    Ok(Answer::Number(went))
}

/// Returns the result of a call that changes nothing.
fn asked<C: Calls>(map: &C, step: Step) -> Result<Answer, Refused> {
    match step {
        Step::Get(key) => Ok(map.get_one(key)),
        Step::GetKeyValue(key) => Ok(map.get_pair(key)),
        Step::Contains(key) => Ok(Answer::Is(map.contains_one(key))),
        Step::GetBelow(end, more) => Ok(get_below(map, end, more)),
        Step::Walk => map.walk(),
        _ => Ok(Answer::Number(map.pairs() as u64)),
    }
}

/// Returns the result of a call that stores a value only if there is none, or computes one.
fn stored<C: Calls>(map: &mut C, step: Step) -> Result<Answer, Refused> {
    match step {
        Step::TryInsert(key, value) => map.try_one(key, value),
        Step::TryInsertWith(key, value) => map.try_one_with(key, value),
        Step::GetOrInsert(key, value) => map.get_or_insert_one(key, value),
        Step::GetOrInsertWith(key, value) => map.get_or_insert_one_with(key, value),
        Step::UpdateOrInsert(key, value) => map.update_one_or_insert(key, value),
        Step::UpdateOrInsertWith(key, value) => map.update_one_or_insert_with(key, value),
        Step::Compute(key) => map.compute_one(key),
        _ => asked(map, step),
    }
}

/// Keeps the values below this one.
fn retain<C: Calls>(map: &mut C, end: u64) -> Result<Answer, Refused> {
    map.retain_below(end)?;
    Ok(Answer::Done)
}

/// Returns the result of a call.
pub fn answer<C: Calls>(map: &mut C, step: Step) -> Answer {
    said(match step {
        Step::Insert(key, value) => map.insert_one(key, value),
        Step::Remove(key) => map.remove_one(key),
        Step::RemoveIf(key, agrees) => map.remove_one_if(key, agrees),
        Step::Update(key, by) => map.update_one(key, by),
        Step::RetainBelow(end) => retain(map, end),
        Step::InsertBelow(end, more) => insert_below(map, end, more),
        Step::UpdateBelow(end, by) => update_below(map, end, by),
        Step::RemoveBelow(end, more) => remove_below(map, end, more),
        _ => stored(map, step),
    })
}
