// Results of calls, as values.
use papaya_words::refused::Refused;
use papaya_words_keys::results::{Compute, NotInserted, OccupiedError};

/// The result of a call, or of several calls of one kind.
#[derive(Clone, Copy, PartialEq)]
pub enum Answer {
    /// The call is over.
    Done,
    /// There is no entry.
    Absent,
    /// A Boolean result.
    Is(bool),
    /// A value, or a count.
    Number(u64),
    /// A key and its value, or two numbers about an iterator's entries.
    Pair(u64, u64),
    /// The entry that stays: its key and value, or its value and the one that was not stored.
    Kept(u64, u64),
    /// A compute inserted this entry.
    Inserted(u64, u64),
    /// A compute replaced the first value by the second.
    Updated(u64, u64),
    /// A compute removed this entry.
    Removed(u64, u64),
    /// A compute aborted with this number.
    Aborted(u64),
    /// How often a closure was called with `None`, how often with an entry, and the last argument.
    Saw(u64, u64, Option<(u64, u64)>),
    Refused(Refused),
}

/// Converts the result of a call that returns nothing, or fails.
pub fn done(answer: Result<(), Refused>) -> Answer {
    match answer {
        Ok(()) => Answer::Done,
        Err(refused) => Answer::Refused(refused),
    }
}

/// Converts a Boolean result.
pub fn truth(answer: Result<bool, Refused>) -> Answer {
    match answer {
        Ok(answer) => Answer::Is(answer),
        Err(refused) => Answer::Refused(refused),
    }
}

/// Converts the value, if there is one.
pub fn value(answer: Result<Option<&u64>, Refused>) -> Answer {
    match answer {
        Ok(Some(value)) => Answer::Number(*value),
        Ok(None) => Answer::Absent,
        Err(refused) => Answer::Refused(refused),
    }
}

/// Converts the value that is there now.
pub fn there(answer: Result<&u64, Refused>) -> Answer {
    match answer {
        Ok(value) => Answer::Number(*value),
        Err(refused) => Answer::Refused(refused),
    }
}

/// Converts the entry, if there is one.
pub fn pair(answer: Result<Option<(&u64, &u64)>, Refused>) -> Answer {
    match answer {
        Ok(Some((key, value))) => Answer::Pair(*key, *value),
        Ok(None) => Answer::Absent,
        Err(refused) => Answer::Refused(refused),
    }
}

/// The result of a removal whose closure decides.
type Removal<'a> = Result<Option<(&'a u64, &'a u64)>, (&'a u64, &'a u64)>;

/// Converts the entry that was removed, if there was one, or the one that stays.
pub fn removal(answer: Result<Removal<'_>, Refused>) -> Answer {
    match answer {
        Ok(Ok(Some((key, value)))) => Answer::Pair(*key, *value),
        Ok(Ok(None)) => Answer::Absent,
        Ok(Err((key, value))) => Answer::Kept(*key, *value),
        Err(refused) => Answer::Refused(refused),
    }
}

/// Converts the value that was stored, or the one that stays and the one that is returned.
pub fn tried(answer: Result<Result<&u64, OccupiedError<'_, u64>>, Refused>) -> Answer {
    match answer {
        Ok(Ok(value)) => Answer::Number(*value),
        Ok(Err(occupied)) => match occupied.not_inserted {
            NotInserted::Value(value) => Answer::Kept(*occupied.current, value),
            NotInserted::Logged(value) => Answer::Kept(*occupied.current, *value),
        },
        Err(refused) => Answer::Refused(refused),
    }
}

/// Converts the value that was made and stored, or the one that stays.
pub fn made(answer: Result<Result<&u64, &u64>, Refused>) -> Answer {
    match answer {
        Ok(Ok(value)) => Answer::Number(*value),
        Ok(Err(value)) => Answer::Kept(*value, *value),
        Err(refused) => Answer::Refused(refused),
    }
}

/// Converts the result of a compute.
pub fn computed(answer: Result<Compute<'_, u64, u64, u64>, Refused>) -> Answer {
    match answer {
        Ok(Compute::Inserted(key, value)) => Answer::Inserted(*key, *value),
        Ok(Compute::Updated { old, new }) => Answer::Updated(*old.1, *new.1),
        Ok(Compute::Removed(key, value)) => Answer::Removed(*key, *value),
        Ok(Compute::Aborted(with)) => Answer::Aborted(with),
        Err(refused) => Answer::Refused(refused),
    }
}
