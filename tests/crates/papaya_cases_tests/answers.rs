// Results of calls, as values.
use papaya_words::refused::Refused;
use papaya_words_keys::results::{Compute, NotInserted, OccupiedError};

/// The result of a call.
#[derive(Clone, Copy, PartialEq)]
pub enum Answer {
    /// The call is over.
    Done,
    /// There is no entry, or no key.
    Absent,
    /// A Boolean result.
    Is(bool),
    /// A value, a key of a set, or a count.
    Number(u64),
    /// A key and its value.
    Pair(u64, u64),
    /// The entry that stays: its key and value.
    Kept(u64, u64),
    /// The value that stays, and the other one, which is returned.
    Occupied(u64, u64),
    /// The value that stays; no other was made.
    NotMade(u64),
    /// A compute replaced the first value by the second.
    Updated(u64, u64),
    /// A compute inserted this entry.
    Inserted(u64, u64),
    /// A compute removed this entry.
    Removed(u64, u64),
    /// A compute did nothing.
    Aborted,
    /// How many entries an iterator returns, and the sums of their keys and values.
    Walked(u64, u64, u64),
    Refused(Refused),
}

/// Returns the result, also if the call failed.
pub fn said(answer: Result<Answer, Refused>) -> Answer {
    match answer {
        Ok(answer) => answer,
        Err(refused) => Answer::Refused(refused),
    }
}

/// Converts the value, if there is one.
pub fn value_of(found: Option<&u64>) -> Answer {
    match found {
        Some(value) => Answer::Number(*value),
        None => Answer::Absent,
    }
}

/// Converts the entry, if there is one.
pub fn pair_of(found: Option<(&u64, &u64)>) -> Answer {
    match found {
        Some((key, value)) => Answer::Pair(*key, *value),
        None => Answer::Absent,
    }
}

/// Converts the entry that was removed, if there was one, or the one that stays.
pub fn removal_of(removed: Result<Option<(&u64, &u64)>, (&u64, &u64)>) -> Answer {
    match removed {
        Ok(found) => pair_of(found),
        Err((key, value)) => Answer::Kept(*key, *value),
    }
}

/// Converts the value that was stored, or the one that stays and the one that is returned.
pub fn insertion_of(tried: Result<&u64, OccupiedError<'_, u64>>) -> Answer {
    match tried {
        Ok(stored) => Answer::Number(*stored),
        Err(occupied) => match occupied.not_inserted {
            NotInserted::Value(value) => Answer::Occupied(*occupied.current, value),
            NotInserted::Logged(value) => Answer::Occupied(*occupied.current, *value),
        },
    }
}

/// Converts the value that was made and stored, or the one that stays if none was made.
pub fn making_of(tried: Result<&u64, &u64>, made: bool) -> Answer {
    match (tried, made) {
        (Ok(stored), true) => Answer::Number(*stored),
        (Err(there), false) => Answer::NotMade(*there),
        _ => Answer::Done,
    }
}

/// Converts the result of a compute.
pub fn compute_of(computed: Compute<'_, u64, u64, ()>) -> Answer {
    match computed {
        Compute::Inserted(key, value) => Answer::Inserted(*key, *value),
        Compute::Updated { old, new } => Answer::Updated(*old.1, *new.1),
        Compute::Removed(key, value) => Answer::Removed(*key, *value),
        Compute::Aborted(()) => Answer::Aborted,
    }
}
