// The arguments of closures, and what they return.
use crate::answers::Answer;
use papaya_call::answers::Operation;
use papaya_testing::gate::Gate;

/// The arguments that the closure of a call was called with.
#[derive(Clone, Copy)]
pub struct Seen {
    /// How often it was called with `None`, and how often with an entry.
    pub nones: u64,
    pub pairs: u64,
    pub first: Option<(u64, u64)>,
    pub last: Option<(u64, u64)>,
}

impl Seen {
    /// Returns a record without calls.
    pub fn nothing() -> Seen {
        Seen {
            nones: 0,
            pairs: 0,
            first: None,
            last: None,
        }
    }

    /// Records that the closure is called with this, and waits at the gate.
    pub fn see(&mut self, shown: Option<(u64, u64)>, gate: &Gate) {
        gate.wait();
        if shown.is_none() {
            self.nones = self.nones.wrapping_add(1);
            return;
        }
        self.pairs = self.pairs.wrapping_add(1);
        self.last = shown;
        if self.first.is_none() {
            self.first = shown;
        }
    }

    /// Returns the record as an answer.
    pub fn told(&self) -> Answer {
        Answer::Saw(self.nones, self.pairs, self.last)
    }
}

/// What the closure of a compute returns.
#[derive(Clone, Copy)]
pub enum Says {
    Store(u64),
    /// The value after the one that it is called with, or 1 if there is none.
    Next,
    Remove,
    /// Ends with this number.
    Leave(u64),
}

impl Says {
    /// Returns the operation.
    pub fn on(self, shown: Option<(u64, u64)>) -> Operation<u64, u64> {
        match (self, shown) {
            (Says::Store(value), _) => Operation::Insert(value),
            (Says::Next, Some((_, value))) => Operation::Insert(value.wrapping_add(1)),
            (Says::Next, None) => Operation::Insert(1),
            (Says::Remove, _) => Operation::Remove,
            (Says::Leave(with), _) => Operation::Abort(with),
        }
    }
}

/// Returns an entry as numbers.
pub fn numbers_of(shown: Option<(&u64, &u64)>) -> Option<(u64, u64)> {
    match shown {
        Some((key, value)) => Some((*key, *value)),
        None => None,
    }
}

/// Returns the value after this one.
pub fn next(value: &u64) -> u64 {
    value.wrapping_add(1)
}

/// Returns the value after this one, from a closure that waits at the gate.
pub fn next_at(gate: &Gate, value: &u64) -> u64 {
    gate.wait();
    next(value)
}

/// Calls the closure of a compute with this, which returns so.
pub fn operation(
    says: Says,
    seen: &mut Seen,
    gate: &Gate,
    shown: Option<(&u64, &u64)>,
) -> Operation<u64, u64> {
    let shown = numbers_of(shown);
    seen.see(shown, gate);
    says.on(shown)
}

/// Calls the closure of a removal with this, which returns `says`.
pub fn agrees(says: bool, seen: &mut Seen, gate: &Gate, key: &u64, value: &u64) -> bool {
    seen.see(Some((*key, *value)), gate);
    says
}
