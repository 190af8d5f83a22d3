// Calls as values, and their results at a key according to a plain map.
ghost use Rattle.std.specs.Prelude.{◌≡◌};

use papaya_call::answers::{Answers, Operation};
use papaya_call::call::{Call, Reply};
use papaya_words::refused::Refused;

/// A closure whose result depends only on its argument.
#[derive(Clone, Copy)]
pub(crate) enum Says {
    /// Stores the number after the value that it gets, or this one if there is no value.
    Next(u64),
    Remove,
    Leave,
    /// Lets pairs with even values stay.
    Even,
}

impl Says {
    fn operation(self, shown: Option<u64>) -> Operation<u64, u64> {
        match (self, shown) {
            (Says::Next(_), Some(value)) => Operation::Insert(value.wrapping_add(1)),
            (Says::Next(first), None) => Operation::Insert(first),
            (Says::Remove, _) => Operation::Remove,
            _ => Operation::Abort(3),
        }
    }

    fn agrees(self, value: u64) -> bool {
        match self {
            Says::Remove => true,
            Says::Even => value % 2 == 0,
            _ => false,
        }
    }
}

impl Answers<u64, u64> for Says {
    ghost op_gives = { λ s shown answer t. t ≡ s };

    ghost yes_gives = { λ s key value answer t. t ≡ s };

    fn op(&mut self, shown: Option<(&u64, &u64)>) -> Operation<u64, u64> {
        match shown {
            Some((_, value)) => self.operation(Some(*value)),
            None => self.operation(None),
        }
    }

    fn yes(&mut self, _key: &u64, value: &u64) -> bool {
        self.agrees(*value)
    }
}

/// A call that a caller is to make.
#[derive(Clone, Copy)]
pub(crate) enum Plan {
    Get(u64),
    Insert(u64, u64),
    TryInsert(u64, u64),
    RemoveIf(u64, Says),
    Compute(u64, Says),
    Reserve(usize),
    Clear,
    Retain(Says),
    Walk,
    CopyAll,
}

/// Returns a call of each kind on this key. Those that store a value store this one.
pub(crate) fn on_key(key: u64, value: u64) -> [Plan; 8] {
    [
        Plan::Get(key),
        Plan::Insert(key, value),
        Plan::TryInsert(key, value),
        Plan::RemoveIf(key, Says::Remove),
        Plan::RemoveIf(key, Says::Leave),
        Plan::Compute(key, Says::Next(value)),
        Plan::Compute(key, Says::Remove),
        Plan::Compute(key, Says::Leave),
    ]
}

/// A call of each kind on all keys.
pub(crate) const ON_ALL: [Plan; 5] = [
    Plan::Reserve(8),
    Plan::Clear,
    Plan::Retain(Says::Even),
    Plan::Walk,
    Plan::CopyAll,
];

impl Plan {
    pub(crate) fn call(self) -> Call<u64, u64, Says> {
        match self {
            Plan::Get(key) => Call::Get(key),
            Plan::Insert(key, value) => Call::Insert(key, value),
            Plan::TryInsert(key, value) => Call::TryInsert(key, value),
            Plan::RemoveIf(key, says) => Call::RemoveIf(key, says),
            Plan::Compute(key, says) => Call::Compute(key, says),
            Plan::Reserve(more) => Call::Reserve(more),
            Plan::Clear => Call::Clear,
            Plan::Retain(says) => Call::Retain(says),
            Plan::Walk => Call::Walk,
            Plan::CopyAll => Call::CopyAll,
        }
    }

    /// Returns the key of the call, if it has one.
    pub(crate) fn key(self) -> Option<u64> {
        match self {
            Plan::Get(key)
            | Plan::Insert(key, _)
            | Plan::TryInsert(key, _)
            | Plan::RemoveIf(key, _)
            | Plan::Compute(key, _) => Some(key),
            _ => None,
        }
    }

    /// Returns whether the call removes pairs one by one, so that it may come back to a key.
    pub(crate) fn scans(self) -> bool {
        matches!(self, Plan::Clear | Plan::Retain(_))
    }
}

/// The reply, and the value that the key has afterwards.
type Then = (Reply, Option<u64>);

/// Returns the result of storing a value, whatever the key had.
fn stored(value: u64, held: Option<u64>) -> Then {
    let reply = match held {
        Some(old) => Reply::Replaced { old, new: value },
        None => Reply::Inserted(value),
    };
    (reply, Some(value))
}

/// Returns the result of this operation of a closure on a key that has this value or none.
fn computed(operation: Operation<u64, u64>, held: Option<u64>) -> Then {
    match (operation, held) {
        (Operation::Insert(value), _) => stored(value, held),
        (Operation::Remove, Some(value)) => (Reply::Removed(value), None),
        (Operation::Remove, None) => (Reply::Refused(Refused::RemoveNothing), None),
        (Operation::Abort(number), _) => (Reply::Aborted(number), held),
    }
}

/// Returns the result of a call on a key that has this value or none.
fn called(plan: Plan, held: Option<u64>) -> Then {
    match (plan, held) {
        (Plan::Get(_), Some(value)) => (Reply::Found(value), held),
        (Plan::Insert(_, value), _) => stored(value, held),
        (Plan::TryInsert(_, _), Some(value)) => (Reply::Occupied(value), held),
        (Plan::TryInsert(_, value), None) => stored(value, None),
        (Plan::RemoveIf(_, says), Some(value)) if says.agrees(value) => (
            Reply::Removed(value),
            None,
        ),
        (Plan::RemoveIf(_, _), Some(value)) => (Reply::Kept(value), held),
        (Plan::Compute(_, says), _) => computed(says.operation(held), held),
        _ => (Reply::Absent, held),
    }
}

/// Returns a call's result for a key (of an iteration the pair), and the key's value afterwards.
pub(crate) fn at_key(plan: Plan, key: u64, held: Option<u64>) -> (Option<Reply>, Option<u64>) {
    match (plan, held) {
        (Plan::Clear, _) => (None, None),
        (Plan::Retain(says), Some(value)) if !says.agrees(value) => (None, None),
        (Plan::Walk, Some(value)) => (Some(Reply::Found(value)), held),
        (Plan::Walk, None) => (Some(Reply::Absent), None),
        _ if plan.key() == Some(key) => {
            let (reply, then) = called(plan, held);
            (Some(reply), then)
        }
        _ => (None, held),
    }
}

/// The results of two calls for a key, and the value that it has afterwards.
pub(crate) type Told = (Option<Reply>, Option<Reply>, Option<u64>);

/// Returns the results of the first call and then the second.
fn in_turn(plans: (Plan, Plan), key: u64, held: Option<u64>) -> Told {
    let (first, held) = at_key(plans.0, key, held);
    let (second, held) = at_key(plans.1, key, held);
    (first, second, held)
}

fn the_other_way(plans: (Plan, Plan), key: u64, held: Option<u64>) -> Told {
    let (second, first, held) = in_turn((plans.1, plans.0), key, held);
    (first, second, held)
}

/// Returns what was found if two calls may have it, and otherwise the results of the first call
/// before the second. A first call that scans may meet the key before the second call and again
/// after.
pub(crate) fn as_allowed(found: &Told, plans: (Plan, Plan), key: u64, held: Option<u64>) -> Told {
    let after = the_other_way(plans, key, held);
    let (_, scanned) = at_key(plans.0, key, held);
    let around = the_other_way(plans, key, scanned);
    if *found == after || plans.0.scans() && *found == around {
        return *found;
    }
    in_turn(plans, key, held)
}
