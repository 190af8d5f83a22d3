// All combinations of two calls. The first is stopped after each number of its steps, the second is
// made whole, and then the first is finished. The results of both at a key, and its value
// afterwards, are as in a plain map.
use crate::expect::is_at;
use crate::plain::{MODES, WHOLE, by_value, value};
use crate::plans::{ON_ALL, Plan, Says, Told, as_allowed, on_key};
use papaya_call::call::Reply;
use papaya_core::schedule::Core;
use papaya_core_timeline::outcome::Outcome;
use papaya_testing::same::{FIRST, LAST};
use papaya_testing::times::APART;
use papaya_words::resize_mode::ResizeMode;
use std::alloc::Global;
use std::hash::BuildHasher;
use std::process::Abort;
use std::test::Fail;

pub(crate) type Ruled<S> = Core<u64, u64, S, Says>;

/// More steps than any of the stopped calls makes.
const MOST: usize = 2000;

/// The map when the first call begins: the capacity for which it was made, how many keys were
/// stored, and the key from which on they were removed.
#[derive(Clone, Copy)]
pub(crate) struct Start {
    pub(crate) capacity: usize,
    pub(crate) stored: u64,
    pub(crate) left: u64,
}

impl Start {
    /// Returns the value of a key.
    pub(crate) fn held(self, key: u64) -> Option<u64> {
        if key < self.left {
            Some(value(key))
        } else {
            None
        }
    }
}

/// There is no table.
const NEW: Start = Start {
    capacity: 0,
    stored: 0,
    left: 0,
};

/// A table of 32 slots has one key.
const ONE: Start = Start {
    capacity: 0,
    stored: 1,
    left: 1,
};

/// A table of 8 slots is full.
pub(crate) const FULL: Start = Start {
    capacity: 6,
    stored: 8,
    left: 8,
};

/// A table of 8 slots is full of pairs, all but one of which were removed.
const TOMBSTONE: Start = Start {
    capacity: 6,
    stored: 8,
    left: 1,
};

/// A table of 8 slots is full. The first of its chunks, each of one slot, is copied to the next
/// table, which has one more key.
pub(crate) const COPIED: Start = Start {
    capacity: 6,
    stored: 9,
    left: 9,
};

/// Makes at most `most` steps of a caller's call.
fn goes_on<S: BuildHasher>(core: &mut Ruled<S>, caller: usize, most: usize) -> Option<Outcome> {
    for _ in 0..most {
        if !core.running(caller) {
            return None;
        }
        if let Some(outcome) = core.step(caller, false) {
            return Some(outcome);
        }
    }
    None
}

/// Begins a call of a caller, unless it is in one, and makes at most `most` steps of it.
fn makes<S: BuildHasher>(
    core: &mut Ruled<S>,
    caller: usize,
    plan: Plan,
    most: usize,
) -> Result<Option<Outcome>, Fail> {
    if !core.running(caller) {
        core.begin(caller, plan.call())?;
    }
    Ok(goes_on(core, caller, most))
}

/// The outcome of a call: its reply, by the values of pairs, and the pairs of an iteration.
#[derive(Drop)]
pub(crate) struct Said {
    reply: Option<Reply>,
    given: Vec<(u64, u64)>,
}

pub(crate) fn heard<S: BuildHasher>(
    alloc: Global,
    core: &Ruled<S>,
    outcome: Option<Outcome>,
) -> Result<Said, Fail> {
    let mut given = Vec::new(alloc);
    let reply = match outcome {
        Some(Outcome::Walked(numbers)) => {
            for number in &numbers {
                if let Some((key, value)) = core.pair(*number) {
                    given.push((*key, *value))?;
                }
            }
            given.sort()?;
            Some(Reply::Done)
        }
        Some(Outcome::Replied(reply)) => by_value(core, Some(reply)),
        None => None,
    };
    Ok(Said { reply, given })
}

/// Makes a caller's call whole.
pub(crate) fn said_by<S: BuildHasher>(
    alloc: Global,
    core: &mut Ruled<S>,
    caller: usize,
    plan: Plan,
) -> Result<Said, Fail> {
    let outcome = makes(core, caller, plan, WHOLE)?;
    heard(alloc, core, outcome)
}

/// Returns what an iteration found for a key, or `None` if it returned the key more than once.
fn given_to(key: u64, given: &[(u64, u64)]) -> Option<Reply> {
    let mut told = Some(Reply::Absent);
    for (each, value) in given {
        if *each == key {
            told = match told {
                Some(Reply::Absent) => Some(Reply::Found(*value)),
                _ => None,
            };
        }
    }
    told
}

/// Returns the result of a call for a key.
pub(crate) fn told_of(key: u64, plan: Plan, said: &Said) -> Option<Reply> {
    match plan {
        Plan::Walk => given_to(key, &said.given),
        _ if plan.key() == Some(key) => said.reply,
        _ => None,
    }
}

/// Returns the value that a lookup finds.
pub(crate) fn found<S: BuildHasher>(core: &mut Ruled<S>, key: u64) -> Result<Option<u64>, Fail> {
    let outcome = makes(core, 2, Plan::Get(key), WHOLE)?;
    match outcome {
        Some(Outcome::Replied(reply)) => match by_value(core, Some(reply)) {
            Some(Reply::Found(value)) => Ok(Some(value)),
            _ => Ok(None),
        },
        _ => Ok(None),
    }
}

/// Checks both calls against a plain map at each key, and an iteration against lookups.
fn is_plain<S: BuildHasher>(
    rt: &impl Abort,
    alloc: Global,
    core: &mut Ruled<S>,
    case: usize,
    start: Start,
    (first, one): (Plan, &Said),
    (second, other): (Plan, &Said),
) -> Result<(), Fail> {
    let mut pairs = Vec::new(alloc);
    for key in 0..start.stored.wrapping_add(1) {
        let then = found(core, key)?;
        if let Some(value) = then {
            pairs.push((key, value))?;
        }
        let told: Told = (told_of(key, first, one), told_of(key, second, other), then);
        let wanted = as_allowed(&told, (first, second), key, start.held(key));
        is_at(rt, case, told, wanted);
    }
    let walk = said_by(alloc, core, 2, Plan::Walk)?;
    is_at(rt, case, walk.given, pairs);
    Ok(())
}

/// Checks that a call on no key has finished.
fn is_done(rt: &impl Abort, case: usize, plan: Plan, said: &Said) {
    let wanted = match plan.key() {
        Some(_) => said.reply,
        None => Some(Reply::Done),
    };
    is_at(rt, case, said.reply, wanted);
}

/// Creates a map with the keys of `start`.
pub(crate) fn begun<S: BuildHasher + Drop>(
    alloc: Global,
    mode: ResizeMode,
    hasher: S,
    start: Start,
) -> Result<Ruled<S>, Fail> {
    let mut core = Core::new(alloc, mode, start.capacity, 1, hasher)?;
    for key in 0..start.stored {
        let _ = makes(&mut core, 0, Plan::Insert(key, value(key)), WHOLE)?;
    }
    for key in start.left..start.stored {
        let _ = makes(&mut core, 0, Plan::RemoveIf(key, Says::Remove), WHOLE)?;
    }
    Ok(core)
}

/// The outcomes of both calls, and whether the first ended before it was stopped.
#[derive(Drop)]
struct Both {
    one: Said,
    other: Said,
    is_over: bool,
}

/// Stops the first call after `steps` steps, makes the second whole, and continues the first.
fn both_said<S: BuildHasher>(
    alloc: Global,
    core: &mut Ruled<S>,
    steps: usize,
    (first, second): (Plan, Plan),
) -> Result<Both, Fail> {
    let early = makes(core, 0, first, steps)?;
    let is_over = early.is_some();
    let other = said_by(alloc, core, 1, second)?;
    let late = goes_on(core, 0, WHOLE);
    let one = heard(alloc, core, early.or(late))?;
    Ok(Both {
        one,
        other,
        is_over,
    })
}

/// Stops the first call after `steps` steps. Returns whether it ended before.
fn one_stop<S: BuildHasher>(
    rt: &impl Abort,
    alloc: Global,
    core: &mut Ruled<S>,
    (case, steps): (usize, usize),
    start: Start,
    (first, second): (Plan, Plan),
) -> Result<bool, Fail> {
    let both = both_said(alloc, core, steps, (first, second))?;
    is_done(rt, case, first, &both.one);
    is_done(rt, case, second, &both.other);
    let said = ((first, &both.one), (second, &both.other));
    is_plain(rt, alloc, core, case, start, said.0, said.1)?;
    Ok(both.is_over)
}

/// Stops the first call after each number of its steps.
fn each_stop<S: BuildHasher + Copy>(
    rt: &impl Abort,
    alloc: Global,
    (mode, hasher): (ResizeMode, S),
    case: usize,
    start: Start,
    plans: (Plan, Plan),
) -> Result<(), Fail> {
    let mut is_over = false;
    for steps in 0..MOST {
        if !is_over {
            let mut core = begun(alloc, mode, hasher, start)?;
            let case = (case.wrapping_mul(MOST).wrapping_add(steps), steps);
            is_over = one_stop(rt, alloc, &mut core, case, start, plans)?;
        }
    }
    is_at(rt, case, is_over, true);
    Ok(())
}

/// Returns the calls: those on all keys, on the first key, and on a key that the map never had.
fn plans(alloc: Global, start: Start, value: u64) -> Result<Vec<Plan>, Fail> {
    let mut plans = Vec::new(alloc);
    for plan in ON_ALL {
        plans.push(plan)?;
    }
    for plan in on_key(start.stored, value) {
        plans.push(plan)?;
    }
    if start.stored > 0 {
        for plan in on_key(0, value) {
            plans.push(plan)?;
        }
    }
    Ok(plans)
}

/// Checks all combinations of two calls.
fn each_pair<S: BuildHasher + Copy>(
    rt: &impl Abort,
    alloc: Global,
    how: (ResizeMode, S),
    start: Start,
) -> Result<(), Fail> {
    let (firsts, seconds) = (plans(alloc, start, 20)?, plans(alloc, start, 31)?);
    for (at, first) in firsts.iter().enumerate() {
        for (to, second) in seconds.iter().enumerate() {
            let case = at.wrapping_mul(100).wrapping_add(to);
            each_stop(rt, alloc, how, case, start, (*first, *second))?;
        }
    }
    Ok(())
}

/// Checks them with keys of separate probe sequences, and with keys that share one.
fn each_path(rt: &impl Abort, alloc: Global, mode: ResizeMode, start: Start) -> Result<(), Fail> {
    each_pair(rt, alloc, (mode, APART), start)?;
    each_pair(rt, alloc, (mode, FIRST), start)?;
    each_pair(rt, alloc, (mode, LAST), start)
}

/// Checks them in each mode.
fn each_mode(rt: &impl Abort, alloc: Global, start: Start) -> Result<(), Fail> {
    for mode in MODES {
        each_path(rt, alloc, mode, start)?;
    }
    Ok(())
}

#[test]
fn beside_a_stopped_call_in_a_new_map(rt: HostRuntime) -> Result<(), Fail> {
    each_mode(&rt, rt.alloc(), NEW)
}

#[test]
fn beside_a_stopped_call_in_a_map_of_one_key(rt: HostRuntime) -> Result<(), Fail> {
    each_mode(&rt, rt.alloc(), ONE)
}

#[test]
fn beside_a_stopped_call_in_a_full_table_that_blocks(rt: HostRuntime) -> Result<(), Fail> {
    each_path(&rt, rt.alloc(), ResizeMode::Blocking, FULL)
}

#[test]
fn beside_a_stopped_call_in_a_full_table_of_many_chunks(rt: HostRuntime) -> Result<(), Fail> {
    each_path(&rt, rt.alloc(), ResizeMode::Incremental(1), FULL)
}

#[test]
fn beside_a_stopped_call_in_a_full_table_of_one_chunk(rt: HostRuntime) -> Result<(), Fail> {
    each_path(&rt, rt.alloc(), ResizeMode::Incremental(64), FULL)
}

#[test]
fn beside_a_stopped_call_in_a_table_of_removed_pairs(rt: HostRuntime) -> Result<(), Fail> {
    each_mode(&rt, rt.alloc(), TOMBSTONE)
}

#[test]
fn beside_a_stopped_call_in_the_midst_of_a_copy(rt: HostRuntime) -> Result<(), Fail> {
    each_pair(&rt, rt.alloc(), (ResizeMode::Incremental(1), APART), COPIED)
}

#[test]
fn beside_a_stopped_call_in_the_midst_of_a_copy_of_one_path(rt: HostRuntime) -> Result<(), Fail> {
    each_pair(&rt, rt.alloc(), (ResizeMode::Incremental(1), FIRST), COPIED)
}

#[test]
fn beside_a_stopped_call_in_the_midst_of_a_copy_of_the_last_path(
    rt: HostRuntime,
) -> Result<(), Fail> {
    each_pair(&rt, rt.alloc(), (ResizeMode::Incremental(1), LAST), COPIED)
}
