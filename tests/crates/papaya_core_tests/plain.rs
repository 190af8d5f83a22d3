// A core of numbers, calls that its callers make whole or in part, and their replies, with pairs
// named by their values.
use crate::expect::is_at;
use papaya_call::answers::{Listed, Operation};
use papaya_call::ask::StepKind;
use papaya_call::call::{Call, Reply};
use papaya_core::schedule::Core;
use papaya_core_timeline::trace::{Event, Trace, Turn};
use papaya_testing::times::Times;
use papaya_words::resize_mode::ResizeMode;
use std::alloc::Global;
use std::hash::BuildHasher;
use std::process::Abort;
use std::test::Fail;

/// A core whose calls' closures return listed results, whatever they are called with.
pub(crate) type Numbers = Core<u64, u64, Times, Listed<u64>>;

pub(crate) type Asked = Call<u64, u64, Listed<u64>>;

/// The modes of copying tables.
pub(crate) const MODES: [ResizeMode; 3] = [
    ResizeMode::Incremental(1),
    ResizeMode::Incremental(64),
    ResizeMode::Blocking,
];

/// More steps than any call makes, whatever another caller left undone.
pub(crate) const WHOLE: usize = 1_000_000;

/// Returns the value that a key has unless a test states another.
pub(crate) fn value(key: u64) -> u64 {
    key.wrapping_add(1000)
}

/// Returns a removal of a key, whose closure first returns `first`, and then that the pair stays.
pub(crate) fn removal(alloc: Global, key: u64, first: bool) -> Result<Asked, Fail> {
    let ops = Vec::new(alloc);
    let yes = vec![in alloc; first]?;
    Ok(Call::RemoveIf(key, Listed { ops, yes }))
}

/// Returns a retain whose closure lets no pair stay.
pub(crate) fn retain_of_nothing(alloc: Global) -> Asked {
    let ops = Vec::new(alloc);
    let yes = Vec::new(alloc);
    Call::Retain(Listed { ops, yes })
}

/// Returns a compute of key 7, whose closure returns these in turn, and then `Abort(0)`.
pub(crate) fn compute(alloc: Global, ops: Vec<Operation<u64, u64>>) -> Asked {
    let yes = Vec::new(alloc);
    Call::Compute(7, Listed { ops, yes })
}

/// Begins this call of a caller, and makes at most `steps` steps of it.
pub(crate) fn begin(
    alloc: Global,
    core: &mut Numbers,
    caller: usize,
    call: Asked,
    steps: usize,
) -> Result<Trace, Fail> {
    let turns = vec![in alloc; Turn::Begin(caller, call), Turn::Finish(caller, steps)]?;
    Ok(core.run(turns)?)
}

/// Makes the rest of a caller's call.
pub(crate) fn go_on(alloc: Global, core: &mut Numbers, caller: usize) -> Result<Trace, Fail> {
    let turns = vec![in alloc; Turn::Finish(caller, WHOLE)]?;
    Ok(core.run(turns)?)
}

/// Returns the last reply to a caller.
pub(crate) fn reply_to(trace: &Trace, caller: usize) -> Option<Reply> {
    let mut last = None;
    for entry in &trace.entries {
        if let Event::Replied(reply) = entry.event {
            if entry.caller == caller {
                last = Some(reply);
            }
        }
    }
    last
}

/// Returns how many exchanges of this kind there are in a trace.
pub(crate) fn times(trace: &Trace, kind: StepKind) -> usize {
    let mut times = 0usize;
    for entry in &trace.entries {
        if let Event::Moved(found) | Event::Changed(found, _, _) = entry.event {
            if found == kind {
                times = times.wrapping_add(1);
            }
        }
    }
    times
}

/// Returns the calls of closures in a trace: the pairs, and the results.
pub(crate) fn answers_in(alloc: Global, trace: &Trace) -> Result<Vec<(u64, bool)>, Fail> {
    let mut answers = Vec::new(alloc);
    for entry in &trace.entries {
        if let Event::Asked(pair, agrees) = entry.event {
            answers.push((pair, agrees))?;
        }
    }
    Ok(answers)
}

/// Returns the value of the pair with this number.
pub(crate) fn value_of<S: BuildHasher, A>(core: &Core<u64, u64, S, A>, number: u64) -> Option<u64> {
    let (_, value) = core.pair(number)?;
    Some(*value)
}

/// Returns the reply with the pairs' values instead of their numbers.
pub(crate) fn by_value<S: BuildHasher, A>(
    core: &Core<u64, u64, S, A>,
    reply: Option<Reply>,
) -> Option<Reply> {
    Some(match reply? {
        Reply::Found(number) => Reply::Found(value_of(core, number)?),
        Reply::Inserted(number) => Reply::Inserted(value_of(core, number)?),
        Reply::Occupied(number) => Reply::Occupied(value_of(core, number)?),
        Reply::Removed(number) => Reply::Removed(value_of(core, number)?),
        Reply::Kept(number) => Reply::Kept(value_of(core, number)?),
        Reply::Replaced { old, new } => Reply::Replaced {
            old: value_of(core, old)?,
            new: value_of(core, new)?,
        },
        other => other,
    })
}

/// Makes this call of a caller whole, and checks its reply.
pub(crate) fn replies(
    rt: &impl Abort,
    alloc: Global,
    core: &mut Numbers,
    (case, caller): (usize, usize),
    call: Asked,
    wanted: Reply,
) -> Result<(), Fail> {
    let trace = begin(alloc, core, caller, call, WHOLE)?;
    let reply = by_value(core, reply_to(&trace, caller));
    is_at(rt, case, reply, Some(wanted));
    Ok(())
}

/// Checks that another caller finds exactly the keys of a range, among those below 27.
pub(crate) fn holds(
    rt: &impl Abort,
    alloc: Global,
    core: &mut Numbers,
    case: usize,
    (first, end): (u64, u64),
) -> Result<(), Fail> {
    for key in 0..27 {
        let wanted = if first <= key && key < end {
            Reply::Found(value(key))
        } else {
            Reply::Absent
        };
        replies(rt, alloc, core, (case, 99), Call::Get(key), wanted)?;
    }
    Ok(())
}

/// Stores the keys of a range.
pub(crate) fn stores(
    rt: &impl Abort,
    alloc: Global,
    core: &mut Numbers,
    (first, end): (u64, u64),
) -> Result<(), Fail> {
    for key in first..end {
        let wanted = Reply::Inserted(value(key));
        replies(
            rt,
            alloc,
            core,
            (0, 0),
            Call::Insert(key, value(key)),
            wanted,
        )?;
    }
    Ok(())
}
