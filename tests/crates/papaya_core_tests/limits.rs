// Maps with a limit on their pairs: exactly that many are stored, and a call that needs one more is
// refused there and requests no memory.
use crate::expect::{is, is_at};
use crate::plain::{
    Asked, MODES, Numbers, WHOLE, begin, compute, removal, replies, reply_to, times, value,
    value_of,
};
use papaya_call::answers::Operation;
use papaya_call::ask::StepKind;
use papaya_call::call::{Call, Reply};
use papaya_core::schedule::Core;
use papaya_core_timeline::trace::{Event, Trace, Turn};
use papaya_testing::times::APART;
use papaya_words::refused::Refused;
use papaya_words::resize_mode::ResizeMode;
use std::alloc::Global;
use std::process::Abort;
use std::test::Fail;

/// The reply if no number is left for a pair.
const LIMIT: Reply = Reply::Refused(Refused::Limit);

/// The reply if memory runs out.
const MEMORY: Reply = Reply::Refused(Refused::Memory);

/// How many callers insert at the same time. `MOST` of their pairs may be stored.
const CALLERS: usize = 8;

const MOST: u64 = 5;

/// More steps than an insertion into a new map makes.
const STEPS_OF_INSERT: usize = 16;

/// Creates a map with this limit and this capacity.
fn limited(alloc: Global, mode: ResizeMode, capacity: usize, most: u64) -> Result<Numbers, Fail> {
    Ok(Core::with_pair_limit(alloc, mode, capacity, 16, APART, most)?)
}

/// Returns how many pairs were stored.
fn logged(core: &Numbers) -> u64 {
    let mut count = 0u64;
    for number in 0..20 {
        if value_of(core, number).is_some() {
            count = count.wrapping_add(1);
        }
    }
    count
}

/// Stores two keys, and replaces the value of one: three pairs.
fn stores_three(rt: &impl Abort, alloc: Global, core: &mut Numbers) -> Result<(), Fail> {
    let replaced = Reply::Replaced { old: 10, new: 11 };
    for (call, reply) in [
        (Call::Insert(7, 10), Reply::Inserted(10)),
        (Call::Insert(2, 20), Reply::Inserted(20)),
        (Call::Insert(7, 11), replaced),
    ] {
        replies(rt, alloc, core, (0, 0), call, reply)?;
    }
    Ok(())
}

/// Checks that at the limit nothing is stored, and everything else works.
fn stores_no_more(rt: &impl Abort, alloc: Global, core: &mut Numbers) -> Result<(), Fail> {
    let fills = compute(alloc, vec![in alloc; Operation::Insert(12)]?);
    let leaves = compute(alloc, vec![in alloc; Operation::Abort(3)]?);
    for (case, call, reply) in [
        (0, Call::Insert(3, 30), LIMIT),
        (1, Call::Get(3), Reply::Absent),
        (2, Call::Insert(7, 5), LIMIT),
        (3, Call::TryInsert(7, 5), Reply::Occupied(11)),
        (4, fills, LIMIT),
        (5, leaves, Reply::Aborted(3)),
        (6, removal(alloc, 7, true)?, Reply::Removed(11)),
        (7, Call::TryInsert(7, 5), LIMIT),
        (8, Call::Get(7), Reply::Absent),
        (9, Call::Get(2), Reply::Found(20)),
    ] {
        replies(rt, alloc, core, (case, 1), call, reply)?;
    }
    is(rt, logged(core), 3);
    Ok(())
}

#[test]
fn calls_at_a_limit(rt: HostRuntime) -> Result<(), Fail> {
    for mode in MODES {
        let mut core = limited(rt.alloc(), mode, 0, 3)?;
        stores_three(&rt, rt.alloc(), &mut core)?;
        stores_no_more(&rt, rt.alloc(), &mut core)?;
    }
    Ok(())
}

/// Stops the insertion of each caller after `steps` steps. Then continues all of them.
fn together(
    alloc: Global,
    core: &mut Numbers,
    steps: usize,
    is_one_key: bool,
) -> Result<Trace, Fail> {
    let mut turns = Vec::new(alloc);
    for caller in 0..CALLERS {
        let key = if is_one_key { 7 } else { caller as u64 };
        turns.push(Turn::Begin(caller, Call::Insert(key, value(caller as u64))))?;
        turns.push(Turn::Finish(caller, steps))?;
    }
    for caller in 0..CALLERS {
        turns.push(Turn::Finish(caller, WHOLE))?;
    }
    Ok(core.run(turns)?)
}

/// Returns how many numbers were taken, how many callers were refused for the limit, and how many
/// succeeded.
fn ends(trace: &Trace) -> (usize, usize, usize) {
    let (mut refused, mut stored) = (0usize, 0usize);
    for entry in &trace.entries {
        match entry.event {
            Event::Replied(reply) if reply == LIMIT => refused = refused.wrapping_add(1),
            Event::Replied(Reply::Inserted(_) | Reply::Replaced { .. }) => {
                stored = stored.wrapping_add(1);
            }
            _ => {}
        }
    }
    (times(trace, StepKind::Take), refused, stored)
}

/// Returns the same for callers that insert together.
fn ends_together(
    alloc: Global,
    core: &mut Numbers,
    steps: usize,
    is_one_key: bool,
) -> Result<(usize, usize, usize), Fail> {
    let trace = together(alloc, core, steps, is_one_key)?;
    Ok(ends(&trace))
}

/// Checks that eight callers, with different keys or with one, store exactly as many pairs as the
/// limit allows. With different keys each of these pairs is in the map.
fn just_so_many(
    rt: &impl Abort,
    alloc: Global,
    mode: ResizeMode,
    steps: usize,
    is_one_key: bool,
) -> Result<(), Fail> {
    let mut core = limited(alloc, mode, 0, MOST)?;
    let (taken, refused, stored) = ends_together(alloc, &mut core, steps, is_one_key)?;
    is_at(rt, steps, (logged(&core), taken), (MOST, MOST as usize));
    is_at(rt, steps, refused.wrapping_add(stored), CALLERS);
    is_at(rt, steps, is_one_key || stored == MOST as usize, true);
    Ok(())
}

#[test]
fn callers_that_are_stopped_at_a_limit(rt: HostRuntime) -> Result<(), Fail> {
    for steps in 0..STEPS_OF_INSERT {
        for mode in MODES {
            just_so_many(&rt, rt.alloc(), mode, steps, false)?;
            just_so_many(&rt, rt.alloc(), mode, steps, true)?;
        }
    }
    Ok(())
}

/// The reply to an insertion of key 7 whose steps all run out of memory, and how many numbers it
/// takes.
type Unmade = (Option<Reply>, usize);

fn without_memory(alloc: Global, core: &mut Numbers) -> Result<Unmade, Fail> {
    let mut turns = vec![in alloc; Turn::Begin(0, Call::Insert(7, 1))]?;
    for _ in 0..STEPS_OF_INSERT {
        turns.push(Turn::Step(0, true))?;
    }
    let trace = core.run(turns)?;
    Ok((reply_to(&trace, 0), times(&trace, StepKind::Take)))
}

/// Checks an insertion without memory into a map that was made for some pairs and has this limit.
/// Checks that no number is left afterwards, with memory.
fn unmade_at(
    rt: &impl Abort,
    alloc: Global,
    mode: ResizeMode,
    most: u64,
    wanted: Unmade,
) -> Result<(), Fail> {
    let mut core = limited(alloc, mode, 6, most)?;
    is(rt, without_memory(alloc, &mut core)?, wanted);
    replies(rt, alloc, &mut core, (1, 0), Call::Insert(7, 1), LIMIT)?;
    is(rt, logged(&core), 0);
    Ok(())
}

/// There are tables already. At the limit no memory is requested. Below it the number stays taken,
/// although there is no memory for its pair.
#[test]
fn no_memory_at_a_limit(rt: HostRuntime) -> Result<(), Fail> {
    for mode in MODES {
        unmade_at(&rt, rt.alloc(), mode, 0, (Some(LIMIT), 0))?;
        unmade_at(&rt, rt.alloc(), mode, 1, (Some(MEMORY), 1))?;
    }
    Ok(())
}

/// Makes this call whole. Returns its reply, and how many tables it opens.
fn opens(alloc: Global, core: &mut Numbers, call: Asked) -> Result<(Option<Reply>, usize), Fail> {
    let trace = begin(alloc, core, 0, call, WHOLE)?;
    Ok((reply_to(&trace, 0), times(&trace, StepKind::Open)))
}

/// Returns a compute of an absent key, whose closure returns an insertion.
fn fills(alloc: Global) -> Result<Asked, Fail> {
    Ok(compute(alloc, vec![in alloc; Operation::Insert(10)]?))
}

/// Checks that nothing is stored, and that one call opens a table.
fn logs_none(rt: &impl Abort, alloc: Global, core: &mut Numbers) -> Result<(), Fail> {
    is(rt, opens(alloc, core, fills(alloc)?)?, (Some(LIMIT), 0));
    is(rt, without_memory(alloc, core)?, (Some(MEMORY), 0));
    is(
        rt,
        opens(alloc, core, Call::Insert(7, 1))?,
        (Some(LIMIT), 1),
    );
    replies(
        rt,
        alloc,
        core,
        (0, 0),
        removal(alloc, 7, true)?,
        Reply::Absent,
    )
}

/// A map without a table that may store no pair. An insertion makes the table first, and runs out
/// of memory if there is none for it. A compute calls its closure without a pair, and makes no
/// table.
#[test]
fn limit_of_no_pairs(rt: HostRuntime) -> Result<(), Fail> {
    for mode in MODES {
        let mut core = limited(rt.alloc(), mode, 0, 0)?;
        logs_none(&rt, rt.alloc(), &mut core)?;
        is(&rt, logged(&core), 0);
    }
    Ok(())
}
