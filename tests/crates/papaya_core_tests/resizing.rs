// Full tables, alone and beside a caller that has stopped in an insertion into one. Room that is
// made ahead, chunks that two callers copy at the same time, and a table that is given up because
// the count lags behind stopped callers.
use crate::expect::{is, is_at};
use crate::plain::{
    Asked, MODES, Numbers, WHOLE, answers_in, begin, by_value, go_on, holds, removal, replies,
    reply_to, retain_of_nothing, stores, times, value,
};
use papaya_call::ask::StepKind;
use papaya_call::call::{Call, Reply};
use papaya_core::schedule::Core;
use papaya_core_timeline::outcome::Outcome;
use papaya_core_timeline::trace::{Trace, Turn};
use papaya_testing::times::{APART, TOGETHER};
use papaya_words::refused::Refused;
use papaya_words::resize_mode::ResizeMode;
use std::alloc::Global;
use std::process::Abort;
use std::test::Fail;

/// More steps than an insertion into a full table of 8 slots makes, if it meets nobody.
const STEPS_OF_GROWTH: usize = 150;

/// How many keys there are in a full table, from 0, each in a slot of its own.
const KEYS: u64 = 8;

/// Returns the insertion of one more key.
fn insertion() -> Asked {
    Call::Insert(KEYS, value(KEYS))
}

/// Makes `steps` steps of caller 1's insertion. Returns its reply, if it has one already.
fn stopped_at(alloc: Global, core: &mut Numbers, steps: usize) -> Result<Option<Reply>, Fail> {
    let trace = begin(alloc, core, 1, insertion(), steps)?;
    Ok(reply_to(&trace, 1))
}

/// Continues caller 1's insertion, whose first step may run out of memory. Returns its reply, if it
/// had none yet.
fn ended(alloc: Global, core: &mut Numbers, refuse: bool) -> Result<Option<Reply>, Fail> {
    let turns = vec![in alloc; Turn::Step(1, refuse), Turn::Finish(1, WHOLE)]?;
    let trace = core.run(turns)?;
    Ok(reply_to(&trace, 1))
}

/// Lets a caller remove key 0.
fn removes_0(
    rt: &impl Abort,
    alloc: Global,
    core: &mut Numbers,
    case: (usize, usize),
) -> Result<(), Fail> {
    let removed = Reply::Removed(value(0));
    replies(rt, alloc, core, case, removal(alloc, 0, true)?, removed)
}

/// Runs at most this many steps of the iteration that a caller is at. Returns its outcome, if it
/// ended.
fn walks_on(core: &mut Numbers, caller: usize, most: usize) -> Option<Outcome> {
    for _ in 0..most {
        if !core.running(caller) {
            return None;
        }
        if let Some(outcome) = core.step(caller, false) {
            return Some(outcome);
        }
    }
    None
}

/// Begins an iteration of a caller, and runs at most this many steps of it.
fn walks(core: &mut Numbers, caller: usize, most: usize) -> Result<Option<Outcome>, Fail> {
    if !core.running(caller) {
        core.begin(caller, Call::Walk)?;
    }
    Ok(walks_on(core, caller, most))
}

/// Returns the keys that an iteration yielded, sorted.
fn given(alloc: Global, core: &Numbers, walked: Option<Outcome>) -> Result<Vec<u64>, Fail> {
    let mut keys = Vec::new(alloc);
    if let Some(Outcome::Walked(numbers)) = walked {
        for number in &numbers {
            if let Some((key, _)) = core.pair(*number) {
                keys.push(*key)?;
            }
        }
    }
    keys.sort()?;
    Ok(keys)
}

/// Returns whether an iteration yielded each key once, and the removed and the inserted one at most
/// once.
fn gives(
    rt: &impl Abort,
    alloc: Global,
    core: &Numbers,
    steps: usize,
    walked: Option<Outcome>,
    unsure: u64,
) -> Result<(), Fail> {
    let keys = given(alloc, core, walked)?;
    let mut wanted = Vec::new(alloc);
    for key in 0..KEYS + 1 {
        if key != unsure && key != KEYS || keys.contains(&key) {
            wanted.push(key)?;
        }
    }
    is_at(rt, steps, keys, wanted);
    Ok(())
}

/// Lets caller 2 finish the resize, or iterate.
fn copies_or_walks(
    rt: &impl Abort,
    alloc: Global,
    core: &mut Numbers,
    steps: usize,
    case: Case,
) -> Result<(), Fail> {
    if matches!(case, Case::CopyBeside) {
        return replies(rt, alloc, core, (steps, 2), Call::CopyAll, Reply::Done);
    }
    let walked = walks(core, 2, WHOLE)?;
    gives(rt, alloc, core, steps, walked, KEYS)
}

/// Lets caller 2 finish the resize and remove key 0, and then caller 1 continue with an insertion.
fn removal_beside(
    rt: &impl Abort,
    alloc: Global,
    core: &mut Numbers,
    steps: usize,
    case: Case,
) -> Result<(), Fail> {
    let early = stopped_at(alloc, core, steps)?;
    copies_or_walks(rt, alloc, core, steps, case)?;
    removes_0(rt, alloc, core, (steps, 2))?;
    let refuse = matches!(case, Case::RefusalBeside);
    let late = ended(alloc, core, refuse)?;
    let reply = by_value(core, early.or(late));
    let (wanted, end) = if refuse && reply == Some(Reply::Refused(Refused::Memory)) {
        (reply, KEYS)
    } else {
        (Some(Reply::Inserted(value(KEYS))), KEYS + 1)
    };
    is_at(rt, steps, reply, wanted);
    holds(rt, alloc, core, steps, (1, end))
}

/// Stops caller 1 in an iteration, lets caller 2 insert a key and remove key 3, and then caller 1
/// continue.
fn walk_stopped(
    rt: &impl Abort,
    alloc: Global,
    core: &mut Numbers,
    steps: usize,
) -> Result<(), Fail> {
    let early = walks(core, 1, steps)?;
    let inserted = Reply::Inserted(value(KEYS));
    replies(rt, alloc, core, (steps, 2), insertion(), inserted)?;
    let removed = Reply::Removed(value(3));
    replies(
        rt,
        alloc,
        core,
        (steps, 2),
        removal(alloc, 3, true)?,
        removed,
    )?;
    let late = walks_on(core, 1, WHOLE);
    gives(rt, alloc, core, steps, early.or(late), 3)
}

/// Checks that none of the keys of the full table is there.
fn is_gone(rt: &impl Abort, alloc: Global, core: &mut Numbers, case: usize) -> Result<(), Fail> {
    for key in 0..KEYS {
        replies(rt, alloc, core, (case, 3), Call::Get(key), Reply::Absent)?;
    }
    Ok(())
}

/// Lets caller 2 retain nothing, and then caller 1 continue with an insertion.
fn retain_beside(
    rt: &impl Abort,
    alloc: Global,
    core: &mut Numbers,
    steps: usize,
) -> Result<(), Fail> {
    let _ = stopped_at(alloc, core, steps)?;
    let retain = retain_of_nothing(alloc);
    replies(rt, alloc, core, (steps, 2), retain, Reply::Done)?;
    let _ = ended(alloc, core, false)?;
    is_gone(rt, alloc, core, steps)
}

/// Checks that a retain alone calls its closure once for each pair, and deletes the refused ones.
fn asks_once(rt: &impl Abort, alloc: Global, core: &mut Numbers) -> Result<(), Fail> {
    let trace = begin(alloc, core, 2, retain_of_nothing(alloc), WHOLE)?;
    let mut asked = answers_in(alloc, &trace)?;
    asked.sort()?;
    for (number, found) in asked.iter().enumerate() {
        is_at(rt, number, *found, (number as u64, false));
    }
    let counted = (asked.len(), times(&trace, StepKind::Bury));
    is(rt, counted, (KEYS as usize, KEYS as usize));
    is_gone(rt, alloc, core, 0)
}

/// Checks that more room than a table may have is refused.
fn refuses_room(rt: &impl Abort, alloc: Global, core: &mut Numbers) -> Result<(), Fail> {
    let refused = Reply::Refused(Refused::Capacity);
    for more in [usize::MAX, 1 << 61, 1 << 32] {
        replies(rt, alloc, core, (more, 2), Call::Reserve(more), refused)?;
    }
    Ok(())
}

/// Lets caller 2 make room, with no memory in any step.
fn without_memory(alloc: Global, core: &mut Numbers) -> Result<Trace, Fail> {
    let mut turns = vec![in alloc; Turn::Begin(2, Call::Reserve(8))]?;
    for _ in 0..STEPS_OF_GROWTH {
        turns.push(Turn::Step(2, true))?;
    }
    Ok(core.run(turns)?)
}

/// Checks that a table without memory is refused, and that the map then works with memory.
fn refuses_table(rt: &impl Abort, alloc: Global, core: &mut Numbers) -> Result<(), Fail> {
    let trace = without_memory(alloc, core)?;
    let refused = Some(Reply::Refused(Refused::Memory));
    is(rt, by_value(core, reply_to(&trace, 2)), refused);
    is(rt, times(&trace, StepKind::Link), 0);
    holds(rt, alloc, core, 3, (0, KEYS))?;
    replies(rt, alloc, core, (4, 2), Call::Reserve(8), Reply::Done)?;
    holds(rt, alloc, core, 4, (0, KEYS))
}

/// Returns the numbers of the pairs of an iteration, sorted.
fn sorted(outcome: Option<Outcome>) -> Result<Option<Outcome>, Fail> {
    match outcome {
        Some(Outcome::Walked(mut list)) => {
            list.sort()?;
            Ok(Some(Outcome::Walked(list)))
        }
        other => Ok(other),
    }
}

/// Checks that an iteration that is stepped returns its list, without key 0.
fn walks_by_hand(rt: &impl Abort, alloc: Global, core: &mut Numbers) -> Result<(), Fail> {
    removes_0(rt, alloc, core, (0, 1))?;
    let outcome = sorted(walks(core, 2, WHOLE)?)?;
    let numbers = vec![in alloc; 1, 2, 3, 4, 5, 6, 7]?;
    is(rt, outcome, Some(Outcome::Walked(numbers)));
    Ok(())
}

/// The cases of a full table.
#[derive(Clone, Copy)]
enum Case {
    /// An insertion is stopped. Meanwhile all is copied, or iterated over, and a key removed.
    CopyBeside,
    WalkBeside,
    /// The same, and the next step of the insertion runs out of memory.
    RefusalBeside,
    /// An insertion is stopped, and meanwhile a `retain` keeps no entry.
    RetainBeside,
    /// An iteration is stopped. Meanwhile a key is inserted, and another removed.
    WalkStopped,
    AsksOnce,
    RefusesRoom,
    RefusesTable,
    WalksByHand,
}

fn is_done(
    rt: &impl Abort,
    alloc: Global,
    core: &mut Numbers,
    case: Case,
    steps: usize,
) -> Result<(), Fail> {
    match case {
        Case::CopyBeside | Case::WalkBeside | Case::RefusalBeside => {
            removal_beside(rt, alloc, core, steps, case)
        }
        Case::RetainBeside => retain_beside(rt, alloc, core, steps),
        Case::WalkStopped => walk_stopped(rt, alloc, core, steps),
        Case::AsksOnce => asks_once(rt, alloc, core),
        Case::RefusesRoom => refuses_room(rt, alloc, core),
        Case::RefusesTable => refuses_table(rt, alloc, core),
        Case::WalksByHand => walks_by_hand(rt, alloc, core),
    }
}

fn full(
    rt: &impl Abort,
    alloc: Global,
    mode: ResizeMode,
    case: Case,
    steps: usize,
) -> Result<(), Fail> {
    let mut core = Core::new(alloc, mode, 6, 1, APART)?;
    stores(rt, alloc, &mut core, (0, KEYS))?;
    is_done(rt, alloc, &mut core, case, steps)
}

#[test]
fn full_tables(rt: HostRuntime) -> Result<(), Fail> {
    for case in [
        Case::AsksOnce,
        Case::RefusesRoom,
        Case::RefusesTable,
        Case::WalksByHand,
    ] {
        for mode in MODES {
            full(&rt, rt.alloc(), mode, case, 0)?;
        }
    }
    Ok(())
}

/// Runs a case after each number of steps of an insertion.
fn at_each_step(rt: &impl Abort, alloc: Global, case: Case) -> Result<(), Fail> {
    for mode in MODES {
        for steps in 0..STEPS_OF_GROWTH + 1 {
            full(rt, alloc, mode, case, steps)?;
        }
    }
    Ok(())
}

#[test]
fn calls_beside_one_that_is_stopped_in_a_full_table(rt: HostRuntime) -> Result<(), Fail> {
    for case in [
        Case::CopyBeside,
        Case::WalkBeside,
        Case::RefusalBeside,
        Case::RetainBeside,
        Case::WalkStopped,
    ] {
        at_each_step(&rt, rt.alloc(), case)?;
    }
    Ok(())
}

/// Stores the keys of a range, and checks that no table is made for them.
fn stores_in_place(
    rt: &impl Abort,
    alloc: Global,
    core: &mut Numbers,
    (first, end): (u64, u64),
) -> Result<(), Fail> {
    for key in first..end {
        let trace = begin(alloc, core, 1, Call::Insert(key, value(key)), WHOLE)?;
        let made = (times(&trace, StepKind::Link), times(&trace, StepKind::Open));
        is_at(rt, key as usize, made, (0, 0));
    }
    Ok(())
}

/// Lets caller 2 make room for `more` further keys, and move all pairs.
fn makes_room(rt: &impl Abort, alloc: Global, core: &mut Numbers, more: usize) -> Result<(), Fail> {
    let done = Reply::Done;
    replies(rt, alloc, core, (more, 2), Call::Reserve(more), done)?;
    replies(rt, alloc, core, (more, 2), Call::CopyAll, done)
}

/// Stores `keys` keys, and makes room for `more` further ones. A caller that then inserts these
/// links no table.
fn reserves_ahead(
    rt: &impl Abort,
    alloc: Global,
    core: &mut Numbers,
    (keys, more): (u64, usize),
) -> Result<(), Fail> {
    let end = keys.wrapping_add(more as u64);
    stores(rt, alloc, core, (0, keys))?;
    makes_room(rt, alloc, core, more)?;
    stores_in_place(rt, alloc, core, (keys, end))?;
    holds(rt, alloc, core, more, (0, end))
}

#[test]
fn room_is_made_ahead(rt: HostRuntime) -> Result<(), Fail> {
    for mode in MODES {
        for (capacity, keys, more) in [(0, 0, 0), (0, 0, 12), (6, 8, 4), (6, 8, 8), (10, 5, 12)] {
            let mut core = Core::new(rt.alloc(), mode, capacity, 1, APART)?;
            reserves_ahead(&rt, rt.alloc(), &mut core, (keys, more))?;
        }
    }
    Ok(())
}

/// Checks that a new map too refuses more room than a table may have, and has nothing to copy.
fn has_no_table(rt: &impl Abort, alloc: Global, core: &mut Numbers) -> Result<(), Fail> {
    let refused = Reply::Refused(Refused::Capacity);
    replies(rt, alloc, core, (5, 2), Call::Reserve(1 << 61), refused)?;
    replies(rt, alloc, core, (6, 2), Call::CopyAll, Reply::Done)
}

/// Stops the insertion of a key once it has made an exchange of this kind.
fn stops_at(
    alloc: Global,
    core: &mut Numbers,
    caller: usize,
    key: u64,
    kind: StepKind,
) -> Result<bool, Fail> {
    let _ = begin(alloc, core, caller, Call::Insert(key, value(key)), 0)?;
    for _ in 0..STEPS_OF_GROWTH {
        let trace = core.run(vec![in alloc; Turn::Step(caller, false)]?)?;
        if times(&trace, kind) > 0 {
            return Ok(core.running(caller));
        }
    }
    Ok(false)
}

/// Returns how many pairs were marked in a trace, and how many chunks were recorded as copied.
fn copied(trace: &Trace) -> (usize, usize) {
    (
        times(trace, StepKind::Mark),
        times(trace, StepKind::Advance),
    )
}

/// Returns the same for a caller that inserts a key.
fn copied_by(alloc: Global, core: &mut Numbers, caller: usize) -> Result<(usize, usize), Fail> {
    let key = KEYS.wrapping_add(1);
    let trace = begin(alloc, core, caller, Call::Insert(key, value(key)), WHOLE)?;
    Ok(copied(&trace))
}

/// Returns the same for caller 1, which continues.
fn copied_then(alloc: Global, core: &mut Numbers) -> Result<(usize, usize), Fail> {
    let trace = go_on(alloc, core, 1)?;
    Ok(copied(&trace))
}

/// Stops caller 1 when it has marked the pair of its chunk, while another caller copies a chunk.
/// The other marks `marked` pairs: none if its number selects the chunk of caller 1, which it
/// finishes. Then continues caller 1.
fn copies_beside(
    rt: &impl Abort,
    alloc: Global,
    core: &mut Numbers,
    other: usize,
    marked: usize,
) -> Result<(), Fail> {
    let stopped = stops_at(alloc, core, 1, KEYS, StepKind::Mark)?;
    is_at(rt, other, stopped, true);
    is_at(rt, other, copied_by(alloc, core, other)?, (marked, 1));
    is_at(rt, other, copied_then(alloc, core)?, (0, marked));
    holds(rt, alloc, core, other, (0, KEYS.wrapping_add(2)))
}

/// A table of 8 slots is copied slot by slot, from the chunk that a caller's number selects.
#[test]
fn callers_with_different_numbers_copy_different_chunks(rt: HostRuntime) -> Result<(), Fail> {
    for (other, marked) in [(0, 1), (2, 1), (7, 1), (8, 1), (9, 0), (17, 0)] {
        let mut core = Core::new(rt.alloc(), ResizeMode::Incremental(1), 6, 1, APART)?;
        stores(&rt, rt.alloc(), &mut core, (0, KEYS))?;
        copies_beside(&rt, rt.alloc(), &mut core, other, marked)?;
    }
    Ok(())
}

/// How many keys fill a table of 32 slots if they share a probe sequence.
const CROWD: usize = 26;

/// Stops a caller that inserts its number as a key as soon as caller 30 finds that key: before the
/// caller counts it.
fn stops_once_found(alloc: Global, core: &mut Numbers, caller: usize) -> Result<bool, Fail> {
    let key = caller as u64;
    let _ = begin(alloc, core, caller, Call::Insert(key, value(key)), 0)?;
    for _ in 0..STEPS_OF_GROWTH {
        let _ = core.run(vec![in alloc; Turn::Step(caller, false)]?)?;
        let looked = begin(alloc, core, 30, Call::Get(key), WHOLE)?;
        if by_value(core, reply_to(&looked, 30)) == Some(Reply::Found(value(key))) {
            return Ok(core.running(caller));
        }
    }
    Ok(false)
}

/// Lets caller 26 insert a key. The table that it makes has 16 slots and is given up, and one of 32
/// takes everything.
fn gives_up_a_table(rt: &impl Abort, alloc: Global, core: &mut Numbers) -> Result<(), Fail> {
    let key = CROWD as u64;
    let trace = begin(alloc, core, CROWD, Call::Insert(key, value(key)), WHOLE)?;
    let reply = by_value(core, reply_to(&trace, CROWD));
    is(rt, reply, Some(Reply::Inserted(value(key))));
    for (kind, wanted) in [
        (StepKind::Link, 2),
        (StepKind::Place, 16 + CROWD),
        (StepKind::Abort, 1),
        (StepKind::Promote, 1),
    ] {
        is_at(rt, wanted, times(&trace, kind), wanted);
    }
    Ok(())
}

/// Fills a table of 32 slots by callers 0 to 25, which stop for good, with the count at 0.
fn crowd(rt: &impl Abort, alloc: Global, core: &mut Numbers) -> Result<(), Fail> {
    has_no_table(rt, alloc, core)?;
    for caller in 0..CROWD {
        is_at(rt, caller, stops_once_found(alloc, core, caller)?, true);
    }
    gives_up_a_table(rt, alloc, core)?;
    holds(rt, alloc, core, 27, (0, 27))
}

/// So the next table is too short.
#[test]
fn table_made_by_a_count_that_lags_is_given_up(rt: HostRuntime) -> Result<(), Fail> {
    let mut core = Core::new(rt.alloc(), ResizeMode::Blocking, 0, 1, TOGETHER)?;
    crowd(&rt, rt.alloc(), &mut core)
}
