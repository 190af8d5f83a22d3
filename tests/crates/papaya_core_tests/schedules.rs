// The results of two calls on one key. The first is stopped after each of its steps, while the
// second is made whole.
use crate::expect::{is, is_at};
use crate::plain::{
    Asked, MODES, Numbers, WHOLE, answers_in, begin, by_value, compute, go_on, removal, replies,
    reply_to, times, value_of,
};
use papaya_call::answers::Operation;
use papaya_call::ask::StepKind;
use papaya_call::call::{Call, Reply};
use papaya_core::schedule::Core;
use papaya_core_timeline::trace::{Event, Trace, Turn};
use papaya_testing::times::APART;
use papaya_words::refused::Refused;
use papaya_words::resize_mode::ResizeMode;
use std::alloc::Global;
use std::process::Abort;
use std::test::Fail;

/// The steps of an insertion into a new map. It loads the root, makes a table and opens it, and
/// learns its size. It loads a hint and its slot, makes the key, the value and the pair, claims the
/// slot, counts, and writes the hint.
const STEPS_OF_INSERT: usize = 12;

/// The steps of a removal of a pair that the map has, if its closure agrees at once. It loads the
/// root, learns its size, loads the hint and the slot, compares the key, calls the closure, deletes
/// the pair, and counts.
const STEPS_OF_REMOVAL: usize = 8;

/// The steps of a compute of a pair that the map has, whose closure returns an insertion. It loads
/// the root, learns its size, loads the hint and the slot, compares the key, and calls the closure.
/// It makes the value and the new pair of the old one's key, and replaces the old one.
const STEPS_OF_UPDATE: usize = 9;

/// The steps of a compute in a new map, whose closure returns an insertion. It loads the root and
/// calls the closure. It makes the key, the value, the pair and a table, opens that, and learns its
/// size. It loads a hint and its slot, claims that, counts, and writes the hint.
const STEPS_OF_FILL: usize = 13;

/// The replies to callers 0 and 1, and to a lookup of 7 afterwards.
type Replies = (Reply, Reply, Reply);

/// Creates a map that has at most this key, with the value 1.
fn map_of(alloc: Global, mode: ResizeMode, held: Option<u64>) -> Result<Numbers, Fail> {
    let mut core = Core::new(alloc, mode, 0, 16, APART)?;
    if let Some(key) = held {
        let _ = begin(alloc, &mut core, 3, Call::Insert(key, 1), WHOLE)?;
    }
    Ok(core)
}

/// Returns how often the closure of caller 0 was called without a pair.
fn nones_shown(trace: &Trace) -> usize {
    let mut nones = 0usize;
    for entry in &trace.entries {
        if let Event::Shown(None, _) = entry.event {
            if entry.caller == 0 {
                nones = nones.wrapping_add(1);
            }
        }
    }
    nones
}

/// Checks the values in the replies of a trace and of a lookup.
fn comes_to(
    rt: &impl Abort,
    alloc: Global,
    core: &mut Numbers,
    steps: usize,
    trace: &Trace,
    (own, other, found): Replies,
) -> Result<(), Fail> {
    is_at(rt, steps, by_value(core, reply_to(trace, 0)), Some(own));
    is_at(rt, steps, by_value(core, reply_to(trace, 1)), Some(other));
    replies(rt, alloc, core, (steps, 2), Call::Get(7), found)
}

/// Stops caller 0 after `steps` steps of a call, makes caller 1's call whole, and continues caller
/// 0.
fn stopped(
    alloc: Global,
    core: &mut Numbers,
    call: Asked,
    steps: usize,
    other: Asked,
) -> Result<Trace, Fail> {
    let turns = vec![in alloc;
        Turn::Begin(0, call),
        Turn::Finish(0, steps),
        Turn::Begin(1, other),
        Turn::Finish(1, WHOLE),
        Turn::Finish(0, WHOLE),
    ]?;
    Ok(core.run(turns)?)
}

/// Returns the replies of two insertions that never replace, the first stopped after `steps` steps.
fn kept_at(steps: usize) -> Replies {
    // Caller 0 claims the slot in its tenth step, and its pair is found before it has a hint.
    if steps < 10 {
        (
            Reply::Occupied(200),
            Reply::Inserted(200),
            Reply::Found(200),
        )
    } else {
        (
            Reply::Inserted(100),
            Reply::Occupied(100),
            Reply::Found(100),
        )
    }
}

/// Returns the values of the first two pairs in that case.
fn made_at(steps: usize) -> (Option<u64>, Option<u64>) {
    // Caller 0 loads the slot in its sixth step, and makes its pair in its ninth. If the slot is
    // taken, it makes no pair.
    match steps {
        0..6 => (Some(200), None),
        6..9 => (Some(200), Some(100)),
        9 => (Some(100), Some(200)),
        _ => (Some(100), None),
    }
}

/// Checks that neither insertion replaces, one pair is stored, and one table is opened.
fn keeps_one(rt: &impl Abort, alloc: Global, core: &mut Numbers, steps: usize) -> Result<(), Fail> {
    let (call, other) = (Call::TryInsert(7, 100), Call::TryInsert(7, 200));
    let trace = stopped(alloc, core, call, steps, other)?;
    is_at(rt, steps, times(&trace, StepKind::Open), 1);
    is_at(
        rt,
        steps,
        (value_of(core, 0), value_of(core, 1)),
        made_at(steps),
    );
    comes_to(rt, alloc, core, steps, &trace, kept_at(steps))
}

/// Returns the replies of a removal that is stopped then, while its pair is replaced.
fn removed_or_kept_at(steps: usize) -> Replies {
    let replaced = Reply::Replaced { old: 1, new: 2 };
    // The removal loads the slot in its fourth step, and deletes the pair in its seventh. If
    // another pair comes between, its closure is called with that one too, and keeps it.
    match steps {
        0..4 => (Reply::Removed(2), replaced, Reply::Absent),
        4..7 => (Reply::Kept(2), replaced, Reply::Found(2)),
        _ => (Reply::Removed(1), Reply::Inserted(2), Reply::Found(2)),
    }
}

/// Checks a removal whose pair is replaced meanwhile.
fn removes_or_keeps(
    rt: &impl Abort,
    alloc: Global,
    core: &mut Numbers,
    steps: usize,
) -> Result<(), Fail> {
    let call = removal(alloc, 7, true)?;
    let trace = stopped(alloc, core, call, steps, Call::Insert(7, 2))?;
    // The closure is called with each pair that is there.
    let asked = answers_in(alloc, &trace)?;
    let wanted = match steps {
        0..4 => vec![in alloc; (1, true)]?,
        4..7 => vec![in alloc; (0, true), (1, false)]?,
        _ => vec![in alloc; (0, true)]?,
    };
    is_at(rt, steps, asked, wanted);
    let replies = removed_or_kept_at(steps);
    comes_to(rt, alloc, core, steps, &trace, replies)
}

/// Returns the replies of a compute that is stopped then, while another value is stored.
fn shown_at(steps: usize) -> Replies {
    let replaced = Reply::Replaced { old: 1, new: 2 };
    // The compute loads the slot in its fourth step, and replaces the pair in its ninth. If 2 comes
    // between, its closure is called first with 1 and then with 2, which it removes.
    match steps {
        0..4 => (
            Reply::Replaced { old: 2, new: 10 },
            replaced,
            Reply::Found(10),
        ),
        4..9 => (Reply::Removed(2), replaced, Reply::Absent),
        _ => (
            Reply::Replaced { old: 1, new: 10 },
            Reply::Replaced { old: 10, new: 2 },
            Reply::Found(2),
        ),
    }
}

/// Checks a compute that stores 10, and then removes the pair with which it is called.
fn is_shown(rt: &impl Abort, alloc: Global, core: &mut Numbers, steps: usize) -> Result<(), Fail> {
    let ops = vec![in alloc; Operation::Insert(10), Operation::Remove]?;
    let call = compute(alloc, ops);
    let trace = stopped(alloc, core, call, steps, Call::Insert(7, 2))?;
    is_at(rt, steps, nones_shown(&trace), 0);
    comes_to(rt, alloc, core, steps, &trace, shown_at(steps))
}

/// Returns the replies of a compute that is stopped then, while a pair comes and goes.
fn filled_at(steps: usize) -> Replies {
    // The compute claims a slot in its eleventh step. If 1 comes and goes before, its closure is
    // called without a pair only once, before or after that.
    let found = if steps < 11 {
        Reply::Found(10)
    } else {
        Reply::Absent
    };
    (Reply::Inserted(10), Reply::Removed(1), found)
}

/// Stops caller 0 after `steps` steps of a compute of key 7, which stores 10. Meanwhile caller 1
/// stores 1 and removes it.
fn stopped_fill(alloc: Global, core: &mut Numbers, steps: usize) -> Result<Trace, Fail> {
    let ops = vec![in alloc; Operation::Insert(10)]?;
    let turns = vec![in alloc;
        Turn::Begin(0, compute(alloc, ops)),
        Turn::Finish(0, steps),
        Turn::Begin(1, Call::Insert(7, 1)),
        Turn::Finish(1, WHOLE),
        Turn::Begin(1, removal(alloc, 7, true)?),
        Turn::Finish(1, WHOLE),
        Turn::Finish(0, WHOLE),
    ]?;
    Ok(core.run(turns)?)
}

fn fills(rt: &impl Abort, alloc: Global, core: &mut Numbers, steps: usize) -> Result<(), Fail> {
    let trace = stopped_fill(alloc, core, steps)?;
    is_at(rt, steps, nones_shown(&trace), 1);
    comes_to(rt, alloc, core, steps, &trace, filled_at(steps))
}

/// Checks a compute of key 7 that changes nothing, beside a lookup of the key that the map has.
fn changes_nothing(
    rt: &impl Abort,
    alloc: Global,
    core: &mut Numbers,
    (steps, held): (usize, u64),
    op: Operation<u64, u64>,
    own: Reply,
) -> Result<(), Fail> {
    let call = compute(alloc, vec![in alloc; op]?);
    let trace = stopped(alloc, core, call, steps, Call::Get(held))?;
    let (nones, found) = if held == 7 {
        (0, Reply::Found(1))
    } else {
        (1, Reply::Absent)
    };
    is_at(rt, steps, nones_shown(&trace), nones);
    let replies = (own, Reply::Found(1), found);
    comes_to(rt, alloc, core, steps, &trace, replies)
}

/// Checks a removal that its closure refuses, beside another one.
fn keeps(rt: &impl Abort, alloc: Global, core: &mut Numbers, steps: usize) -> Result<(), Fail> {
    let other = removal(alloc, 7, false)?;
    let trace = stopped(alloc, core, removal(alloc, 7, false)?, steps, other)?;
    let replies = (Reply::Kept(1), Reply::Kept(1), Reply::Found(1));
    comes_to(rt, alloc, core, steps, &trace, replies)
}

/// The cases of a map that has one key or none.
#[derive(Clone, Copy)]
enum Case {
    KeepsOne,
    Keeps,
    RemovesOrKeeps,
    IsShown,
    Fills,
    RemovesNothing,
    AbortsWhereNone,
    AbortsWhereOne,
}

/// Returns the key that the map has, and one step more than the stopped call makes.
fn parts_of(case: Case) -> (Option<u64>, usize) {
    match case {
        Case::KeepsOne => (None, STEPS_OF_INSERT + 1),
        Case::Fills => (None, STEPS_OF_FILL + 1),
        Case::Keeps | Case::RemovesOrKeeps => (Some(7), STEPS_OF_REMOVAL + 1),
        Case::IsShown | Case::AbortsWhereOne => (Some(7), STEPS_OF_UPDATE + 1),
        Case::RemovesNothing | Case::AbortsWhereNone => (Some(8), STEPS_OF_UPDATE + 1),
    }
}

fn one_stop(
    rt: &impl Abort,
    alloc: Global,
    core: &mut Numbers,
    case: Case,
    steps: usize,
) -> Result<(), Fail> {
    match case {
        Case::KeepsOne => keeps_one(rt, alloc, core, steps),
        Case::Keeps => keeps(rt, alloc, core, steps),
        Case::RemovesOrKeeps => removes_or_keeps(rt, alloc, core, steps),
        Case::IsShown => is_shown(rt, alloc, core, steps),
        Case::Fills => fills(rt, alloc, core, steps),
        Case::RemovesNothing => {
            let refused = Reply::Refused(Refused::RemoveNothing);
            changes_nothing(rt, alloc, core, (steps, 8), Operation::Remove, refused)
        }
        Case::AbortsWhereNone => {
            let aborted = Reply::Aborted(3);
            changes_nothing(rt, alloc, core, (steps, 8), Operation::Abort(3), aborted)
        }
        Case::AbortsWhereOne => {
            let aborted = Reply::Aborted(4);
            changes_nothing(rt, alloc, core, (steps, 7), Operation::Abort(4), aborted)
        }
    }
}

fn each_stop(rt: &impl Abort, alloc: Global, mode: ResizeMode, case: Case) -> Result<(), Fail> {
    let (held, end) = parts_of(case);
    for steps in 0..end {
        let mut core = map_of(alloc, mode, held)?;
        one_stop(rt, alloc, &mut core, case, steps)?;
    }
    Ok(())
}

#[test]
fn calls_that_are_stopped_beside_others(rt: HostRuntime) -> Result<(), Fail> {
    for case in [
        Case::KeepsOne,
        Case::Keeps,
        Case::RemovesOrKeeps,
        Case::IsShown,
        Case::Fills,
        Case::RemovesNothing,
        Case::AbortsWhereNone,
        Case::AbortsWhereOne,
    ] {
        for mode in MODES {
            each_stop(&rt, rt.alloc(), mode, case)?;
        }
    }
    Ok(())
}

/// Returns how many entries an insertion has that stops after three steps, and then continues. A
/// caller's number only names it.
fn entries_of_parts(alloc: Global, core: &mut Numbers) -> Result<(usize, usize), Fail> {
    let first = begin(alloc, core, usize::MAX, Call::Insert(7, 100), 3)?
        .entries
        .len();
    let last = go_on(alloc, core, usize::MAX)?.entries.len();
    Ok((first, last))
}

#[test]
fn finish_ends_with_the_reply_or_its_steps(rt: HostRuntime) -> Result<(), Fail> {
    let mut core: Numbers = Core::new(rt.alloc(), ResizeMode::Blocking, 10, 16, APART)?;
    // A begin and three steps; then the steps that are left and the reply, without making and
    // opening a table.
    let wanted = (1 + 3, STEPS_OF_INSERT - 2 - 3 + 1);
    is(&rt, entries_of_parts(rt.alloc(), &mut core)?, wanted);
    Ok(())
}
