// Each step of a call runs out of memory once, also in the midst of a copy. If that step makes a
// key, a value, an entry or a table, the call fails with `Memory` and no entry is lost. Then there
// is memory, and the call is made. Each outcome is that of a plain map.
use crate::expect::is_at;
use crate::plain::WHOLE;
use crate::plans::{Plan, Says, at_key};
use crate::stopped::{COPIED, FULL, Ruled, Said, Start, begun, found, heard, said_by, told_of};
use papaya_call::call::Reply;
use papaya_core_timeline::outcome::Outcome;
use papaya_testing::times::{APART, TOGETHER, Times};
use papaya_words::refused::Refused;
use papaya_words::resize_mode::ResizeMode;
use std::alloc::Global;
use std::process::Abort;
use std::test::Fail;

type Numbers = Ruled<Times>;

/// More requests for memory than any call makes.
const MOST: usize = 20;

/// A full table of 64 slots, whose keys share a path. The next one has too few places on it.
const CROWDED: Start = Start {
    capacity: 0,
    stored: 64,
    left: 64,
};

/// A table is being copied to one that has too few places for its keys, which share a path.
const CROWDED_AND_COPIED: Start = Start {
    capacity: 0,
    stored: 40,
    left: 40,
};

/// A map, and whether an insertion into it failed in the midst of its copy.
type Map = (ResizeMode, Times, Start, bool);

/// Runs a caller to its end; from the step with this number on no step has memory. Returns the
/// outcome of its call, and the number of its last step.
fn ends_without(core: &mut Numbers, caller: usize, from: usize) -> (Option<Outcome>, usize) {
    for step in 0..WHOLE {
        if !core.running(caller) {
            return (None, step);
        }
        if let Some(outcome) = core.step(caller, from <= step) {
            return (Some(outcome), step);
        }
    }
    (None, WHOLE)
}

/// Runs a call of a caller like this.
fn makes_without(
    core: &mut Numbers,
    caller: usize,
    plan: Plan,
    from: usize,
) -> Result<(Option<Outcome>, usize), Fail> {
    if !core.running(caller) {
        core.begin(caller, plan.call())?;
    }
    Ok(ends_without(core, caller, from))
}

/// Makes the map. The first request of an insertion is for a table: with that one alone it fails
/// when it has copied some entries and needs another.
fn made(alloc: Global, (mode, hasher, start, is_refused): Map) -> Result<Numbers, Fail> {
    let mut core = begun(alloc, mode, hasher, start)?;
    if is_refused {
        let insertion = Plan::Insert(start.stored, 0);
        let (_, first) = makes_without(&mut core, 3, insertion, 0)?;
        let _ = makes_without(&mut core, 3, insertion, first.wrapping_add(1))?;
    }
    Ok(core)
}

/// Returns whether a key has what it had after a call that failed, or what such a call leaves that
/// takes out entries one by one.
fn is_kept(
    rt: &impl Abort,
    core: &mut Numbers,
    case: usize,
    (plan, key): (Plan, u64),
    held: Option<u64>,
) -> Result<Option<u64>, Fail> {
    let then = found(core, key)?;
    let (_, left) = at_key(plan, key, held);
    let wanted = if plan.scans() && then == left {
        left
    } else {
        held
    };
    is_at(rt, case, then, wanted);
    Ok(then)
}

/// Returns whether the call reported what it should of each key, and left that there.
fn is_made(
    rt: &impl Abort,
    core: &mut Numbers,
    case: usize,
    (plan, said): (Plan, &Said),
    held: &[Option<u64>],
) -> Result<(), Fail> {
    for (key, held) in held.iter().enumerate() {
        let key = key as u64;
        let told = (told_of(key, plan, said), found(core, key)?);
        is_at(rt, case, told, at_key(plan, key, *held));
    }
    Ok(())
}

/// Checks that no entry is lost after a refusal, and that the call is made once there is memory.
fn goes_on(
    rt: &impl Abort,
    alloc: Global,
    core: &mut Numbers,
    case: usize,
    start: Start,
    plan: Plan,
) -> Result<(), Fail> {
    let mut held = Vec::new(alloc);
    for key in 0..start.stored.wrapping_add(1) {
        held.push(is_kept(rt, core, case, (plan, key), start.held(key))?)?;
    }
    let said = said_by(alloc, core, 1, plan)?;
    is_made(rt, core, case, (plan, &said), &held)
}

/// Runs a call without memory from a step on. Returns the step at which it failed, if it did.
fn one_refusal(
    rt: &impl Abort,
    alloc: Global,
    (case, from): (usize, usize),
    map: Map,
    plan: Plan,
) -> Result<Option<usize>, Fail> {
    let start = map.2;
    let mut core = made(alloc, map)?;
    let (outcome, last) = makes_without(&mut core, 0, plan, from)?;
    if outcome == Some(Outcome::Replied(Reply::Refused(Refused::Memory))) {
        goes_on(rt, alloc, &mut core, case, start, plan)?;
        return Ok(Some(last));
    }
    let said = heard(alloc, &core, outcome)?;
    let mut held = Vec::new(alloc);
    for key in 0..start.stored.wrapping_add(1) {
        held.push(start.held(key))?;
    }
    is_made(rt, &mut core, case, (plan, &said), &held)?;
    Ok(None)
}

/// Refuses each request of a call in turn. Returns how many there are.
fn refusals(
    rt: &impl Abort,
    alloc: Global,
    case: usize,
    map: Map,
    plan: Plan,
) -> Result<usize, Fail> {
    let mut from = 0usize;
    for refused in 0..MOST {
        match one_refusal(rt, alloc, (case, from), map, plan)? {
            Some(last) => from = last.wrapping_add(1),
            None => return Ok(refused),
        }
    }
    Ok(MOST)
}

/// Does so with each call on a map: an insertion of a new key that never replaces, and of one that
/// is there, a removal that keeps the entry, a retain, and the end of a resize.
fn refusals_of_each(
    rt: &impl Abort,
    alloc: Global,
    at: usize,
    map: Map,
) -> Result<Vec<usize>, Fail> {
    let plans = [
        Plan::TryInsert(map.2.stored, 20),
        Plan::TryInsert(0, 20),
        Plan::RemoveIf(0, Says::Leave),
        Plan::Retain(Says::Even),
        Plan::CopyAll,
    ];
    let mut counts = Vec::new(alloc);
    for plan in plans {
        counts.push(refusals(rt, alloc, at, map, plan)?)?;
    }
    Ok(counts)
}

/// The maps, and how many requests each of those calls makes there. An insertion makes its key, its
/// value and its entry. A call makes each table that it needs.
const MAPS: [(Map, [usize; 5]); 6] = [
    (
        (ResizeMode::Incremental(1), APART, FULL, false),
        [4, 0, 0, 0, 0],
    ),
    ((ResizeMode::Blocking, APART, FULL, false), [4, 0, 0, 0, 0]),
    (
        (ResizeMode::Incremental(1), APART, COPIED, false),
        [3, 0, 0, 0, 0],
    ),
    (
        (
            ResizeMode::Incremental(1),
            TOGETHER,
            CROWDED_AND_COPIED,
            false,
        ),
        [3, 0, 0, 1, 1],
    ),
    (
        (ResizeMode::Blocking, TOGETHER, CROWDED, false),
        [5, 0, 0, 0, 0],
    ),
    (
        (ResizeMode::Blocking, TOGETHER, CROWDED, true),
        [4, 1, 1, 1, 1],
    ),
];

#[test]
fn steps_without_memory(rt: HostRuntime) -> Result<(), Fail> {
    for (at, (map, wanted)) in MAPS.iter().enumerate() {
        let counts = refusals_of_each(&rt, rt.alloc(), at, *map)?;
        is_at(&rt, at, counts.as_slice(), wanted.as_slice());
    }
    Ok(())
}
