// A call that stores a value where a key is found keeps the stored key. The keys here are equal if
// their numbers are, and a label shows which of them is stored.
use crate::expect::{is, is_at};
use crate::plain::{MODES, WHOLE};
use papaya_call::answers::{Listed, Operation};
use papaya_call::call::{Call, Reply};
use papaya_core::schedule::Core;
use papaya_core_timeline::outcome::Outcome;
use papaya_testing::labels::{Labelled, seven};
use papaya_testing::times::{APART, TOGETHER, Times};
use papaya_words::resize_mode::ResizeMode;
use std::alloc::Global;
use std::process::Abort;
use std::test::Fail;

type Labels = Core<Labelled, u64, Times, Listed<u64>>;

/// A call on key 7. It stores this value, and its own key has this label.
#[derive(Clone, Copy)]
enum Step {
    Insert(char, u64),
    TryInsert(char, u64),
    /// A compute that stores the value, whatever is there.
    Compute(char, u64),
    Remove(char),
    Get(char),
}

impl Step {
    fn call(self, alloc: Global) -> Result<Call<Labelled, u64, Listed<u64>>, Fail> {
        Ok(match self {
            Step::Insert(label, value) => Call::Insert(seven(label), value),
            Step::TryInsert(label, value) => Call::TryInsert(seven(label), value),
            Step::Compute(label, value) => {
                let ops = vec![in alloc; Operation::Insert(value), Operation::Insert(value)]?;
                let yes = Vec::new(alloc);
                Call::Compute(seven(label), Listed { ops, yes })
            }
            Step::Remove(label) => {
                let yes = vec![in alloc; true, true]?;
                let ops = Vec::new(alloc);
                Call::RemoveIf(seven(label), Listed { ops, yes })
            }
            Step::Get(label) => Call::Get(seven(label)),
        })
    }

    /// Returns the label of the key that is passed in.
    fn label(self) -> char {
        match self {
            Step::Insert(label, _)
            | Step::TryInsert(label, _)
            | Step::Compute(label, _)
            | Step::Remove(label)
            | Step::Get(label) => label,
        }
    }
}

/// A pair, as its label and its value.
type Shown = (char, u64);

/// The result of a call.
#[derive(Clone, Copy, Debug, PartialEq)]
enum Came {
    Absent,
    Found(Shown),
    Inserted(Shown),
    Replaced(Shown, Shown),
    Removed(Shown),
    Otherwise,
}

fn shown(core: &Labels, number: u64) -> Option<Shown> {
    let (key, value) = core.pair(number)?;
    Some((key.label, *value))
}

fn came_to(core: &Labels, outcome: Option<Outcome>) -> Option<Came> {
    Some(match outcome? {
        Outcome::Replied(Reply::Absent) => Came::Absent,
        Outcome::Replied(Reply::Found(pair) | Reply::Occupied(pair)) => {
            Came::Found(shown(core, pair)?)
        }
        Outcome::Replied(Reply::Inserted(pair)) => Came::Inserted(shown(core, pair)?),
        Outcome::Replied(Reply::Replaced { old, new }) => {
            Came::Replaced(shown(core, old)?, shown(core, new)?)
        }
        Outcome::Replied(Reply::Removed(pair)) => Came::Removed(shown(core, pair)?),
        _ => Came::Otherwise,
    })
}

/// Makes at most `most` steps of a caller's call.
fn goes_on(core: &mut Labels, caller: usize, most: usize) -> Option<Outcome> {
    for _ in 0..most {
        if !core.running(caller) {
            return None;
        }
        if let Some(outcome) = core.step(caller, false) {
            return Some(outcome);
        }
    }
    None
}

/// Begins a call of a caller, unless it is in one, and makes at most `most` steps of it.
fn makes(
    alloc: Global,
    core: &mut Labels,
    caller: usize,
    step: Step,
    most: usize,
) -> Result<Option<Outcome>, Fail> {
    if !core.running(caller) {
        core.begin(caller, step.call(alloc)?)?;
    }
    Ok(goes_on(core, caller, most))
}

/// Makes each of these calls whole, and checks its result.
fn come_to(
    rt: &impl Abort,
    alloc: Global,
    core: &mut Labels,
    steps: &[(Step, Came)],
) -> Result<(), Fail> {
    for (case, (step, wanted)) in steps.iter().enumerate() {
        let outcome = makes(alloc, core, 1, *step, WHOLE)?;
        is_at(rt, case, came_to(core, outcome), Some(*wanted));
    }
    Ok(())
}

/// Creates a map for 6 pairs.
fn map_of(alloc: Global, mode: ResizeMode, hasher: Times) -> Result<Labels, Fail> {
    Ok(Core::new(alloc, mode, 6, 16, hasher)?)
}

#[test]
fn stored_key_stays(rt: HostRuntime) -> Result<(), Fail> {
    for mode in MODES {
        let mut core = map_of(rt.alloc(), mode, APART)?;
        come_to(
            &rt,
            rt.alloc(),
            &mut core,
            &[
                (Step::Insert('x', 1), Came::Inserted(('x', 1))),
                (Step::Insert('y', 2), Came::Replaced(('x', 1), ('x', 2))),
                (Step::Get('z'), Came::Found(('x', 2))),
                (Step::Compute('y', 3), Came::Replaced(('x', 2), ('x', 3))),
                (Step::TryInsert('y', 4), Came::Found(('x', 3))),
                (Step::Remove('y'), Came::Removed(('x', 3))),
                (Step::Insert('y', 3), Came::Inserted(('y', 3))),
                (Step::Get('x'), Came::Found(('y', 3))),
            ],
        )?;
    }
    Ok(())
}

/// Returns whether a call with this label stored the right key. If the key was absent it is the
/// call's, and otherwise that of the pair that was replaced.
fn keeps(label: char, came: Came) -> bool {
    match came {
        Came::Inserted((own, _)) => own == label,
        Came::Replaced((old, _), (new, _)) => old == new,
        _ => false,
    }
}

/// Stops the first call after `steps` steps, makes the others whole, and continues the first.
/// Returns whether it ended before it was stopped.
fn stopped(
    rt: &impl Abort,
    alloc: Global,
    core: &mut Labels,
    (first, steps): (Step, usize),
    others: &[Step],
) -> Result<bool, Fail> {
    let _ = makes(alloc, core, 1, Step::Insert('x', 1), WHOLE)?;
    let early = makes(alloc, core, 0, first, steps)?;
    for other in others {
        let outcome = makes(alloc, core, 1, *other, WHOLE)?;
        let is_kept = match came_to(core, outcome) {
            Some(Came::Removed(_)) => true,
            Some(came) => keeps(other.label(), came),
            None => false,
        };
        is_at(rt, steps, is_kept, true);
    }
    let is_over = early.is_some();
    let late = goes_on(core, 0, WHOLE);
    let is_kept = match came_to(core, early.or(late)) {
        Some(came) => keeps(first.label(), came),
        None => false,
    };
    is_at(rt, steps, is_kept, true);
    Ok(is_over)
}

/// Stops the first call after each number of its steps.
fn each_stop(
    rt: &impl Abort,
    alloc: Global,
    how: (ResizeMode, Times),
    first: Step,
    others: &[Step],
) -> Result<(), Fail> {
    let mut is_over = false;
    for steps in 0..40 {
        if !is_over {
            let mut core = map_of(alloc, how.0, how.1)?;
            is_over = stopped(rt, alloc, &mut core, (first, steps), others)?;
        }
    }
    is(rt, is_over, true);
    Ok(())
}

/// A call that is to replace a pair. Meanwhile the pair is removed, or removed and inserted again
/// with another label, or replaced.
#[test]
fn stored_key_stays_beside_other_calls(rt: HostRuntime) -> Result<(), Fail> {
    for first in [Step::Insert('y', 2), Step::Compute('y', 2)] {
        for others in [
            [Step::Remove('z'), Step::Insert('z', 3)],
            [Step::Insert('z', 3), Step::Remove('z')],
            [Step::Insert('z', 3), Step::Compute('w', 4)],
        ] {
            for mode in MODES {
                each_stop(&rt, rt.alloc(), (mode, APART), first, &others)?;
                each_stop(&rt, rt.alloc(), (mode, TOGETHER), first, &others)?;
            }
        }
    }
    Ok(())
}
