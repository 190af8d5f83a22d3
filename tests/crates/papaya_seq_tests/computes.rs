// Computes that change nothing, that return numbers, and that write their abort value.
use crate::expect::is;
use crate::numbers::{Fold, Making, Usual, Work, finds, on_usual};
use papaya_call::answers::Operation;
use papaya_words::refused::Refused;
use papaya_words_keys::results::{Compute, Computed};
use std::alloc::Global;
use std::process::Abort;
use std::test::Fail;

/// Checks that a compute of an absent key removes nothing, and aborts.
fn changes_nothing(rt: &impl Abort, map: &mut Usual) {
    let removed: Result<Compute<'_, u64, u64, ()>, Refused> = map.compute(1, |_| Operation::Remove);
    is(rt, removed, Err(Refused::RemoveNothing));
    let aborted = map.compute(1, |_| Operation::Abort(7u64));
    is(rt, aborted, Ok(Compute::Aborted(7)));
    is(rt, map.slots(), 0);
}

/// Checks the result, by numbers, of a compute that inserts for key 1.
fn computes(rt: &impl Abort, map: &mut Usual, value: u64, wanted: Computed<u64, ()>) {
    let computed = map.compute_numbered(1, |_| Operation::Insert(value));
    is(rt, computed, Ok(wanted));
}

/// Checks the numbers of pairs in results.
fn tells_numbers(rt: &impl Abort, map: &mut Usual) {
    computes(rt, map, 5, Computed::Inserted(0));
    computes(rt, map, 6, Computed::Updated { old: 0, new: 1 });
    is(rt, map.pair(0), Some((&1, &5)));
    is(rt, map.pair(1), Some((&1, &6)));
}

/// Checks that an insertion writes nothing, and an abort its value.
fn leaves_its_abort(rt: &impl Abort, map: &mut Usual) {
    let mut left = None;
    let inserted = map.compute_into(1, |_| Operation::Insert(5), &mut left);
    is(rt, inserted, Ok(Compute::Inserted(&1, &5)));
    is(rt, left, None);
    let aborted = map.compute_into(1, |_| Operation::Abort(7u64), &mut left);
    is(rt, aborted, Ok(Compute::Aborted(())));
    is(rt, left, Some(7));
    finds(rt, map, 1, Some(&5));
}

/// The cases of a new map.
#[derive(Clone, Copy)]
enum Case {
    ChangesNothing,
    TellsNumbers,
    LeavesItsAbort,
}

impl Work<Fold> for Case {
    fn is_done<R: Abort>(self, rt: &R, _alloc: Global, map: &mut Usual) -> Result<(), Fail> {
        match self {
            Case::ChangesNothing => changes_nothing(rt, map),
            Case::TellsNumbers => tells_numbers(rt, map),
            Case::LeavesItsAbort => leaves_its_abort(rt, map),
        }
        Ok(())
    }
}

#[test]
fn computes_of_new_maps(rt: HostRuntime) -> Result<(), Fail> {
    for case in [
        Case::ChangesNothing,
        Case::TellsNumbers,
        Case::LeavesItsAbort,
    ] {
        on_usual(&rt, rt.alloc(), Making::New, case)?;
    }
    Ok(())
}
