// The cases on sets that threads share, by their calls with a guard: of the set's collector, or of
// another one. If both collectors have the same number, the calls work as usual. Otherwise each
// fails and changes nothing.
use crate::answers::Answer;
use crate::answers::Answer::{Is, Number, Walked};
use crate::expect::{MODES, is};
use crate::key_steps::Calls;
use crate::key_steps::Step::{
    Clear, Contains, Get, Insert, Len, Remove, Reserve, RetainFrom, Walk,
};
use crate::sets::{CASES, Case, goes};
use crate::shared_sets::Shared;
use papaya_set::set::HashSet;
use papaya_testing::same::{FIRST, Same};
use papaya_words::refused::Refused;
use papaya_words_keys::guard::{Collector, Guard};
use std::process::Abort;
use std::sync::Wait;
use std::test::Fail;

type Keys = HashSet<u64, Same>;

/// A set that threads share, a guard for its calls, and the runtime.
#[derive(Drop)]
struct Guarded<'r, 's, R, G> {
    rt: &'r R,
    set: &'s Keys,
    guard: &'s G,
}

impl<R: Wait, G: Guard> Calls for Guarded<'_, '_, R, G> {
    fn insert_one(&mut self, key: u64) -> Result<bool, Refused> {
        self.set.insert(self.rt, key, self.guard)
    }

    fn remove_one(&mut self, key: u64) -> Result<bool, Refused> {
        self.set.remove(self.rt, &key, self.guard)
    }

    fn contains_one(&self, key: u64) -> Result<bool, Refused> {
        self.set.contains(&key, self.guard)
    }

    fn get_one(&self, key: u64) -> Result<Option<u64>, Refused> {
        Ok(self.set.get(&key, self.guard)?.copied())
    }

    fn keys(&self) -> usize {
        self.set.len()
    }

    fn walk(&self) -> Result<(u64, u64), Refused> {
        let (mut keys, mut sum) = (0u64, 0u64);
        for key in self.set.iter(self.rt, self.guard)? {
            keys = keys.wrapping_add(1);
            sum = sum.wrapping_add(*key);
        }
        Ok((keys, sum))
    }

    fn clear_all(&mut self) -> Result<(), Refused> {
        self.set.clear(self.rt, self.guard)
    }

    fn make_room(&mut self, more: usize) -> Result<(), Refused> {
        self.set.reserve(self.rt, more, self.guard)
    }

    fn retain_from(&mut self, least: u64) -> Result<(), Refused> {
        self.set.retain(self.rt, |key| least <= *key, self.guard)
    }

    fn take(&mut self, from: u64, end: u64) -> Result<(), Refused> {
        self.set.extend(self.rt, from..end)
    }

    fn take_lent(&mut self, keys: &[u64]) -> Result<(), Refused> {
        self.set.extend_ref(self.rt, keys)
    }
}

/// The origin of the guards.
#[derive(Clone, Copy)]
enum Holder {
    Set,
    SetOwned,
    /// Another collector of the set's number.
    Other,
    OtherOwned,
}

/// Checks that the calls of a case with a guard have these results.
fn goes_guarded<R: Wait + Abort, G: Guard>(rt: &R, at: usize, case: Case, set: &Keys, guard: &G) {
    is(rt, set.verify(guard), Ok(()));
    goes(rt, at, case, &mut Guarded { rt, set, guard });
}

/// Checks that the calls of a case have these results, with a guard of this holder.
fn held<R: Wait + Abort>(rt: &R, at: usize, case: Case, set: &Keys, holder: Holder) {
    let other = Collector::new(0);
    match holder {
        Holder::Set => goes_guarded(rt, at, case, set, &set.guard()),
        Holder::SetOwned => goes_guarded(rt, at, case, set, &set.owned_guard()),
        Holder::Other => goes_guarded(rt, at, case, set, &other.enter()),
        Holder::OtherOwned => goes_guarded(rt, at, case, set, &other.enter_owned()),
    }
}

#[test]
fn cases_of_sets_with_a_guard(rt: HostRuntime) -> Result<(), Fail> {
    for mode in MODES {
        for holder in [
            Holder::Set,
            Holder::SetOwned,
            Holder::Other,
            Holder::OtherOwned,
        ] {
            for (at, case) in CASES.iter().enumerate() {
                let set = HashSet::with_parts(&rt, rt.alloc(), mode, 0, 4, FIRST, None)?;
                held(&rt, at, case, &set, holder);
            }
        }
    }
    Ok(())
}

/// The result if the guard has another number.
const WRONG: Answer = Answer::Refused(Refused::WrongGuard);

/// Each call fails: it stores, removes, finds and iterates over nothing, and reserves no room.
const REFUSES: Case = &[
    (Insert(1), WRONG),
    (Remove(42), WRONG),
    (Contains(42), WRONG),
    (Get(42), WRONG),
    (Walk, WRONG),
    (Clear, WRONG),
    (RetainFrom(100), WRONG),
    (Reserve(20), WRONG),
];

/// The set has 42, and no other key.
const HAS_ONE: Case = &[
    (Contains(42), Is(true)),
    (Contains(1), Is(false)),
    (Len, Number(1)),
    (Walk, Walked(1, 42, 0)),
];

/// Checks that each call refuses a guard of another number, and the set stays as it was.
fn refuses<R: Wait + Abort, G: Guard>(rt: &R, set: &Keys, guard: &G) {
    is(rt, set.verify(guard), Err(Refused::WrongGuard));
    goes(rt, 0, REFUSES, &mut Guarded { rt, set, guard });
    goes(rt, 1, HAS_ONE, &mut Shared { rt, set });
}

#[test]
fn a_guard_of_another_collector_is_refused_by_sets(rt: HostRuntime) -> Result<(), Fail> {
    let other = Collector::new(7);
    for mode in MODES {
        let set = HashSet::with_parts(&rt, rt.alloc(), mode, 0, 4, FIRST, None)?;
        is(&rt, set.pin().insert(&rt, 42), Ok(true));
        refuses(&rt, &set, &other.enter());
        refuses(&rt, &set, &other.enter_owned());
    }
    Ok(())
}
