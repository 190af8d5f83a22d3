// The key that a lookup returns is the stored one. The keys here are equal if their numbers are, so
// that a label tells which of them was stored.
ghost use Rattle.std.specs.Prelude.{◌≡◌, ◌==◌};
ghost use Rattle.std.proofs.Common.{ap};
ghost use Rattle.std.specs.Cmp.{nat_eq_equiv, on_equiv, partial_equiv_from_equiv, unsigned_Decides};
ghost use Rattle.std.specs.Hash as fed;

use crate::answers::Answer::{Absent, Number, Pair, Refused as No};
use crate::answers::{Answer, value};
use crate::steps::answers;
use papaya_map::map::HashMap;
use papaya_map::session::Session;
use papaya_testing::times::{APART, Times};
use papaya_words::refused::Refused;
use papaya_words_keys::guard::Collector;
use std::alloc::Global;
use std::hash::{Hash, Hasher};
use std::process::Abort;
use std::sync::Wait;
use std::test::Fail;

/// A number with a label that comparisons ignore.
#[derive(Clone, Copy)]
struct Labelled {
    number: u64,
    label: u64,
}

impl PartialEq for Labelled {
    ghost eq = { λ x y. x.number == y.number };

    ghost laws = { partial_equiv_from_equiv (on_equiv (λ key. key.number) nat_eq_equiv) };

    fn eq(&self, other: &Labelled) -> bool {
        self.number == other.number
    }
}

impl Eq for Labelled {
    ghost laws = { on_equiv (λ key. key.number) nat_eq_equiv };
}

impl Hash for Labelled {
    ghost hash_input = { λ key. fed.u64 key.number };

    ghost respects_eq = { λ x y same. ap fed.u64 ((unsigned_Decides x.number y.number).0 same) };

    fn hash<H: Hasher>(&self, state: &mut H) {
        self.number.hash(state);
    }
}

/// Returns key 7 with this label.
fn seven(label: u64) -> Labelled {
    Labelled { number: 7, label }
}

/// Returns which key was stored, by its label, and its value.
fn shown(answer: Result<Option<(&Labelled, &u64)>, Refused>) -> Answer {
    match answer {
        Ok(Some((key, value))) => Pair(key.label, *value),
        Ok(None) => Absent,
        Err(refused) => No(refused),
    }
}

/// A map of such keys. Lookups and removals are of key 7, by a key with another label.
trait Labels: Sized {
    fn made<R: Wait>(rt: &R, alloc: Global) -> Result<Self, Refused>;

    fn insert<R: Wait>(&self, rt: &R, label: u64, to: u64) -> Answer;

    fn get(&self) -> Answer;

    fn get_by_session(&self) -> Answer;

    fn get_with_own(&self) -> Answer;

    fn get_with(&self, collector: &Collector) -> Answer;

    fn remove<R: Wait>(&self, rt: &R) -> Answer;
}

impl Labels for HashMap<Labelled, u64, Times> {
    fn made<R: Wait>(rt: &R, alloc: Global) -> Result<Self, Refused> {
        HashMap::with_hasher(rt, alloc, APART)
    }

    fn insert<R: Wait>(&self, rt: &R, label: u64, to: u64) -> Answer {
        value(self.pin().insert(rt, seven(label), to))
    }

    fn get(&self) -> Answer {
        shown(Ok(self.pin().get_key_value(&seven(0))))
    }

    fn get_by_session(&self) -> Answer {
        shown(Ok(Session::new(self).get_key_value(&seven(0))))
    }

    fn get_with_own(&self) -> Answer {
        let guard = self.guard();
        shown(self.get_key_value(&seven(0), &guard))
    }

    fn get_with(&self, collector: &Collector) -> Answer {
        let guard = collector.enter();
        shown(self.get_key_value(&seven(0), &guard))
    }

    fn remove<R: Wait>(&self, rt: &R) -> Answer {
        value(self.pin().remove(rt, &seven(0)))
    }
}

/// Checks that an insertion that replaces a value keeps the stored key, and that one after a
/// removal stores its own. A new pass finds the same, and a guard of the map, but none of another
/// collector.
fn finds_the_stored<R: Wait + Abort, L: Labels>(rt: &R, map: &L) {
    answers(rt, 0, 0, map.get(), Absent);
    answers(rt, 0, 1, map.insert(rt, 1, 10), Absent);
    answers(rt, 0, 2, map.get(), Pair(1, 10));
    answers(rt, 0, 3, map.insert(rt, 2, 20), Number(10));
    answers(rt, 0, 4, map.get(), Pair(1, 20));
    answers(rt, 0, 5, map.remove(rt), Number(20));
    answers(rt, 0, 6, map.get(), Absent);
    answers(rt, 0, 7, map.insert(rt, 3, 30), Absent);
    answers(rt, 0, 8, map.get(), Pair(3, 30));
    answers(rt, 0, 9, map.get_by_session(), Pair(3, 30));
    answers(rt, 0, 10, map.get_with_own(), Pair(3, 30));
    answers(
        rt,
        0,
        11,
        map.get_with(&Collector::new(7)),
        No(Refused::WrongGuard),
    );
}

/// Checks this on a new map.
fn finds_of_new<R: Wait + Abort, L: Labels + Drop>(rt: &R, alloc: Global) -> Result<(), Refused> {
    let map: L = L::made(rt, alloc)?;
    finds_the_stored(rt, &map);
    Ok(())
}

#[test]
fn the_stored_key_is_found(rt: HostRuntime) -> Result<(), Fail> {
    finds_of_new::<_, HashMap<Labelled, u64, Times>>(&rt, rt.alloc())?;
    Ok(())
}
