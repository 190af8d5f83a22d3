// A stored key stays if an equal one is inserted: in maps, for one caller and shared.
use crate::expect::is;
use papaya_call::answers::Operation;
use papaya_map::map;
use papaya_seq::seq;
use papaya_testing::labels::{Labelled, seven};
use papaya_words::refused::Refused;
use papaya_words_keys::results::Compute;
use std::alloc::Global;
use std::process::Abort;
use std::sync::Wait;
use std::test::Fail;

/// An entry of key 7: its label and its value.
type Pair = (char, u64);

/// A map of such keys. Its calls are of key 7, and each passes in a key with this label.
trait Labels {
    /// Stores by `insert`.
    fn store<R: Wait>(&mut self, rt: &R, label: char, value: u64) -> Result<Option<u64>, Refused>;

    /// Looks up by `get_key_value`.
    fn stored(&self) -> Option<Pair>;

    /// Removes by `remove`.
    fn take_out<R: Wait>(&mut self, rt: &R) -> Result<Option<u64>, Refused>;

    /// Adds 1 by a compute; returns the entry that was there, and the one that took its place.
    fn add<R: Wait>(&mut self, rt: &R, label: char) -> Result<Option<(Pair, Pair)>, Refused>;
}

/// Returns an entry as it is stored.
fn pair_of(entry: (&Labelled, &u64)) -> Pair {
    (entry.0.label, *entry.1)
}

/// Returns the same, if there is one.
fn found(entry: Option<(&Labelled, &u64)>) -> Option<Pair> {
    Some(pair_of(entry?))
}

/// Returns the value after the closure's argument.
fn next(shown: Option<(&Labelled, &u64)>) -> Operation<u64, ()> {
    match shown {
        Some((_, value)) => Operation::Insert(value.wrapping_add(1)),
        None => Operation::Abort(()),
    }
}

/// Returns the entries before and after a compute.
fn updated(computed: Compute<'_, Labelled, u64, ()>) -> Option<(Pair, Pair)> {
    match computed {
        Compute::Updated { old, new } => Some((pair_of(old), pair_of(new))),
        _ => None,
    }
}

impl Labels for seq::HashMap<Labelled, u64> {
    fn store<R: Wait>(&mut self, _rt: &R, label: char, value: u64) -> Result<Option<u64>, Refused> {
        Ok(self.insert(seven(label), value)?.copied())
    }

    fn stored(&self) -> Option<Pair> {
        found(self.get_key_value(&seven('?')))
    }

    fn take_out<R: Wait>(&mut self, _rt: &R) -> Result<Option<u64>, Refused> {
        Ok(self.remove(&seven('?'))?.copied())
    }

    fn add<R: Wait>(&mut self, _rt: &R, label: char) -> Result<Option<(Pair, Pair)>, Refused> {
        Ok(updated(self.compute(seven(label), |shown| next(shown))?))
    }
}

impl Labels for map::HashMap<Labelled, u64> {
    fn store<R: Wait>(&mut self, rt: &R, label: char, value: u64) -> Result<Option<u64>, Refused> {
        Ok(self.pin().insert(rt, seven(label), value)?.copied())
    }

    fn stored(&self) -> Option<Pair> {
        found(self.pin().get_key_value(&seven('?')))
    }

    fn take_out<R: Wait>(&mut self, rt: &R) -> Result<Option<u64>, Refused> {
        Ok(self.pin().remove(rt, &seven('?'))?.copied())
    }

    fn add<R: Wait>(&mut self, rt: &R, label: char) -> Result<Option<(Pair, Pair)>, Refused> {
        let pinned = self.pin();
        Ok(updated(pinned.compute(rt, seven(label), |shown| next(shown))?))
    }
}

/// Checks that a replaced value keeps its key, and that a removed entry leaves none.
fn keeps<R: Wait + Abort, L: Labels>(rt: &R, map: &mut L) {
    is(rt, map.store(rt, 'x', 1), Ok(None));
    is(rt, map.store(rt, 'y', 2), Ok(Some(1)));
    is(rt, map.stored(), Some(('x', 2)));
    is(rt, map.take_out(rt), Ok(Some(2)));
    is(rt, map.store(rt, 'y', 3), Ok(None));
    is(rt, map.stored(), Some(('y', 3)));
}

/// Checks that a computed value keeps its key.
fn keeps_in_computes<R: Wait + Abort, L: Labels>(rt: &R, map: &mut L) {
    is(rt, map.add(rt, 'x'), Ok(Some((('y', 3), ('y', 4)))));
    is(rt, map.stored(), Some(('y', 4)));
}

/// Checks both on a new map.
fn keeps_all<R: Wait + Abort, L: Labels + Drop>(
    rt: &R,
    made: Result<L, Refused>,
) -> Result<(), Refused> {
    let mut map = made?;
    keeps(rt, &mut map);
    keeps_in_computes(rt, &mut map);
    Ok(())
}

#[test]
fn the_stored_key_stays(rt: HostRuntime) -> Result<(), Fail> {
    let alloc: Global = rt.alloc();
    keeps_all::<_, seq::HashMap<Labelled, u64>>(&rt, seq::HashMap::default(alloc))?;
    keeps_all::<_, map::HashMap<Labelled, u64>>(&rt, map::HashMap::default(&rt, alloc))?;
    Ok(())
}
