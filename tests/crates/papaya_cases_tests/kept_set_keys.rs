// A stored key stays if an equal one is inserted: in sets, for one caller and shared.
use crate::expect::is;
use papaya_set::{seq, set};
use papaya_testing::labels::{Labelled, seven};
use papaya_words::refused::Refused;
use std::process::Abort;
use std::sync::Wait;
use std::test::Fail;

/// A set of such keys. Its calls are of key 7.
trait Labels {
    /// Stores by `insert` of a key with this label.
    fn store<R: Wait>(&mut self, rt: &R, label: char) -> Result<bool, Refused>;

    /// Returns the label of the key that `get` returns.
    fn stored(&self) -> Option<char>;

    /// Removes by `remove`.
    fn take_out<R: Wait>(&mut self, rt: &R) -> Result<bool, Refused>;
}

/// Returns the label of a key.
fn label_of(key: Option<&Labelled>) -> Option<char> {
    Some(key?.label)
}

impl Labels for seq::HashSet<Labelled> {
    fn store<R: Wait>(&mut self, _rt: &R, label: char) -> Result<bool, Refused> {
        self.insert(seven(label))
    }

    fn stored(&self) -> Option<char> {
        label_of(self.get(&seven('?')))
    }

    fn take_out<R: Wait>(&mut self, _rt: &R) -> Result<bool, Refused> {
        self.remove(&seven('?'))
    }
}

impl Labels for set::HashSet<Labelled> {
    fn store<R: Wait>(&mut self, rt: &R, label: char) -> Result<bool, Refused> {
        self.pin().insert(rt, seven(label))
    }

    fn stored(&self) -> Option<char> {
        label_of(self.pin().get(&seven('?')))
    }

    fn take_out<R: Wait>(&mut self, rt: &R) -> Result<bool, Refused> {
        self.pin().remove(rt, &seven('?'))
    }
}

/// Checks that a stored key stays if an equal one is inserted, and that a removed key leaves none.
fn keeps<R: Wait + Abort, L: Labels>(rt: &R, set: &mut L) {
    is(rt, set.store(rt, 'x'), Ok(true));
    is(rt, set.store(rt, 'y'), Ok(false));
    is(rt, set.stored(), Some('x'));
    is(rt, set.take_out(rt), Ok(true));
    is(rt, set.store(rt, 'y'), Ok(true));
    is(rt, set.stored(), Some('y'));
}

/// Checks this on a new set.
fn keeps_in_new<R: Wait + Abort, L: Labels + Drop>(
    rt: &R,
    made: Result<L, Refused>,
) -> Result<(), Refused> {
    let mut set = made?;
    keeps(rt, &mut set);
    Ok(())
}

/// Checks that a set made of two equal keys has the first.
fn has_first<L: Labels + Drop>(rt: &impl Abort, made: Result<L, Refused>) -> Result<(), Refused> {
    let set = made?;
    is(rt, set.stored(), Some('x'));
    Ok(())
}

#[test]
fn the_stored_key_stays_in_a_set(rt: HostRuntime) -> Result<(), Fail> {
    let alloc = rt.alloc();
    let keys = [seven('x'), seven('y')];
    keeps_in_new::<_, seq::HashSet<Labelled>>(&rt, seq::HashSet::default(alloc))?;
    has_first::<seq::HashSet<Labelled>>(&rt, seq::HashSet::from_iter(alloc, keys))?;
    keeps_in_new::<_, set::HashSet<Labelled>>(&rt, set::HashSet::default(&rt, alloc))?;
    has_first::<set::HashSet<Labelled>>(&rt, set::HashSet::from_iter(&rt, alloc, keys))?;
    Ok(())
}
