// The stored key stays if its value is replaced. The keys here are equal if their numbers are, so
// that a label shows which of them is stored.
use crate::expect::is;
use papaya_call::answers::Operation;
use papaya_seq::seq::HashMap;
use papaya_testing::labels::{Labelled, seven};
use papaya_words::refused::Refused;
use papaya_words_keys::results::Compute;
use std::alloc::Global;
use std::process::Abort;
use std::test::Fail;

type Keys = HashMap<Labelled, u64>;

/// Returns the label of the stored key, and its value.
fn stored(map: &Keys) -> Option<(char, u64)> {
    match map.get_key_value(&seven('?')) {
        Some((key, value)) => Some((key.label, *value)),
        None => None,
    }
}

/// Stores key 7 with this label, and checks which key and value are then there.
fn stores(rt: &impl Abort, map: &mut Keys, label: char, value: u64, wanted: (char, u64)) {
    is(rt, map.put(seven(label), value).is_ok(), true);
    is(rt, stored(map), Some(wanted));
}

/// Returns the labels and values of a compute that has updated.
fn updated(
    computed: Result<Compute<'_, Labelled, u64, ()>, Refused>,
) -> Option<((char, u64), (char, u64))> {
    match computed {
        Ok(Compute::Updated { old, new }) => {
            Some(((old.0.label, *old.1), (new.0.label, *new.1)))
        }
        _ => None,
    }
}

/// Replaces, removes and stores the key.
fn stays(rt: &impl Abort, map: &mut Keys) {
    stores(rt, map, 'x', 1, ('x', 1));
    stores(rt, map, 'y', 2, ('x', 2));
    is(rt, map.remove(&seven('y')), Ok(Some(&2)));
    stores(rt, map, 'y', 3, ('y', 3));
}

/// Replaces it by a compute.
fn stays_in_a_compute(rt: &impl Abort, map: &mut Keys) {
    stores(rt, map, 'x', 1, ('x', 1));
    let computed = map.compute(seven('y'), |shown| match shown {
        Some((_, value)) => Operation::Insert(value.wrapping_add(1)),
        None => Operation::<u64, ()>::Remove,
    });
    is(rt, updated(computed), Some((('x', 1), ('x', 2))));
}

/// Does either with a new map.
fn on_new(rt: &impl Abort, alloc: Global, computes: bool) -> Result<(), Fail> {
    let mut map: Keys = HashMap::new(alloc)?;
    if computes {
        stays_in_a_compute(rt, &mut map);
    } else {
        stays(rt, &mut map);
    }
    Ok(())
}

#[test]
fn stored_key_stays(rt: HostRuntime) -> Result<(), Fail> {
    on_new(&rt, rt.alloc(), false)
}

#[test]
fn stored_key_stays_in_a_compute(rt: HostRuntime) -> Result<(), Fail> {
    on_new(&rt, rt.alloc(), true)
}
