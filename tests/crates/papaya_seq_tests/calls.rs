// Insertions and lookups, what callers know of the map after a call, and lists of calls.
use crate::expect::is;
use crate::numbers::{Fold, Making, Usual, Work, has, on_usual};
use papaya_call::answers::Listed;
use papaya_call::call::{Call, Reply};
use papaya_core_timeline::outcome::Outcome;
use papaya_seq::seq::HashMap;
use papaya_words::refused::Refused;
use papaya_words_keys::guard::Equivalent;
use std::alloc::Global;
use std::hash::{BuildHasher, Hash};
use std::process::Abort;
use std::test::Fail;

/// Stores a pair, and returns whether it replaced one. The contract of `insert` states what the map
/// is afterwards.
fn stores<K: Hash + Eq + Drop, V: Drop, S: BuildHasher>(
    map: &mut HashMap<K, V, S>,
    key: K,
    value: V,
) -> Result<bool, Refused> {
    let old = map.insert(key, value)?;
    Ok(old.is_some())
}

/// Removes a key's pair, and returns whether there was one.
fn removes<K: Hash + Eq + Drop, V: Drop, S: BuildHasher, Q: Equivalent<K>>(
    map: &mut HashMap<K, V, S>,
    key: &Q,
) -> Result<bool, Refused> {
    match map.remove(key)? {
        Some(_) => Ok(true),
        None => Ok(false),
    }
}

/// Stores key 5 twice, and removes it twice.
fn stores_and_removes(rt: &impl Abort, map: &mut Usual) {
    is(rt, stores(map, 5, 1), Ok(false));
    has(rt, map, 1);
    is(rt, stores(map, 5, 2), Ok(true));
    is(rt, map.get_key_value(&5), Some((&5, &2)));
    is(rt, removes(map, &5u64), Ok(true));
    is(rt, removes(map, &5u64), Ok(false));
    has(rt, map, 0);
}

/// Returns the results of a closure, in turn.
fn answers(alloc: Global, yes: bool) -> Result<Listed<u64>, Fail> {
    Ok(Listed {
        ops: Vec::new(alloc),
        yes: vec![in alloc; yes]?,
    })
}

/// Returns ten calls, all but one of them on key 7, and an iteration.
fn ten_calls(alloc: Global) -> Result<Vec<Call<u64, u64, Listed<u64>>>, Fail> {
    let keeps = answers(alloc, false)?;
    let absent = answers(alloc, true)?;
    let removes = answers(alloc, true)?;
    Ok(vec![in alloc;
        Call::Get(7u64),
        Call::Insert(7, 1u64),
        Call::TryInsert(7, 2),
        Call::Insert(7, 3),
        Call::Get(7),
        Call::RemoveIf(7, keeps),
        Call::RemoveIf(8, absent),
        Call::RemoveIf(7, removes),
        Call::Get(7),
        Call::TryInsert(7, 4),
        Call::Walk,
    ]?)
}

/// Returns their outcomes.
fn ten_outcomes(alloc: Global) -> Result<Vec<Outcome>, Fail> {
    Ok(vec![in alloc;
        Outcome::Replied(Reply::Absent),
        Outcome::Replied(Reply::Inserted(0)),
        Outcome::Replied(Reply::Occupied(0)),
        Outcome::Replied(Reply::Replaced { old: 0, new: 1 }),
        Outcome::Replied(Reply::Found(1)),
        Outcome::Replied(Reply::Kept(1)),
        Outcome::Replied(Reply::Absent),
        Outcome::Replied(Reply::Removed(1)),
        Outcome::Replied(Reply::Absent),
        Outcome::Replied(Reply::Inserted(2)),
        Outcome::Walked(vec![in alloc; 2]?),
    ]?)
}

/// Checks the outcomes, and the pairs that the calls have stored.
fn runs_in_turn(rt: &impl Abort, alloc: Global, map: &mut Usual) -> Result<(), Fail> {
    let outcomes = map.run(ten_calls(alloc)?)?;
    is(rt, outcomes, ten_outcomes(alloc)?);
    is(rt, map.pair(1), Some((&7, &3)));
    is(rt, map.pair(2), Some((&7, &4)));
    is(rt, map.pair(3).is_none(), true);
    has(rt, map, 1);
    Ok(())
}

/// The cases of a new map.
#[derive(Clone, Copy)]
enum Case {
    StoresAndRemoves,
    RunsInTurn,
}

impl Work<Fold> for Case {
    fn is_done<R: Abort>(self, rt: &R, alloc: Global, map: &mut Usual) -> Result<(), Fail> {
        match self {
            Case::StoresAndRemoves => stores_and_removes(rt, map),
            Case::RunsInTurn => runs_in_turn(rt, alloc, map)?,
        }
        Ok(())
    }
}

#[test]
fn calls_on_new_maps(rt: HostRuntime) -> Result<(), Fail> {
    for case in [Case::StoresAndRemoves, Case::RunsInTurn] {
        on_usual(&rt, rt.alloc(), Making::Default, case)?;
    }
    Ok(())
}
