// Maps with a limit on the pairs that they store.
use crate::expect::is;
use crate::numbers::{Fold, Making, Usual, Work, has, inserts, on_usual, removes, tries};
use papaya_words::refused::Refused;
use std::alloc::Global;
use std::process::Abort;
use std::test::Fail;

/// Stores three pairs, one of which replaces another. Checks that no further one is stored, and
/// that the map keeps its entries.
fn logs_three(rt: &impl Abort, map: &mut Usual) {
    inserts(rt, map, 1, 10, Ok(None));
    inserts(rt, map, 2, 20, Ok(None));
    inserts(rt, map, 1, 11, Ok(Some(&10)));
    inserts(rt, map, 3, 30, Err(Refused::Limit));
    has(rt, map, 2);
    is(rt, map.get_or_insert(1, 5), Ok(&11));
    removes(rt, map, 1, Ok(Some(&11)));
    inserts(rt, map, 3, 30, Err(Refused::Limit));
}

/// Stores two more pairs, since one pair was kept.
fn logs_two_more(rt: &impl Abort, map: &mut Usual) {
    inserts(rt, map, 3, 30, Ok(None));
    inserts(rt, map, 4, 40, Ok(None));
    inserts(rt, map, 5, 50, Err(Refused::Limit));
    has(rt, map, 3);
}

/// Checks that no value was stored, since the limit is reached.
fn refuses(rt: &impl Abort, stored: Result<&u64, Refused>) {
    is(rt, stored, Err(Refused::Limit));
}

/// Checks that a clone has no limit.
fn has_no_limit(rt: &impl Abort, clone: &mut Usual) {
    for key in 10..14 {
        is(rt, clone.put(key, key), Ok(true));
    }
}

fn clones(rt: &impl Abort, alloc: Global, map: &Usual) -> Result<(), Fail> {
    let mut clone = map.try_clone(alloc)?;
    has_no_limit(rt, &mut clone);
    Ok(())
}

/// Checks that with a limit of 0 no call stores anything.
fn stores_none(rt: &impl Abort, map: &mut Usual) {
    inserts(rt, map, 1, 10, Err(Refused::Limit));
    is(rt, map.slots(), 32);
    tries(rt, map, 1, 10, Err(Refused::Limit));
    refuses(rt, map.get_or_insert(1, 10));
    refuses(rt, map.update_or_insert(1, |v| *v, 10));
    is(rt, map.update(1, |v| *v).is_ok(), true);
    removes(rt, map, 1, Ok(None));
    has(rt, map, 0);
}

/// The limit on a map's pairs.
#[derive(Clone, Copy)]
enum Limit {
    Three,
    None,
}

impl Work<Fold> for Limit {
    fn is_done<R: Abort>(self, rt: &R, alloc: Global, map: &mut Usual) -> Result<(), Fail> {
        match self {
            Limit::Three => {
                logs_three(rt, map);
                clones(rt, alloc, map)?;
                map.reclaim()?;
                logs_two_more(rt, map);
            }
            Limit::None => stores_none(rt, map),
        }
        Ok(())
    }
}

#[test]
fn limit_of_three(rt: HostRuntime) -> Result<(), Fail> {
    on_usual(&rt, rt.alloc(), Making::Limit(3), Limit::Three)
}

#[test]
fn limit_of_none(rt: HostRuntime) -> Result<(), Fail> {
    on_usual(&rt, rt.alloc(), Making::Limit(0), Limit::None)
}
