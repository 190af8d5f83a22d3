// The numbers of stored pairs and of slots, before a map is reclaimed and after.
use crate::expect::is;
use papaya_seq::seq::HashMap;
use std::process::Abort;
use std::test::Fail;

type Numbers = HashMap<u64, u64>;

/// Checks how many pairs the map stores, and how many slots its table has.
fn holds(rt: &impl Abort, map: &Numbers, stored: usize, slots: usize) {
    is(rt, (map.stored(), map.slots()), (stored, slots));
}

#[test]
fn replaced_pairs_stay_until_the_map_is_reclaimed(rt: HostRuntime) -> Result<(), Fail> {
    let mut map: Numbers = HashMap::with_capacity(rt.alloc(), 1000)?;
    map.insert(1, 10)?;
    map.insert(1, 11)?;
    holds(&rt, &map, 2, 2048);
    map.reclaim()?;
    holds(&rt, &map, 1, 2048);
    Ok(())
}

#[test]
fn no_pairs_get_no_table(rt: HostRuntime) -> Result<(), Fail> {
    let mut map: Numbers = HashMap::new(rt.alloc())?;
    map.reclaim()?;
    holds(&rt, &map, 0, 0);
    map.insert(1, 10)?;
    map.remove(&1)?;
    holds(&rt, &map, 1, 32);
    map.reclaim()?;
    holds(&rt, &map, 0, 0);
    Ok(())
}
