// The sizes that a map, a pinned map and a session return: entries in its arena, and slots of its root table.
use crate::expect::is;
use papaya_map::map::HashMap;
use papaya_map::session::Session;
use papaya_words::refused::Refused;
use papaya_words::resize_mode::ResizeMode;
use std::process::Abort;
use std::sync::Wait;
use std::test::Fail;

type Numbers = HashMap<u64, u64>;

/// Stores the keys below 3, and those below 2 once more.
fn stores_five<R: Wait>(rt: &R, map: &Numbers) -> Result<(), Refused> {
    for key in 0..3 {
        map.pin().insert(rt, key, key)?;
    }
    for key in 0..2 {
        map.pin().insert(rt, key, key)?;
    }
    Ok(())
}

/// Checks that the map holds this many entries, in a table of this many slots, and moves none.
fn holds(rt: &impl Abort, map: &Numbers, stored: usize, slots: usize) {
    is(rt, (map.stored(), map.slots()), (stored, slots));
    is(rt, (map.pin().stored(), map.pin().slots()), (stored, slots));
    is(rt, (map.resizing(), map.pin().resizing()), (false, false));
    is(rt, Session::new(map).stored(), stored);
}

#[test]
fn replaced_pairs_stay_until_the_map_is_reclaimed(rt: HostRuntime) -> Result<(), Fail> {
    let mut map: Numbers = HashMap::with_capacity(&rt, rt.alloc(), 1000)?;
    stores_five(&rt, &map)?;
    holds(&rt, &map, 5, 2048);
    map.reclaim(&rt)?;
    holds(&rt, &map, 3, 2048);
    Ok(())
}

#[test]
fn no_pairs_get_no_table(rt: HostRuntime) -> Result<(), Fail> {
    let mut map: Numbers = HashMap::new(&rt, rt.alloc())?;
    map.reclaim(&rt)?;
    holds(&rt, &map, 0, 0);
    stores_five(&rt, &map)?;
    holds(&rt, &map, 5, 32);
    map.pin().clear(&rt)?;
    map.reclaim(&rt)?;
    holds(&rt, &map, 0, 0);
    Ok(())
}

#[test]
fn a_full_table_is_left_a_slot_at_a_time(rt: HostRuntime) -> Result<(), Fail> {
    let map: Numbers = HashMap::builder()
        .capacity(6)
        .resize_mode(ResizeMode::Incremental(1))
        .build(&rt, rt.alloc())?;
    for key in 0..32 {
        if map.resizing() {
            break;
        }
        map.pin().insert(&rt, key, key)?;
    }
    is(&rt, (map.resizing(), map.pin().resizing()), (true, true));
    is(&rt, map.slots(), 8);
    Ok(())
}
