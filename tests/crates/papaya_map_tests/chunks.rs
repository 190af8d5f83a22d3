// Removals that take nothing out while pairs are being moved to a next table.
use crate::expect::is;
use crate::numbers::Numbers;
use papaya_map::map::HashMap;
use papaya_testing::times::APART;
use papaya_words::refused::Refused;
use papaya_words::resize_mode::ResizeMode;
use std::alloc::Global;
use std::process::Abort;
use std::sync::Wait;
use std::test::Fail;

/// A removal that takes nothing out.
#[derive(Clone, Copy)]
enum Removal {
    /// No pair has this key.
    Absent(u64),
    /// The closure refuses this key's pair.
    Kept(u64),
}

/// A map whose eight slots were full when key 8 came. So that key is in the next table, of 16
/// slots, and one slot of the first table is copied.
fn left_full<R: Wait + Abort>(rt: &R, alloc: Global) -> Result<Numbers, Refused> {
    let map: Numbers = HashMap::builder()
        .capacity(6)
        .hasher(APART)
        .resize_mode(ResizeMode::Incremental(1))
        .build(rt, alloc)?;
    for key in 0..9 {
        is(rt, map.resizing(), false);
        map.pin().insert(rt, key, key)?;
    }
    moves(rt, &map, true);
    Ok(map)
}

/// The map is moving its pairs, or has moved them.
fn moves(rt: &impl Abort, map: &Numbers, moving: bool) {
    let slots = if moving { 8 } else { 16 };
    is(rt, (map.resizing(), map.slots()), (moving, slots));
}

/// Such a removal, so many times. The map moves its pairs after each of them.
fn removes<R: Wait + Abort>(rt: &R, map: &Numbers, removal: Removal, times: u32) {
    for _ in 0..times {
        moves(rt, map, true);
        match removal {
            Removal::Absent(key) => is(rt, map.pin().remove(rt, &key), Ok(None)),
            Removal::Kept(key) => {
                let kept = map.pin().remove_if(rt, &key, |_, _| false);
                is(rt, kept, Ok(Err((&key, &key))));
            }
        }
    }
}

/// Seven slots are left, so the seventh such removal is the last of the resize.
fn ends<R: Wait + Abort>(rt: &R, map: &Numbers, removal: Removal) {
    removes(rt, map, removal, 7);
    moves(rt, map, false);
    is(rt, map.len(), 9);
}

#[test]
fn removals_of_an_absent_key_end_a_resize(rt: HostRuntime) -> Result<(), Fail> {
    let map = left_full(&rt, rt.alloc())?;
    ends(&rt, &map, Removal::Absent(9));
    Ok(())
}

#[test]
fn removals_that_are_refused_behind_the_root_end_a_resize(rt: HostRuntime) -> Result<(), Fail> {
    let map = left_full(&rt, rt.alloc())?;
    ends(&rt, &map, Removal::Kept(8));
    Ok(())
}

/// Key 7 stands in the slot that is copied last.
#[test]
fn removals_that_end_in_the_root_copy_nothing(rt: HostRuntime) -> Result<(), Fail> {
    let map = left_full(&rt, rt.alloc())?;
    removes(&rt, &map, Removal::Kept(7), 16);
    ends(&rt, &map, Removal::Absent(9));
    Ok(())
}
