// Tables that grow while keys are stored, looked up, removed and updated.
use crate::expect::{is, is_at};
use crate::numbers::{Numbers, Parts, Work, finds, has, inserts, made, on_made, removes, tries};
use papaya_testing::times::{APART, TOGETHER, Times};
use papaya_words::resize_mode::ResizeMode;
use papaya_words_keys::results::{NotInserted, OccupiedError};
use std::alloc::Global;
use std::process::Abort;
use std::test::Fail;

/// Stores the keys of a range, which are new, each with itself as its value.
pub fn stores(rt: &impl Abort, map: &mut Numbers, from: u64, to: u64) {
    for key in from..to {
        inserts(rt, map, key, key, Ok(None));
    }
}

/// Checks that each key below this one is there, and that the two after it are not.
pub fn has_below(rt: &impl Abort, map: &Numbers, end: u64) {
    for key in 0..end {
        is_at(rt, key as usize, map.get(&key), Some(&key));
    }
    is_at(rt, end as usize, map.get(&end), None);
    is_at(rt, end as usize, map.contains_key(&u64::MAX), false);
    has(rt, map, end as usize);
}

/// Checks the number of slots of the root table, and whether pairs are being moved.
pub fn looks_so(rt: &impl Abort, map: &Numbers, keys: u64, slots: usize, resizing: bool) {
    is_at(
        rt,
        keys as usize,
        (map.slots(), map.resizing()),
        (slots, resizing),
    );
}

/// Stores keys up to each count in turn, and checks how the map then looks.
pub fn fills(rt: &impl Abort, map: &mut Numbers, looks: &[(u64, usize, bool)]) {
    let mut stored = 0;
    for &(keys, slots, resizing) in looks {
        stores(rt, map, stored, keys);
        stored = keys;
        looks_so(rt, map, keys, slots, resizing);
        has_below(rt, map, keys);
    }
}

/// Fills a new map of this mode.
fn fills_new(
    rt: &impl Abort,
    alloc: Global,
    mode: ResizeMode,
    capacity: usize,
    hasher: Times,
    looks: &[(u64, usize, bool)],
) -> Result<(), Fail> {
    let mut map = made(alloc, Parts::All(mode, capacity, hasher))?;
    fills(rt, &mut map, looks);
    Ok(())
}

/// A hundred keys with one probe sequence: a table of 128 slots has too few places for them.
#[test]
fn blocking_gives_up_a_table(rt: HostRuntime) -> Result<(), Fail> {
    let looks = [
        (26, 32, false),
        (27, 64, false),
        (31, 64, false),
        (32, 64, false),
        (64, 64, false),
        (65, 256, false),
        (100, 256, false),
    ];
    fills_new(&rt, rt.alloc(), ResizeMode::Blocking, 0, TOGETHER, &looks)
}

/// The same keys, of which each call moves at most some.
#[test]
fn chunks_fill_two_tables_in_turn(rt: HostRuntime) -> Result<(), Fail> {
    let looks = [
        (27, 64, false),
        (32, 64, false),
        (64, 64, false),
        (65, 128, true),
        (66, 128, true),
        (67, 256, false),
        (100, 256, false),
    ];
    let chunk = ResizeMode::Incremental(64);
    fills_new(&rt, rt.alloc(), chunk, 0, TOGETHER, &looks)
}

/// Eight slots that are moved one at a time: the eighth call finishes the move.
#[test]
fn one_slot_a_call(rt: HostRuntime) -> Result<(), Fail> {
    let looks = [
        (8, 8, false),
        (9, 8, true),
        (10, 8, true),
        (11, 8, true),
        (12, 8, true),
        (13, 8, true),
        (14, 8, true),
        (15, 8, true),
        (16, 16, false),
    ];
    fills_new(
        &rt,
        rt.alloc(),
        ResizeMode::Incremental(1),
        6,
        APART,
        &looks,
    )
}

/// With blocking the one call that needs it moves all of them.
#[test]
fn one_call_moves_all(rt: HostRuntime) -> Result<(), Fail> {
    let looks = [(8, 8, false), (9, 16, false)];
    fills_new(&rt, rt.alloc(), ResizeMode::Blocking, 6, APART, &looks)
}

/// Checks that a table in which most pairs were removed is followed by a smaller one.
fn gets_smaller(rt: &impl Abort, map: &mut Numbers) {
    for key in 0..26u64 {
        stores(rt, map, key, key + 1);
        removes(rt, map, key, Ok(Some(&key)));
    }
    looks_so(rt, map, 26, 32, false);
    has(rt, map, 0);
    stores(rt, map, 26, 27);
    looks_so(rt, map, 27, 16, false);
    has(rt, map, 1);
}

/// Checks that insertions work as usual while pairs are being moved.
fn insertions_while_moving(rt: &impl Abort, map: &mut Numbers) {
    let occupied = OccupiedError {
        current: &7,
        not_inserted: NotInserted::Value(70),
    };
    tries(rt, map, 7, 70, Ok(Err(occupied)));
    is(rt, map.get_or_insert(9, 9), Ok(&9));
    inserts(rt, map, 4, 40, Ok(Some(&4)));
    finds(rt, map, 4, Some(&40));
}

/// Checks the same of updates and removals.
fn changes_while_moving(rt: &impl Abort, map: &mut Numbers) {
    let new = map.update(2, |value| value.wrapping_add(20));
    is(rt, new, Ok(Some(&22)));
    is(rt, map.update(11, |value| *value), Ok(None));
    removes(rt, map, 3, Ok(Some(&3)));
    removes(rt, map, 12, Ok(None));
}

/// The cases of a map.
#[derive(Clone, Copy)]
enum Case {
    GetsSmaller,
    Continues,
}

impl Work<Times> for Case {
    fn is_done<R: Abort>(self, rt: &R, _alloc: Global, map: &mut Numbers) -> Result<(), Fail> {
        match self {
            Case::GetsSmaller => gets_smaller(rt, map),
            Case::Continues => {
                fills(rt, map, &[(9, 8, true)]);
                insertions_while_moving(rt, map);
                changes_while_moving(rt, map);
                has(rt, map, 9);
            }
        }
        Ok(())
    }
}

#[test]
fn removed_pairs_leave_a_smaller_table(rt: HostRuntime) -> Result<(), Fail> {
    let parts = Parts::All(ResizeMode::default(), 0, TOGETHER);
    on_made(&rt, rt.alloc(), parts, Case::GetsSmaller)
}

#[test]
fn calls_go_on_while_pairs_are_moved(rt: HostRuntime) -> Result<(), Fail> {
    let parts = Parts::All(ResizeMode::Incremental(1), 6, APART);
    on_made(&rt, rt.alloc(), parts, Case::Continues)
}
