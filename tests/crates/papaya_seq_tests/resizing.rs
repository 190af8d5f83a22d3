// Room that is made ahead, and resizes that are finished. If the tests run with a failing
// allocation, as by `rt try --test --fail-alloc N`, a call here meets it.
use crate::expect::{is, is_at};
use crate::growth::{fills, has_below, looks_so};
use crate::numbers::{
    Fold, Making, Numbers, Parts, Usual, Work, finds, has, inserts, on_made, on_usual,
};
use papaya_call::answers::Listed;
use papaya_call::call::{Call, Reply};
use papaya_core_timeline::outcome::Outcome;
use papaya_seq::seq::HashMap;
use papaya_testing::times::{APART, Times};
use papaya_words::refused::Refused;
use papaya_words::resize_mode::ResizeMode;
use std::alloc::Global;
use std::hash::BuildHasher;
use std::process::Abort;
use std::test::Fail;

/// Both modes, with chunks of one slot.
const MODES: [ResizeMode; 2] = [ResizeMode::Incremental(1), ResizeMode::Blocking];

/// Reserves room for `more` pairs. Checks the slots of the root, and that no pairs are being moved.
fn reserves<S: BuildHasher>(
    rt: &impl Abort,
    map: &mut HashMap<u64, u64, S>,
    more: usize,
    slots: usize,
) {
    is_at(rt, more, map.reserve(more), Ok(()));
    is_at(rt, more, (map.slots(), map.resizing()), (slots, false));
}

/// Checks the first table of a new map.
fn makes_room(rt: &impl Abort, map: &mut Usual) {
    reserves(rt, map, 0, 8);
    reserves(rt, map, 6, 8);
    reserves(rt, map, 1000, 2048);
    has(rt, map, 0);
}

/// Makes room for twenty and then for five thousand pairs beside five in sixteen slots.
fn makes_room_beside_five(rt: &impl Abort, map: &mut Usual) {
    for key in 0..5u64 {
        inserts(rt, map, key, key, Ok(None));
    }
    is(rt, map.slots(), 16);
    reserves(rt, map, 20, 64);
    reserves(rt, map, 5000, 8192);
    for key in 0..5u64 {
        finds(rt, map, key, Some(&key));
    }
    has(rt, map, 5);
}

/// Empties a new map.
fn empties_none(rt: &impl Abort, map: &mut Usual) {
    is(rt, map.clear(), Ok(()));
    is(rt, map.slots(), 0);
    reserves(rt, map, 0, 8);
}

/// The cases of a new map.
#[derive(Clone, Copy)]
enum New {
    MakesRoom,
    MakesRoomBesideFive,
    EmptiesNone,
}

impl Work<Fold> for New {
    fn is_done<R: Abort>(self, rt: &R, _alloc: Global, map: &mut Usual) -> Result<(), Fail> {
        match self {
            New::MakesRoom => makes_room(rt, map),
            New::MakesRoomBesideFive => makes_room_beside_five(rt, map),
            New::EmptiesNone => empties_none(rt, map),
        }
        Ok(())
    }
}

#[test]
fn a_new_map_gets_its_first_table(rt: HostRuntime) -> Result<(), Fail> {
    on_usual(&rt, rt.alloc(), Making::New, New::MakesRoom)
}

#[test]
fn room_beside_pairs(rt: HostRuntime) -> Result<(), Fail> {
    on_usual(
        &rt,
        rt.alloc(),
        Making::Capacity(10),
        New::MakesRoomBesideFive,
    )
}

#[test]
fn a_new_map_is_emptied(rt: HostRuntime) -> Result<(), Fail> {
    on_usual(&rt, rt.alloc(), Making::New, New::EmptiesNone)
}

/// Checks that no table has room for this many pairs, and that the map is as it was.
fn too_much(rt: &impl Abort, map: &mut Numbers) {
    for more in [1usize << 61, usize::MAX, 3_221_225_473] {
        is_at(rt, more, map.reserve(more), Err(Refused::Capacity));
        looks_so(rt, map, 9, 8, true);
        has_below(rt, map, 9);
    }
}

/// Fills eight slots, and makes room for `more` pairs.
fn grows_ahead(rt: &impl Abort, map: &mut Numbers, more: usize, slots: usize) {
    fills(rt, map, &[(8, 8, false)]);
    // Nothing is being moved, so nothing is copied.
    is(rt, map.copy_all(), Ok(()));
    looks_so(rt, map, 8, 8, false);
    reserves(rt, map, more, slots);
    has_below(rt, map, 8);
}

/// Finishes a resize that is under way.
fn ends(rt: &impl Abort, map: &mut Numbers) {
    is(rt, map.copy_all(), Ok(()));
    looks_so(rt, map, 9, 16, false);
    has_below(rt, map, 9);
    is(rt, map.copy_all(), Ok(()));
    looks_so(rt, map, 9, 16, false);
}

/// Empties a map of sixteen slots. Its table stays, and so does its arena.
fn empties(rt: &impl Abort, map: &mut Numbers) {
    is(rt, map.clear(), Ok(()));
    looks_so(rt, map, 0, 16, false);
    has_below(rt, map, 0);
    is(rt, map.pair(0), Some((&0, &0)));
}

/// Fills the seven slots of a map of sixteen that never had a pair, and empties it. Then no slot is
/// left, and the next insertion makes a next table, which is as long as the map was made for.
fn fills_again(rt: &impl Abort, map: &mut Numbers) {
    fills(rt, map, &[(7, 16, false)]);
    empties(rt, map);
    inserts(rt, map, 0, 0, Ok(None));
    is(rt, map.copy_all(), Ok(()));
    looks_so(rt, map, 1, 8, false);
    has_below(rt, map, 1);
}

/// Empties a map whose next table has nine pairs.
fn empties_nine(rt: &impl Abort, map: &mut Numbers) {
    fills(rt, map, &[(8, 8, false)]);
    inserts(rt, map, 8, 8, Ok(None));
    empties(rt, map);
    fills_again(rt, map);
}

/// Returns calls of which three resize the map.
fn six_calls(alloc: Global) -> Result<Vec<Call<u64, u64, Listed<u64>>>, Fail> {
    Ok(vec![in alloc;
        Call::Reserve(9),
        Call::Insert(9, 9u64),
        Call::Reserve(1usize << 61),
        Call::CopyAll,
        Call::Get(9),
        Call::Get(11u64),
    ]?)
}

/// Returns their outcomes if nine pairs were stored before.
fn six_outcomes(alloc: Global) -> Result<Vec<Outcome>, Fail> {
    Ok(vec![in alloc;
        Outcome::Replied(Reply::Done),
        Outcome::Replied(Reply::Inserted(9)),
        Outcome::Replied(Reply::Refused(Refused::Capacity)),
        Outcome::Replied(Reply::Done),
        Outcome::Replied(Reply::Found(9)),
        Outcome::Replied(Reply::Absent),
    ]?)
}

/// Makes room for nine more pairs while nine are being moved: eighteen need 24 slots.
fn runs_in_turn(rt: &impl Abort, alloc: Global, map: &mut Numbers) -> Result<(), Fail> {
    let outcomes = map.run(six_calls(alloc)?)?;
    is(rt, outcomes, six_outcomes(alloc)?);
    looks_so(rt, map, 10, 32, false);
    has_below(rt, map, 10);
    Ok(())
}

/// Returns whether the map has exactly the keys below this one, each with itself.
fn keeps_below(map: &Numbers, end: u64) -> bool {
    for key in 0..end {
        if map.get(&key) != Some(&key) {
            return false;
        }
    }
    map.get(&end).is_none() && map.len() as u64 == end
}

/// Returns whether the map is right after this result, which may be that memory ran out.
fn kept(map: &Numbers, done: Result<(), Refused>, end: u64) -> Result<bool, Refused> {
    match done {
        Ok(()) | Err(Refused::Memory) => Ok(keeps_below(map, end)),
        Err(refused) => Err(refused),
    }
}

/// Stores a key, again if memory ran out. Returns whether a refusal left the map as it was.
fn stores_again(map: &mut Numbers, key: u64) -> Result<bool, Refused> {
    match map.insert(key, key).map(|_| ()) {
        Err(Refused::Memory) => {
            let kept = keeps_below(map, key);
            let _ = map.insert(key, key)?;
            Ok(kept)
        }
        stored => stored.map(|()| true),
    }
}

/// Stores nine keys, the last of which needs a next table, finishes the resize, and makes room.
/// Returns whether each key is there after each call.
fn refusals_keep(map: &mut Numbers) -> Result<bool, Refused> {
    for key in 0..9u64 {
        if !stores_again(map, key)? {
            return Ok(false);
        }
    }
    let ended = map.copy_all();
    if !kept(map, ended, 9)? {
        return Ok(false);
    }
    let reserved = map.reserve(40);
    kept(map, reserved, 9)
}

/// The cases of a map that is made for six pairs.
#[derive(Clone, Copy)]
enum Case {
    /// Room is made for this many more pairs, and then there are this many slots.
    GrowsAhead(usize, usize),
    EmptiesNine,
    RefusalsKeep,
    /// Nine pairs are being moved to sixteen slots.
    TooMuch,
    Ends,
    RunsInTurn,
}

/// Runs a case while nine pairs are being moved to sixteen slots.
fn in_the_midst(rt: &impl Abort, alloc: Global, map: &mut Numbers, case: Case) -> Result<(), Fail> {
    fills(rt, map, &[(9, 8, true)]);
    match case {
        Case::TooMuch => too_much(rt, map),
        Case::RunsInTurn => runs_in_turn(rt, alloc, map)?,
        _ => ends(rt, map),
    }
    Ok(())
}

impl Work<Times> for Case {
    fn is_done<R: Abort>(self, rt: &R, alloc: Global, map: &mut Numbers) -> Result<(), Fail> {
        match self {
            Case::GrowsAhead(more, slots) => grows_ahead(rt, map, more, slots),
            Case::EmptiesNine => empties_nine(rt, map),
            Case::RefusalsKeep => is(rt, refusals_keep(map)?, true),
            Case::TooMuch | Case::Ends | Case::RunsInTurn => in_the_midst(rt, alloc, map, self)?,
        }
        Ok(())
    }
}

/// Runs a case in both modes.
fn in_modes(rt: &impl Abort, alloc: Global, case: Case) -> Result<(), Fail> {
    for mode in MODES {
        on_made(rt, alloc, Parts::All(mode, 6, APART), case)?;
    }
    Ok(())
}

#[test]
fn full_tables_grow_ahead(rt: HostRuntime) -> Result<(), Fail> {
    in_modes(&rt, rt.alloc(), Case::GrowsAhead(4, 16))?;
    in_modes(&rt, rt.alloc(), Case::GrowsAhead(8, 32))
}

#[test]
fn emptied_maps_are_filled_again(rt: HostRuntime) -> Result<(), Fail> {
    in_modes(&rt, rt.alloc(), Case::EmptiesNine)
}

#[test]
fn refused_resizes_leave_the_map(rt: HostRuntime) -> Result<(), Fail> {
    in_modes(&rt, rt.alloc(), Case::RefusalsKeep)
}

#[test]
fn in_the_midst_of_a_resize(rt: HostRuntime) -> Result<(), Fail> {
    let parts = Parts::All(ResizeMode::Incremental(1), 6, APART);
    for case in [Case::TooMuch, Case::Ends, Case::RunsInTurn] {
        on_made(&rt, rt.alloc(), parts, case)?;
    }
    Ok(())
}
