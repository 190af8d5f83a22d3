// Each call with a guard: with one of another collector it fails and changes nothing. With one of
// the map's number it works as usual, whichever collector made it.
use crate::answers::Answer::{Absent, Done, Is, Kept, Number, Pair, Refused, Removed};
use crate::numbers::Numbers;
use crate::seen::Says;
use crate::shared::Turn::{Calls, Guarded};
use crate::shared::{Holder, MODES, Turn, runs};
use crate::steps::Keeps::ValuesAbove;
use crate::steps::Script;
use crate::steps::Step::{
    Clear, Compute, Contains, Get, GetAlone, GetKeyValue, GetOrInsert, GetOrInsertWith, Insert,
    IsEmpty, Iter, Keys, Len, Remove, RemoveEntry, RemoveIf, Reserve, Retain, TryInsert,
    TryInsertWith, Update, UpdateOrInsert, UpdateOrInsertWith, Values, Verify,
};
use papaya_words::refused::Refused::WrongGuard;
use std::test::Fail;

/// Each call fails: it finds, stores, replaces, removes and iterates over nothing, and reserves no
/// room.
const REFUSES: Script = &[
    (Verify, Refused(WrongGuard)),
    (Get(1), Refused(WrongGuard)),
    (GetKeyValue(1), Refused(WrongGuard)),
    (Contains(1), Refused(WrongGuard)),
    (Insert(2, 20), Refused(WrongGuard)),
    (TryInsert(2, 20), Refused(WrongGuard)),
    (TryInsertWith(2, 20), Refused(WrongGuard)),
    (GetOrInsert(1, 20), Refused(WrongGuard)),
    (GetOrInsertWith(2, 20), Refused(WrongGuard)),
    (Update(1), Refused(WrongGuard)),
    (UpdateOrInsert(2, 20), Refused(WrongGuard)),
    (UpdateOrInsertWith(2, 20), Refused(WrongGuard)),
    (Compute(1, Says::Store(20)), Refused(WrongGuard)),
    (Remove(1), Refused(WrongGuard)),
    (RemoveEntry(1), Refused(WrongGuard)),
    (RemoveIf(1, true), Refused(WrongGuard)),
    (Clear, Refused(WrongGuard)),
    (Retain(ValuesAbove(100)), Refused(WrongGuard)),
    (Iter, Refused(WrongGuard)),
    (Keys(0), Refused(WrongGuard)),
    (Values, Refused(WrongGuard)),
    (Reserve(20), Refused(WrongGuard)),
];

/// The map has 10 at 1, and no other entry.
const HAS_TEN: Script = &[
    (GetKeyValue(1), Pair(1, 10)),
    (GetAlone(2), Absent),
    (Len, Number(1)),
];

/// Each call refuses a guard of another collector, of either kind, and the map stays as it was.
const OTHERS: [Turn; 5] = [
    Calls(&[(Insert(1, 10), Absent)]),
    Guarded(Holder::Other(7), REFUSES),
    Calls(HAS_TEN),
    Guarded(Holder::OtherOwned(7), REFUSES),
    Calls(HAS_TEN),
];

#[test]
fn a_guard_of_another_collector_is_refused(rt: HostRuntime) -> Result<(), Fail> {
    runs::<_, Numbers>(&rt, rt.alloc(), &MODES, &OTHERS)
}

/// Each call works on an empty map, which is empty again in the end.
const TAKES: Script = &[
    (Verify, Done),
    (Insert(1, 10), Absent),
    (Get(1), Number(10)),
    (GetKeyValue(1), Pair(1, 10)),
    (Contains(2), Is(false)),
    // 10 stays at 1, and 20 is stored at 2.
    (TryInsert(1, 11), Kept(10, 11)),
    (TryInsertWith(2, 20), Number(20)),
    (GetOrInsert(2, 21), Number(20)),
    (GetOrInsertWith(3, 30), Number(30)),
    // 31 replaces 30 at 3, and 41 is there at 4 until it is removed.
    (Update(3), Number(31)),
    (UpdateOrInsert(4, 40), Number(40)),
    (UpdateOrInsertWith(4, 0), Number(41)),
    (Compute(4, Says::Remove), Removed(4, 41)),
    // 10, 20 and 31 are found by iterating, at 1, 2 and 3.
    (Reserve(20), Done),
    (Iter, Pair(0, 3)),
    (Keys(4), Pair(3, 6)),
    (Values, Number(61)),
    (Remove(1), Number(10)),
    (RemoveEntry(2), Pair(2, 20)),
    (Len, Number(1)),
    (RemoveIf(3, false), Kept(3, 31)),
    (Retain(ValuesAbove(30)), Done),
    (Len, Number(1)),
    (Clear, Done),
    (IsEmpty, Is(true)),
];

/// Accepts each of the map's two kinds of guard, and one of another collector with its number.
const OWN: [Turn; 3] = [
    Guarded(Holder::Map, TAKES),
    Guarded(Holder::MapOwned, TAKES),
    Guarded(Holder::Other(0), TAKES),
];

#[test]
fn a_guard_of_the_maps_number_is_taken(rt: HostRuntime) -> Result<(), Fail> {
    runs::<_, Numbers>(&rt, rt.alloc(), &MODES, &OWN)
}
