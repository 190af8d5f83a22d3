// Threads that share a map while it grows, or while room is reserved.
use crate::answers::Answer::{Done, Is, Number, Refused};
use crate::crowd::Crowd::{Eight, Two};
use crate::crowd::Job::{Grow, HasOften, Insert, Read, Reserve, Store, Walk};
use crate::numbers::Numbers;
use crate::shared::Turn::{Calls, Fails, Guarded, Threads};
use crate::shared::{Holder, MODES, Making, Turn, runs};
use crate::steps::Step;
use crate::steps::Step::{HasBelow, HasEither, InsertBelow, Len};
use papaya_testing::times::APART;
use papaya_words::refused::Refused as Why;
use papaya_words::resize_mode::ResizeMode;
use std::test::Fail;

/// Two threads store the same keys in an empty map.
const STORES_TWICE: [Turn; 2] = [
    Threads(Two([Store(0), Store(1)])),
    Calls(&[(HasEither(64), Is(true)), (Len, Number(64))]),
];

#[test]
fn two_threads_store_the_same_keys(rt: HostRuntime) -> Result<(), Fail> {
    runs::<_, Numbers>(&rt, rt.alloc(), &MODES, &STORES_TWICE)
}

/// Maps for six entries, with a table of 8 slots.
pub const FOR_SIX: [Making; 3] = [
    Making::Parts(ResizeMode::Blocking, 6, APART),
    Making::Parts(ResizeMode::Incremental(1), 6, APART),
    Making::Parts(ResizeMode::Incremental(64), 6, APART),
];

/// One thread makes the table grow to 256 slots, and the other finds the first keys each time. Keys
/// over 255 would share their paths with lower ones, and need far longer tables.
const READS_WHILE_GROWING: [Turn; 3] = [
    Calls(&[(InsertBelow(6), Is(true))]),
    Threads(Two([Grow(6, 256), Read(6)])),
    Calls(&[(Len, Number(256))]),
];

#[test]
fn a_reader_finds_the_first_keys_while_the_map_grows(rt: HostRuntime) -> Result<(), Fail> {
    runs::<_, Numbers>(&rt, rt.alloc(), &FOR_SIX, &READS_WHILE_GROWING)
}

/// Eight threads insert 32 keys each, so that all need each next table at once.
const INSERTS_EIGHT: [Turn; 2] = [
    Threads(Eight(
        [
            Insert(0, 32),
            Insert(32, 64),
            Insert(64, 96),
            Insert(96, 128),
        ],
        [
            Insert(128, 160),
            Insert(160, 192),
            Insert(192, 224),
            Insert(224, 256),
        ],
    )),
    Calls(&[(HasBelow(256, 1, 0), Is(true)), (Len, Number(256))]),
];

#[test]
fn eight_threads_that_need_a_next_table_lose_no_key(rt: HostRuntime) -> Result<(), Fail> {
    runs::<_, Numbers>(&rt, rt.alloc(), &FOR_SIX, &INSERTS_EIGHT)
}

/// One thread makes the map grow, and the other iterates over it.
const WALKS_BESIDE: [Turn; 3] = [
    Calls(&[(InsertBelow(6), Is(true))]),
    Threads(Two([Insert(6, 300), Walk(6)])),
    Calls(&[(Len, Number(300))]),
];

#[test]
fn a_walker_meets_the_first_keys_while_the_map_grows(rt: HostRuntime) -> Result<(), Fail> {
    runs::<_, Numbers>(&rt, rt.alloc(), &MODES, &WALKS_BESIDE)
}

/// One thread reserves room for 2048 entries more, and so on to 32,768, each time in a longer
/// table. The other finds all keys 32 times.
const READS_BESIDE: [Turn; 3] = [
    Calls(&[(InsertBelow(1024), Is(true))]),
    Threads(Two([Reserve(2048, 5), HasOften(1024, 32)])),
    Calls(&[(Len, Number(1024))]),
];

#[test]
fn a_reader_finds_all_keys_while_room_is_made(rt: HostRuntime) -> Result<(), Fail> {
    runs::<_, Numbers>(&rt, rt.alloc(), &[MODES[0]], &READS_BESIDE)
}

#[test]
fn a_reader_finds_all_keys_while_one_slot_is_copied_at_a_time(rt: HostRuntime) -> Result<(), Fail> {
    runs::<_, Numbers>(&rt, rt.alloc(), &[MODES[1]], &READS_BESIDE)
}

#[test]
fn a_reader_finds_all_keys_while_chunks_are_copied(rt: HostRuntime) -> Result<(), Fail> {
    runs::<_, Numbers>(&rt, rt.alloc(), &[MODES[2]], &READS_BESIDE)
}

/// The threads look up one key more than there is.
const READS_TOO_FAR: [Turn; 2] = [
    Calls(&[(InsertBelow(64), Is(true))]),
    Fails(Two([Reserve(128, 2), HasOften(65, 32)]), (true, false)),
];

#[test]
fn a_key_that_a_reader_misses_is_found_out(rt: HostRuntime) -> Result<(), Fail> {
    runs::<_, Numbers>(&rt, rt.alloc(), &MODES, &READS_TOO_FAR)
}

/// More entries than a table has slots for: 2^61.
const TOO_MANY: usize = 2_305_843_009_213_693_952;

/// No table has room for this many entries, and none is made.
const REFUSES: [Turn; 2] = [
    Calls(&[
        (Step::Reserve(TOO_MANY), Refused(Why::Capacity)),
        (Step::Reserve(0), Done),
    ]),
    Guarded(
        Holder::Map,
        &[
            (Step::Reserve(TOO_MANY), Refused(Why::Capacity)),
            (Step::Reserve(20), Done),
        ],
    ),
];

#[test]
fn room_for_too_many_pairs_is_refused(rt: HostRuntime) -> Result<(), Fail> {
    runs::<_, Numbers>(&rt, rt.alloc(), &MODES, &REFUSES)
}
