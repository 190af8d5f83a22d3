// Worked values, for errors that clause and code might share, and tests that each call can succeed.
use crate::expect::{is, is_at};
use papaya_words::counter::Counter;
use papaya_words::fresh::FreshWords;
use papaya_words::limits::{DEFAULT_CHUNK, FIRST_TABLE_LEN, FIRST_TABLE_LIMIT, MAX_SHARDS};
use papaya_words::probe::{Probe, entries_for, limit};
use papaya_words::refused::Refused;
use papaya_words::resize_mode::ResizeMode;
use papaya_words::table::{Table, next_len, next_limit, table_len};
use papaya_words::word::{Kind, SHUT, Word, h1, hint, legal, may_hold};
use std::test::Fail;

#[test]
fn places_of_a_search(rt: HostRuntime) {
    let mut probe = Probe::start(5, 7);
    for place in [5, 6, 0, 3, 7, 4, 2, 1] {
        is(&rt, probe.i, place);
        assert!(rt; probe.len < 8);
        probe.next(7);
    }
}

#[test]
fn limits_of_tables(rt: HostRuntime) {
    is(&rt, limit(1), 0);
    is(&rt, limit(8), 15);
    is(&rt, limit(32), 25);
    is(&rt, limit(FIRST_TABLE_LEN), FIRST_TABLE_LIMIT);
    is(&rt, limit(4096), 60);
    is(&rt, next_limit(64, 32, false), 30);
    is(&rt, next_limit(64, 64, false), 63);
    is(&rt, next_limit(256, 128, true), 255);
}

#[test]
fn entries_for_capacities(rt: HostRuntime) {
    for (capacity, want) in [
        (0, Ok(1)),
        (1, Ok(1)),
        (6, Ok(8)),
        (7, Ok(16)),
        (10, Ok(16)),
        (2048, Ok(4096)),
        (3_221_225_472, Ok(4_294_967_296)),
        (1 << 61, Err(Refused::Capacity)),
    ] {
        is_at(&rt, capacity, entries_for(capacity), want);
    }
}

#[test]
fn lengths_of_next_tables(rt: HostRuntime) {
    for (len, count, initial, did_not_fit, want) in [
        (32, 26, 1, false, Ok(64)),
        (64, 31, 1, false, Ok(64)),
        (64, 64, 1, false, Ok(128)),
        (32, 0, 1, false, Ok(16)),
        (32, 4, 1, false, Ok(16)),
        (32, 5, 1, false, Ok(32)),
        (32, 0, 32, false, Ok(32)),
        (128, 64, 1, true, Ok(256)),
        (64, 0, 1, true, Ok(128)),
        (1 << 32, 0, 1, true, Err(Refused::Capacity)),
    ] {
        let next = next_len(len, count, initial, did_not_fit);
        is_at(&rt, len, next, want);
    }
    is(&rt, table_len(4), 8);
    is(&rt, table_len(16), 16);
}

#[test]
fn words_of_slots(rt: HostRuntime) {
    is(&rt, Word::live(3), Word(3073));
    is(&rt, Word::marked(3), Word(3074));
    is(&rt, Word::copied(3), Word(3075));
    is(&rt, Word::buried(3), Word(3076));
    is(&rt, Word(3073).pair(), 3);
}

#[test]
fn kinds_of_words(rt: HostRuntime) {
    for (word, kind) in [
        (Word::EMPTY, Kind::Empty),
        (Word(3073), Kind::Live),
        (Word(3074), Kind::Marked),
        (Word(3075), Kind::Copied),
        (Word(3076), Kind::Buried),
        (Word::CLOSED, Kind::Closed),
    ] {
        is(&rt, word.kind(), kind);
    }
}

#[test]
fn hints_of_hashes(rt: HostRuntime) {
    is(&rt, hint(0), 1);
    is(&rt, hint(1 << 57), 2);
    is(&rt, hint(u64::MAX), 128);
    assert!(rt; may_hold(0, u64::MAX) && may_hold(128, u64::MAX) && !may_hold(1, u64::MAX));
    assert!(rt; !may_hold(SHUT as u64, u64::MAX));
    is(&rt, h1(u64::MAX), usize::MAX);
}

#[test]
fn steps_of_slots(rt: HostRuntime) {
    let one = Word::live(3);
    let other = Word::live(4);
    for (old, new) in [
        (Word::EMPTY, one),
        (Word::EMPTY, Word::CLOSED),
        (one, other),
        (one, Word::buried(3)),
        (one, Word::marked(3)),
        (Word::marked(3), Word::copied(3)),
    ] {
        assert!(rt; legal(old, new), "{old:?} to {new:?}");
        assert!(rt; !legal(new, old) || new == other, "{new:?} to {old:?}");
    }
}

#[test]
fn no_steps_of_slots(rt: HostRuntime) {
    let one = Word::live(3);
    for (old, new) in [
        (one, Word::buried(4)),
        (one, Word::CLOSED),
        (Word::buried(3), one),
    ] {
        assert!(rt; !legal(old, new), "{old:?} to {new:?}");
    }
}

#[test]
fn refusals(rt: HostRuntime) -> Result<(), Fail> {
    for (refused, number, name, reason) in [
        (Refused::Memory, 1, "Memory", "out of memory"),
        (
            Refused::Capacity,
            2,
            "Capacity",
            "no capacity: a size would exceed a limit of the map",
        ),
        (
            Refused::WrongGuard,
            3,
            "WrongGuard",
            "wrong guard: it belongs to another collector than the map's",
        ),
        (
            Refused::RemoveNothing,
            4,
            "RemoveNothing",
            "nothing to remove: the key has no entry",
        ),
        (
            Refused::ZeroChunk,
            5,
            "ZeroChunk",
            "a chunk of a resize needs at least one slot",
        ),
        (
            Refused::Shape,
            6,
            "Shape",
            "wrong JSON: a map is read from an object, and a set from an array",
        ),
        (
            Refused::KeyClash,
            7,
            "KeyClash",
            "two keys have the same JSON text",
        ),
        (
            Refused::Item,
            8,
            "Item",
            "an item was not converted to JSON or from it",
        ),
        (
            Refused::Limit,
            9,
            "Limit",
            "pair limit reached: reclaim the map, or build it with a larger limit",
        ),
    ] {
        is(&rt, refused.number(), number);
        is(&rt, refused.name(), name);
        let printed = format!(in rt.alloc(); "{refused}")?;
        is(&rt, printed.as_str(), reason);
    }
    Ok(())
}

#[test]
fn default_mode(rt: HostRuntime) {
    let wanted = ResizeMode::Incremental(DEFAULT_CHUNK);
    is(&rt, ResizeMode::default(), wanted);
}

#[test]
fn shards_of_a_count(rt: HostRuntime) -> Result<(), Fail> {
    for (asked, want) in [(0, 1), (3, 4), (16, 16), (65_536, 65_536)] {
        let counter = Counter::new(rt.alloc(), asked)?;
        is_at(&rt, asked, counter.shards(), want);
    }
    let none = Counter::new(rt.alloc(), MAX_SHARDS + 1);
    assert!(rt; matches!(none, Err(Refused::Capacity)));
    Ok(())
}

#[test]
fn sums_of_shards(rt: HostRuntime) -> Result<(), Fail> {
    let mut counter = Counter::new(rt.alloc(), 4)?;
    is(&rt, counter.get(5), 1);
    assert!(rt; counter.shards() == 4);
    counter.add(0, 2);
    counter.add(1, -1);
    counter.add(3, 5);
    is(&rt, counter.sum(), 6);
    counter.add(2, -7);
    is(&rt, counter.sum(), 0);
    counter.add(0, 3);
    is(&rt, counter.sum(), 2);
    Ok(())
}

#[test]
fn words_of_a_table(rt: HostRuntime) -> Result<(), Fail> {
    let mut table = Table::new(rt.alloc(), FreshWords::new(rt.alloc()), 1, 8, 15, 3)?;
    is(
        &rt,
        (table.number(), table.len(), table.limit()),
        (1, 8, 15),
    );
    is(
        &rt,
        (table.next(), table.aborted(), table.chunks()),
        (0, 0, 3),
    );
    is(
        &rt,
        (table.done(0), table.done(1), table.done(2)),
        (0, 0, 0),
    );
    table.set_next(2);
    table.set_aborted(1);
    table.set_chunk_copied(1, 1);
    table.put(6, 3073);
    is(&rt, (table.next(), table.aborted()), (2, 1));
    is(
        &rt,
        (table.done(0), table.done(1), table.done(2)),
        (0, 1, 0),
    );
    is(&rt, (table.slot(6), table.slot(7)), (3073, 0));
    table.set_hint(6, 7);
    // An existing hint stays.
    table.set_hint(6, SHUT);
    is(&rt, (table.hint(6), table.hint(7)), (7, 0));
    Ok(())
}
