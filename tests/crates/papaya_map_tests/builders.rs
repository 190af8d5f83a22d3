// The maps that builders and constructors make, and the settings that they refuse.
use crate::answers::Answer::{Absent, Number, Refused as No};
use crate::expect::is;
use crate::numbers::Numbers;
use crate::shared::Turn::{Calls, Guarded};
use crate::shared::{Holder, Making, Shared, runs};
use crate::steps::Script;
use crate::steps::Step::{Get, Insert, Len};
use papaya_map::builder::HashMapBuilder;
use papaya_map::map::HashMap;
use papaya_testing::times::{APART, Times};
use papaya_words::refused::Refused;
use papaya_words::resize_mode::ResizeMode;
use papaya_words_keys::guard::Collector;
use std::alloc::Global;
use std::process::Abort;
use std::sync::{Arc, Wait};
use std::test::Fail;

/// The settings of a builder.
#[derive(Clone, Copy)]
pub enum Asked {
    Nothing,
    Capacity(usize),
    Shards(usize),
    Mode(ResizeMode),
    /// A collector of this number.
    Collector(u64),
    /// A limit on the entries that are stored.
    Limit(u64),
    /// Each setting.
    All,
}

/// The builder of the tests.
type Builder = HashMapBuilder<u64, u64, Times>;

/// Returns a builder of maps in which small keys have places of their own.
fn builder() -> Builder {
    HashMap::builder().hasher(APART)
}

/// Returns a builder with each setting.
fn whole() -> Builder {
    builder()
        .collector(Collector::new(3))
        .capacity(10)
        .resize_mode(ResizeMode::Blocking)
        .shards(4)
        .pair_limit(100)
}

/// Returns a builder with this setting.
fn asking(asked: Asked) -> Builder {
    match asked {
        Asked::Nothing => builder(),
        Asked::Capacity(capacity) => builder().capacity(capacity),
        Asked::Shards(shards) => builder().shards(shards),
        Asked::Mode(mode) => builder().resize_mode(mode),
        Asked::Collector(number) => builder().collector(Collector::new(number)),
        Asked::Limit(pairs) => builder().pair_limit(pairs),
        Asked::All => whole(),
    }
}

/// Builds a map with this setting.
pub fn built<R: Wait>(rt: &R, alloc: Global, asked: Asked) -> Result<Numbers, Refused> {
    asking(asked).build(rt, alloc)
}

/// Builds a map that shares this collector.
pub fn sharing<R: Wait>(
    rt: &R,
    alloc: Global,
    collector: Arc<Collector>,
) -> Result<Numbers, Refused> {
    builder().shared_collector(collector).build(rt, alloc)
}

/// Checks that the maps are not made, for these reasons.
fn refuses<R: Wait + Abort, M: Shared + Drop>(
    rt: &R,
    alloc: Global,
    refused: &[(Making, Refused)],
) {
    for &(making, why) in refused {
        is(rt, M::made(rt, alloc, making).err(), Some(why));
    }
}

/// Settings past a limit.
const PAST: [(Making, Refused); 4] = [
    (
        Making::Built(Asked::Mode(ResizeMode::Incremental(0))),
        Refused::ZeroChunk,
    ),
    (
        Making::Built(Asked::Capacity(0x1_0000_0000)),
        Refused::Capacity,
    ),
    (
        Making::Built(Asked::Capacity(3_221_225_473)),
        Refused::Capacity,
    ),
    (Making::Built(Asked::Shards(65_537)), Refused::Capacity),
];

#[test]
fn what_is_past_a_limit_is_not_built(rt: HostRuntime) {
    refuses::<_, Numbers>(&rt, rt.alloc(), &PAST);
}

/// Maps for too many entries.
const TOO_LARGE: [(Making, Refused); 2] = [
    (Making::Capacity(0x1_0000_0000), Refused::Capacity),
    (Making::Capacity(3_221_225_473), Refused::Capacity),
];

#[test]
fn a_map_for_too_many_pairs_is_not_made(rt: HostRuntime) {
    refuses::<_, Numbers>(&rt, rt.alloc(), &TOO_LARGE);
}

/// Stores an entry in an empty map.
const STORES: Script = &[
    (Len, Number(0)),
    (Insert(1, 10), Absent),
    (Get(1), Number(10)),
];

/// Maps with numbers of shards up to the limit.
const SHARDS: [Making; 3] = [
    Making::Built(Asked::Shards(0)),
    Making::Built(Asked::Shards(3)),
    Making::Built(Asked::Shards(65_536)),
];

#[test]
fn any_number_of_shards_to_the_limit_is_built(rt: HostRuntime) -> Result<(), Fail> {
    runs::<_, Numbers>(&rt, rt.alloc(), &SHARDS, &[Calls(STORES)])
}

#[test]
fn each_part_may_be_asked_for(rt: HostRuntime) -> Result<(), Fail> {
    runs::<_, Numbers>(
        &rt,
        rt.alloc(),
        &[Making::Built(Asked::All)],
        &[Calls(STORES)],
    )
}

#[test]
fn a_map_is_made_with_a_hasher(rt: HostRuntime) -> Result<(), Fail> {
    runs::<_, Numbers>(&rt, rt.alloc(), &[Making::Hasher], &[Calls(STORES)])
}

/// A call by which a map accepts guards of its collector's number, and refuses others.
const TAKES: Script = &[(Get(1), Absent)];

const REFUSES: Script = &[(Get(1), No(Refused::WrongGuard))];

#[test]
fn a_guard_is_known_by_its_collector(rt: HostRuntime) -> Result<(), Fail> {
    runs::<_, Numbers>(
        &rt,
        rt.alloc(),
        &[Making::Built(Asked::Collector(2))],
        &[
            Guarded(Holder::Other(2), TAKES),
            Guarded(Holder::Other(1), REFUSES),
        ],
    )
}

/// Checks that a map shares a collector, whose guards it accepts.
fn shares<R: Wait + Abort, M: Shared + Drop>(rt: &R, alloc: Global) -> Result<(), Fail> {
    let collector = Arc::new(alloc, Collector::new(5)).expect(rt, "memory");
    let map: M = M::sharing(rt, alloc, Arc::try_clone(&collector)?)?;
    map.goes_with(rt, 0, &collector, false, TAKES);
    map.goes_with(rt, 0, &Collector::new(0), false, REFUSES);
    Ok(())
}

#[test]
fn maps_may_share_a_collector(rt: HostRuntime) -> Result<(), Fail> {
    shares::<_, Numbers>(&rt, rt.alloc())
}

/// Returns the slots of a map built for one caller, or its refusal.
fn slots_for(alloc: Global, asked: Asked) -> Result<usize, Refused> {
    let map = asking(asked).build_seq(alloc)?;
    Ok(map.slots())
}

/// Settings, and the slots of a map for one caller built with them.
const SLOTS: [(Asked, Result<usize, Refused>); 4] = [
    (Asked::Nothing, Ok(0)),
    (Asked::Limit(0), Ok(0)),
    (Asked::Capacity(10), Ok(16)),
    (
        Asked::Mode(ResizeMode::Incremental(0)),
        Err(Refused::ZeroChunk),
    ),
];

#[test]
fn a_map_for_one_caller_is_built(rt: HostRuntime) {
    for (asked, wanted) in SLOTS {
        is(&rt, slots_for(rt.alloc(), asked), wanted);
    }
}

/// Checks that a builder shows its capacity, its collector's number and its mode.
#[test]
fn a_builder_is_shown(rt: HostRuntime) -> Result<(), Fail> {
    let text = format!(in rt.alloc(); "{:?}", builder().capacity(6).collector(Collector::new(2)))?;
    let wanted = "HashMapBuilder { capacity: 6, collector: 2, resize_mode: Incremental(64) }";
    is(&rt, text.as_str() == wanted, true);
    Ok(())
}
