// Constructors of maps, and their refusals.
use crate::expect::is;
use crate::numbers::{Making, Numbers, Usual, usual};
use papaya_seq::seq::HashMap;
use papaya_testing::times::TOGETHER;
use papaya_words::refused::Refused;
use papaya_words::resize_mode::ResizeMode;
use std::alloc::Global;
use std::hash::{BuildHasherDefault, FoldHasher};
use std::test::Fail;

/// Returns the slots of a map that is made in this way, or why it was refused.
fn slots_of(alloc: Global, making: Making) -> Result<usize, Refused> {
    let map = usual(alloc, making)?;
    Ok(map.slots())
}

#[test]
fn capacity_is_for_so_many_pairs(rt: HostRuntime) {
    for (capacity, wanted) in [
        (10, Ok(16)),
        (1, Ok(8)),
        (4_294_967_296, Err(Refused::Capacity)),
        (3_221_225_473, Err(Refused::Capacity)),
    ] {
        let slots = slots_of(rt.alloc(), Making::Capacity(capacity));
        is(&rt, slots, wanted);
    }
}

#[test]
fn slots_of_new_maps(rt: HostRuntime) -> Result<(), Fail> {
    is(&rt, slots_of(rt.alloc(), Making::New), Ok(0));
    let hasher = BuildHasherDefault::<FoldHasher>::new();
    let sized: Usual = HashMap::with_capacity_and_hasher(rt.alloc(), 10, hasher)?;
    is(&rt, (sized.slots(), sized.len()), (16, 0));
    Ok(())
}

/// Returns why a map with these settings is refused.
fn refusal(alloc: Global, mode: ResizeMode, shards: usize) -> Option<Refused> {
    let made: Result<Numbers, Refused> = HashMap::with_parts(
        alloc, mode, 0, shards, TOGETHER, None,
    );
    made.err()
}

#[test]
fn parts_are_refused(rt: HostRuntime) {
    let zero = ResizeMode::Incremental(0);
    is(&rt, refusal(rt.alloc(), zero, 1), Some(Refused::ZeroChunk));
    is(&rt, refusal(rt.alloc(), ResizeMode::Blocking, 4), None);
}
