// A test that passes whichever request for memory is refused.
use crate::expect::is;
use crate::reclaiming::numbers::{Way, has, numbers, write};
use papaya_words::refused::Refused;
use std::process::Abort;
use std::sync::Wait;
use std::test::Fail;

/// Checks that the map is reclaimed, or is as it was and is reclaimed at the second try.
fn is_reclaimed(rt: &(impl Abort + Wait), way: &mut Way<'_>) {
    let before = way.enter(rt).stored();
    if let Err(refused) = way.reclaim(rt) {
        is(rt, refused, Refused::Memory);
        has(rt, way, 10, before, Some(1));
        is(rt, way.reclaim(rt), Ok(()));
    }
    has(rt, way, 10, 10, Some(1));
}

#[test]
fn a_refused_reclaim_keeps_the_map(rt: HostRuntime) -> Result<(), Fail> {
    let Ok(shared) = numbers(&rt, rt.alloc()) else {
        return Ok(());
    };
    let mut way = shared.handle();
    if write(&rt, &mut way, 2).is_ok() {
        is_reclaimed(&rt, &mut way);
    }
    Ok(())
}
