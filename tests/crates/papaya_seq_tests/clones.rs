// Maps of clones, and maps that are rebuilt.
use crate::expect::is;
use crate::numbers::{Numbers, Parts, Work, on_made};
use papaya_testing::times::{TOGETHER, Times};
use papaya_words::refused::Refused;
use papaya_words::resize_mode::ResizeMode;
use std::alloc::Global;
use std::process::Abort;
use std::test::Fail;

/// Stores the keys below this one twice, each finally with itself as its value.
fn stores_twice(map: &mut Numbers, end: u64) -> Result<(), Refused> {
    for key in 0..end {
        let _ = map.put(key, 1000)?;
        let _ = map.put(key, key)?;
    }
    Ok(())
}

/// Checks that both have twenty keys, and that a change of one does not affect the other.
fn is_apart(rt: &impl Abort, map: &Numbers, clone: &mut Numbers) -> Result<(), Fail> {
    is(rt, (clone.len(), map.eq(clone)), (20, true));
    let _ = clone.put(7, 70)?;
    is(rt, (map.get(&7), map.eq(clone)), (Some(&7), false));
    Ok(())
}

/// Checks that the pairs are numbered again, and that replaced ones are gone.
fn is_reclaimed(rt: &impl Abort, map: &mut Numbers, clone: &Numbers) -> Result<(), Fail> {
    is(rt, map.pair(199).is_some(), true);
    map.reclaim()?;
    is(rt, (map.len(), map.eq(clone)), (100, true));
    let there = (map.pair(99).is_some(), map.pair(100).is_some());
    is(rt, there, (true, false));
    Ok(())
}

/// The cases of a map of some keys and its clone.
#[derive(Clone, Copy)]
enum Case {
    /// One of them is changed.
    IsApart,
    /// There is no key.
    IsEmpty,
    /// The map is rebuilt.
    IsReclaimed,
}

impl Case {
    /// Returns how many keys there are.
    fn keys(self) -> u64 {
        match self {
            Case::IsApart => 20,
            Case::IsEmpty => 0,
            Case::IsReclaimed => 100,
        }
    }

    fn is_so(self, rt: &impl Abort, map: &mut Numbers, clone: &mut Numbers) -> Result<(), Fail> {
        match self {
            Case::IsApart => is_apart(rt, map, clone)?,
            Case::IsEmpty => is(rt, (clone.len(), map.eq(clone)), (0, true)),
            Case::IsReclaimed => is_reclaimed(rt, map, clone)?,
        }
        Ok(())
    }
}

impl Work<Times> for Case {
    fn is_done<R: Abort>(self, rt: &R, alloc: Global, map: &mut Numbers) -> Result<(), Fail> {
        stores_twice(map, self.keys())?;
        let mut clone = map.try_clone(alloc)?;
        self.is_so(rt, map, &mut clone)
    }
}

const PARTS: Parts = Parts::All(ResizeMode::Blocking, 0, TOGETHER);

#[test]
fn clone_is_equal_and_apart(rt: HostRuntime) -> Result<(), Fail> {
    on_made(&rt, rt.alloc(), PARTS, Case::IsApart)
}

#[test]
fn clone_of_an_empty_map_is_empty(rt: HostRuntime) -> Result<(), Fail> {
    on_made(&rt, rt.alloc(), PARTS, Case::IsEmpty)
}

#[test]
fn reclaimed_map_is_as_before(rt: HostRuntime) -> Result<(), Fail> {
    on_made(&rt, rt.alloc(), PARTS, Case::IsReclaimed)
}
