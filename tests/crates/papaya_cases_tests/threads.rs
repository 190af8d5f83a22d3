// Threads that remove the same keys of a map.
use crate::answers::Answer;
use crate::answers::Answer::Number;
use crate::expect::{MODES, is};
use crate::maps::goes;
use crate::shared::Shared;
use crate::steps::Step::{GetBelow, InsertBelow, Len, RemoveBelow};
use crate::steps::{Step, answer};
use papaya_map::map::HashMap;
use std::hash::BuildHasherDefault;
use std::process::Abort;
use std::sync::Wait;
use std::test::Fail;
use std::thread::{Threads, join};

/// Returns the count.
fn count(answer: Answer) -> u64 {
    match answer {
        Number(count) => count,
        _ => 0,
    }
}

/// Removes 64 keys; returns for how many the call returned the value.
fn remove<R: Wait>(rt: &R, map: &HashMap<u64, u64>) -> u64 {
    count(answer(&mut Shared { rt, map }, RemoveBelow(64, 7)))
}

/// Stores them, or looks them up.
fn make<R: Wait + Abort>(rt: &R, map: &HashMap<u64, u64>, case: &[(Step, Answer)]) {
    goes(rt, 0, case, &mut Shared { rt, map });
}

/// Checks that of two threads that remove the same keys, one call returns each key's value.
fn removes<R: Threads + Wait + Sync + Abort>(rt: &R, map: &HashMap<u64, u64>) {
    make(rt, map, &[(InsertBelow(64, 7), Number(64))]);
    let (first, second) = join(rt, || remove(rt, map), || remove(rt, map));
    is(rt, first.wrapping_add(second), 64);
    make(rt, map, &[(GetBelow(64, 7), Number(0)), (Len, Number(0))]);
}

#[test]
fn one_thread_removes_each_key(rt: HostRuntime) -> Result<(), Fail> {
    for mode in MODES {
        for _ in 0..40u64 {
            let hasher = BuildHasherDefault::new();
            let map = HashMap::with_parts(&rt, rt.alloc(), mode, 0, 4, hasher, None)?;
            removes(&rt, &map);
        }
    }
    Ok(())
}
