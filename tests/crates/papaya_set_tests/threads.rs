// Threads that store and remove the same keys: for each key one thread's call returns true.
use crate::expect::is;
use crate::labels::{Keys, MODES, any, made};
use papaya_testing::crossing::Crossing;
use papaya_words::refused::Refused;
use std::process::Abort;
use std::sync::Wait;
use std::test::Fail;
use std::thread::{Threads, join};

/// The call that a thread makes for each key.
#[derive(Clone, Copy)]
enum Call {
    Insert,
    Remove,
    Contains,
}

/// Makes the call for one key.
fn answer<R: Wait>(rt: &R, set: &Keys, call: Call, number: u64) -> Result<bool, Refused> {
    match call {
        Call::Insert => set.pin().insert(rt, any(number)),
        Call::Remove => set.pin().remove(rt, &any(number)),
        Call::Contains => Ok(set.pin().contains(&any(number))),
    }
}

/// Makes the call for 64 keys once both threads are there; returns for which it returned true, as a
/// bit for each.
fn told<R: Wait>(rt: &R, set: &Keys, call: Call, crossing: &Crossing) -> Result<u64, Refused> {
    crossing.meets(1);
    let mut yes = 0u64;
    let mut bit = 1u64;
    for number in 0..64u64 {
        if answer(rt, set, call, number)? {
            yes |= bit;
        }
        bit = bit.wrapping_mul(2);
    }
    Ok(yes)
}

/// Lets two threads do so at once; returns whether the call returned true once for each key.
fn is_told_once<R: Threads + Wait + Sync>(rt: &R, set: &Keys, call: Call) -> Result<bool, Refused> {
    let crossing = Crossing::new(2, 0);
    let (first, second) = join(
        rt,
        || told(rt, set, call, &crossing),
        || told(rt, set, call, &crossing),
    );
    let (first, second) = (first?, second?);
    Ok((first & second, first | second) == (0, u64::MAX))
}

/// Lets two threads store the keys, and two remove them. For two that only look, both calls return
/// true for each key.
fn share<R: Threads + Wait + Sync + Abort>(rt: &R, set: &Keys) {
    is(rt, is_told_once(rt, set, Call::Insert), Ok(true));
    is(rt, set.len(), 64);
    is(rt, is_told_once(rt, set, Call::Contains), Ok(false));
    is(rt, is_told_once(rt, set, Call::Remove), Ok(true));
    is(rt, set.len(), 0);
}

#[test]
fn one_thread_stores_each_key_and_one_removes_it(rt: HostRuntime) -> Result<(), Fail> {
    for mode in MODES {
        for _ in 0..20u64 {
            share(&rt, &made(&rt, rt.alloc(), mode)?);
        }
    }
    Ok(())
}
