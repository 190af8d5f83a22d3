// Threads that push onto one arena.
use crate::expect::is;
use papaya_map_arena::arena::Arena;
use std::alloc::Global;
use std::sync::Wait;
use std::test::Fail;
use std::thread::{Threads, join};

/// Pushes 1000 values and reads each back. Returns their numbers.
fn numbers_of<R: Wait>(rt: &R, alloc: Global, log: &Arena<u64>, from: u64) -> Option<Vec<usize>> {
    let mut numbers = Vec::new(alloc);
    for place in 0..1000u64 {
        let value = from.wrapping_add(place);
        let pushed = log.push_shown(rt, value, value).ok()?;
        if *log.value(&pushed) != value {
            return None;
        }
        numbers.push(pushed.index()).ok()?;
    }
    Some(numbers)
}

/// Returns the numbers that two threads were given, sorted.
fn numbers_of_both<R: Threads + Wait + Sync>(
    rt: &R,
    alloc: Global,
    log: &Arena<u64>,
) -> Option<Vec<usize>> {
    let (one, other) = join(
        rt,
        || numbers_of(rt, alloc, log, 0),
        || numbers_of(rt, alloc, log, 1000),
    );
    let mut numbers = one?;
    for number in other? {
        numbers.push(number).ok()?;
    }
    numbers.sort().ok()?;
    Some(numbers)
}

#[test]
fn no_number_is_given_twice(rt: HostRuntime) -> Result<(), Fail> {
    let log = Arena::new(rt.alloc(), 0)?;
    let mut numbers = numbers_of_both(&rt, rt.alloc(), &log).expect(&rt, "memory");
    is(&rt, numbers.len(), 2000);
    numbers.dedup();
    is(&rt, numbers.len(), 2000);
    Ok(())
}
