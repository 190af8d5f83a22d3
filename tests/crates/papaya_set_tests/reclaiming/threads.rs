// Threads that come and go all the time while another thread reclaims.
use crate::expect::is;
use crate::reclaiming::numbers::{Numbers, numbers};
use papaya_reclaiming::reclaiming::ReclaimingMap;
use papaya_words::refused::Refused;
use std::process::Abort;
use std::sync::Wait;
use std::sync::atomic::{AtomicBool, AtomicU64, Ordering};
use std::test::Fail;
use std::thread::{Threads, join, yield_now};

/// The most calls of a worker while another thread reclaims: a worker that holds the other thread
/// off for longer fails.
const MOST_TURNS: u64 = 50_000_000;

/// The number of times that the map is reclaimed meanwhile.
const RECLAIMS: u64 = 20;

/// A map, the number of workers that have come, and whether all reclaims are done.
#[derive(Drop)]
struct Shared {
    map: ReclaimingMap<u64, u64>,
    here: AtomicU64,
    is_over: AtomicBool,
}

/// Counts up in one entry.
fn count(rt: &impl Wait, map: &Numbers, key: u64) -> Result<(), Refused> {
    map.pin()
        .update_or_insert(rt, key, |count| count.wrapping_add(1), 1)?;
    Ok(())
}

/// Enters the map for each call, until all is over; returns how often it counted.
fn comes_and_goes(rt: &impl Wait, shared: &Shared) -> Result<u64, Refused> {
    let mut handle = shared.map.handle();
    shared.here.fetch_add(1, Ordering::SeqCst);
    for turn in 0..MOST_TURNS {
        if shared.is_over.load(Ordering::SeqCst) {
            return Ok(turn);
        }
        count(rt, &handle.enter(rt), 1)?;
    }
    Ok(MOST_TURNS)
}

/// Stays in the map, and refreshes its guard between two calls, until all is over; returns how
/// often it counted.
fn stays_in(rt: &impl Wait, shared: &Shared) -> Result<u64, Refused> {
    let mut handle = shared.map.handle();
    let mut entered = handle.enter(rt);
    shared.here.fetch_add(1, Ordering::SeqCst);
    for turn in 0..MOST_TURNS {
        if shared.is_over.load(Ordering::SeqCst) {
            return Ok(turn);
        }
        count(rt, &entered, 2)?;
        entered = entered.refresh(rt);
    }
    Ok(MOST_TURNS)
}

/// Reclaims the map once both workers have come.
fn reclaims(rt: &impl Wait, shared: &Shared) -> Result<(), Refused> {
    let mut handle = shared.map.handle();
    for _ in 0..MOST_TURNS {
        if shared.here.load(Ordering::SeqCst) == 2 {
            break;
        }
        yield_now();
    }
    for _ in 0..RECLAIMS {
        handle.reclaim(rt)?;
    }
    Ok(())
}

/// Lets two threads work.
fn workers(
    rt: &(impl Threads + Wait + Sync),
    shared: &Shared,
) -> (Result<u64, Refused>, Result<u64, Refused>) {
    join(rt, || comes_and_goes(rt, shared), || stays_in(rt, shared))
}

/// Reclaims, and then stops the workers.
fn reclaims_and_tells(rt: &impl Wait, shared: &Shared) -> Result<(), Refused> {
    let reclaimed = reclaims(rt, shared);
    shared.is_over.store(true, Ordering::SeqCst);
    reclaimed
}

/// Checks that the worker of this key ended before its last turn, and each of its counts is in the
/// map.
fn is_whole(rt: &(impl Abort + Wait), map: &Numbers, key: u64, worked: Result<u64, Refused>) {
    let Ok(turns) = worked else {
        assert!(rt; false, "a worker was refused");
        return;
    };
    assert!(rt; turns < MOST_TURNS, "reclaim was held off");
    is(rt, map.pin().get(&key).copied().unwrap_or(0), turns);
}

/// Checks this for both workers.
fn are_whole(
    rt: &(impl Abort + Wait),
    shared: &Shared,
    visitor: Result<u64, Refused>,
    inmate: Result<u64, Refused>,
) {
    let mut handle = shared.map.handle();
    let entered = handle.enter(rt);
    is_whole(rt, &entered, 1, visitor);
    is_whole(rt, &entered, 2, inmate);
}

#[test]
fn threads_that_come_and_go_hold_nobody_off(rt: HostRuntime) -> Result<(), Fail> {
    let shared = Shared {
        map: numbers(&rt, rt.alloc())?,
        here: AtomicU64::new(0),
        is_over: AtomicBool::new(false),
    };
    let ((visitor, inmate), reclaimed) = join(
        &rt,
        || workers(&rt, &shared),
        || reclaims_and_tells(&rt, &shared),
    );
    is(&rt, reclaimed, Ok(()));
    are_whole(&rt, &shared, visitor, inmate);
    Ok(())
}
