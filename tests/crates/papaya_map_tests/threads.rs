// Threads that store, read and remove values at the same keys, each with a pass of its own, and
// count what they take out.
use crate::answers::Answer;
use crate::board::Board;
use crate::crowd::Crowd::Four;
use crate::crowd::Job::{Churn, Draw};
use crate::numbers::Numbers;
use crate::shared::Turn::{Fails, Threads};
use crate::shared::{MODES, runs};
use crate::steps::Calls;
use std::sync::Wait;
use std::sync::atomic::{AtomicU64, Ordering};
use std::test::Fail;

pub const KEYS: u64 = 16;

const ROUNDS: u64 = 256;

/// The number of values, from 0 on, that four threads store at each key.
pub const EACH: u64 = 1024;

/// Returns the value that a thread stores at each key in a round. No two stores at a key have the
/// same value.
fn value_of(thread: u64, round: u64) -> u64 {
    thread.wrapping_mul(ROUNDS).wrapping_add(round)
}

/// Returns whether the result is none, or a value that some thread stores.
fn is_legal(answer: Answer) -> bool {
    match answer {
        Answer::Absent => true,
        Answer::Number(value) => value < EACH,
        _ => false,
    }
}

/// Counts what was taken out at a key; returns whether it is legal.
fn take(taken: &[AtomicU64], key: u64, answer: Answer) -> bool {
    if let Answer::Number(value) = answer {
        let place = key.wrapping_mul(EACH).wrapping_add(value);
        if let Some(count) = taken.get(place as usize) {
            count.fetch_add(1, Ordering::SeqCst);
        }
    }
    is_legal(answer)
}

/// Inserts and reads a key, and removes it in three rounds of four; returns whether all that was
/// found is legal.
fn turn<R: Wait, C: Calls>(rt: &R, map: &mut C, taken: &[AtomicU64], key: u64, value: u64) -> bool {
    let is_old = take(taken, key, map.insert(rt, key, value));
    let is_seen = is_legal(map.get(key));
    if (key ^ value) % 4 == 0 {
        return is_old && is_seen;
    }
    take(taken, key, map.remove(rt, key)) && is_old && is_seen
}

/// Does so with each key in each round.
pub fn churn<R: Wait, C: Calls>(rt: &R, map: &mut C, board: &Board, thread: u64) -> bool {
    for round in 0..ROUNDS {
        for key in 0..KEYS {
            if !turn(
                rt,
                map,
                board.taken.as_slice(),
                key,
                value_of(thread, round),
            ) {
                return false;
            }
        }
    }
    true
}

/// Stores the next value of each key in each round. Counts what it replaced, if `tells` is true.
pub fn draw<R: Wait, C: Calls>(rt: &R, map: &mut C, board: &Board, tells: bool) -> bool {
    for _ in 0..ROUNDS {
        for (key, next) in board.drawn.iter().enumerate() {
            let key = key as u64;
            let old = map.insert(rt, key, next.fetch_add(1, Ordering::SeqCst));
            if tells && !take(board.taken.as_slice(), key, old) {
                return false;
            }
        }
    }
    true
}

/// Returns whether each value was taken out once.
fn took_each_once(taken: &[AtomicU64]) -> bool {
    for count in taken {
        if count.load(Ordering::SeqCst) != 1 {
            return false;
        }
    }
    true
}

/// Takes out the values that are left; returns whether they are as many as were counted, and each
/// value was then taken out once.
pub fn take_left<C: Calls>(map: &mut C, taken: &[AtomicU64]) -> bool {
    let mut left = 0u64;
    for key in 0..KEYS {
        let value = map.get(key);
        if !take(taken, key, value) {
            return false;
        }
        left = left.wrapping_add(u64::from(value != Answer::Absent));
    }
    map.len() == left && took_each_once(taken)
}

/// Checks that each value is taken out once or is left, and none is lost or taken twice.
#[test]
fn each_value_is_taken_out_once(rt: HostRuntime) -> Result<(), Fail> {
    runs::<_, Numbers>(
        &rt,
        rt.alloc(),
        &MODES,
        &[Threads(Four([Churn(0), Churn(1), Churn(2), Churn(3)]))],
    )
}

/// Checks 256 insertions of each of four threads at each of 16 keys. The values of a key are drawn
/// from one counter. The replaced values and the last ones are 0 to 1023, each once.
#[test]
fn each_value_is_replaced_once(rt: HostRuntime) -> Result<(), Fail> {
    runs::<_, Numbers>(&rt, rt.alloc(), &MODES, &[Threads(Four([Draw(true); 4]))])
}

/// Checks that the test notices a thread that does not count what it has replaced.
#[test]
fn a_value_that_nobody_tells_of_is_missed(rt: HostRuntime) -> Result<(), Fail> {
    runs::<_, Numbers>(
        &rt,
        rt.alloc(),
        &MODES,
        &[Fails(
            Four([Draw(true), Draw(true), Draw(true), Draw(false)]),
            (true, false),
        )],
    )
}
