// Eight threads on a map or a set that grows, while one request for memory in every few is refused.
// Each call succeeds or fails with `Refused::Memory`, and no key is lost or invented. With memory
// the calls go on. The heap of `tests/refused.py` is set to refuse.
use crate::crowded::Crowded;
use crate::expect::is_at;
use crate::keys::MODES;
use papaya_map::map::HashMap;
use papaya_set::set::HashSet;
use papaya_testing::heap::{refuse_each, relent};
use papaya_testing::times::{APART, TOGETHER, Times};
use papaya_words::refused::Refused;
use papaya_words::resize_mode::ResizeMode;
use std::alloc::Global;
use std::process::Abort;
use std::sync::Wait;
use std::sync::atomic::{AtomicBool, AtomicU64, Ordering};
use std::test::Fail;
use std::thread::{Threads, for_each_mut, yield_now};

/// The keys below this one stay as they are.
const STAY: u64 = 16;

/// All threads change the keys from there to this one. Each thread also has as many of its own.
const SHARED: u64 = 32;

const OWN: u64 = 12;

const KEYS: u64 = 128;

const THREADS: u64 = 8;

/// The number of times that a thread goes over its keys.
const ROUNDS: u64 = 4;

/// The state that the threads share, and what calls that succeeded have done to each key.
#[derive(Drop)]
struct Board {
    here: AtomicU64,
    is_open: AtomicBool,
    /// How often a key was inserted, less how often it was removed.
    there: Vec<AtomicU64>,
    /// The sum of the values inserted, less those removed.
    sums: Vec<AtomicU64>,
}

/// Returns this many zeros.
fn zeros(alloc: Global) -> Result<Vec<AtomicU64>, Fail> {
    let mut zeros = Vec::new(alloc);
    for _ in 0..KEYS {
        zeros.push(AtomicU64::new(0))?;
    }
    Ok(zeros)
}

/// Adds to the record of a key.
fn add(told: &[AtomicU64], key: u64, by: u64) {
    if let Some(told) = told.get(key as usize) {
        told.fetch_add(by, Ordering::SeqCst);
    }
}

/// Returns the record of a key.
fn told(told: &[AtomicU64], key: u64) -> u64 {
    match told.get(key as usize) {
        Some(told) => told.load(Ordering::SeqCst),
        None => 0,
    }
}

impl Board {
    fn new(alloc: Global) -> Result<Board, Fail> {
        Ok(Board {
            here: AtomicU64::new(0),
            is_open: AtomicBool::new(false),
            there: zeros(alloc)?,
            sums: zeros(alloc)?,
        })
    }

    /// Records that a value took the place of what was there.
    fn came(&self, key: u64, value: u64, old: Option<u64>) {
        add(self.there.as_slice(), key, u64::from(old.is_none()));
        let more = value.wrapping_sub(old.unwrap_or(0));
        add(self.sums.as_slice(), key, more);
    }

    /// Records that what was there was removed.
    fn went(&self, key: u64, old: Option<u64>) {
        if let Some(old) = old {
            add(self.there.as_slice(), key, u64::MAX);
            add(self.sums.as_slice(), key, 0u64.wrapping_sub(old));
        }
    }

    /// Returns whether this is what is at a key, by the record.
    fn has(&self, key: u64, found: Option<u64>) -> bool {
        let there = told(self.there.as_slice(), key);
        let sum = told(self.sums.as_slice(), key);
        (there, sum) == (u64::from(found.is_some()), found.unwrap_or(0))
    }
}

/// Waits until all threads are here, if they ever are. The last one sets the heap to refuse.
fn meet(alloc: Global, board: &Board, every: usize) {
    if board.here.fetch_add(1, Ordering::SeqCst) == THREADS - 1 {
        refuse_each(alloc, every);
        board.is_open.store(true, Ordering::SeqCst);
    }
    for _ in 0..1_000_000u64 {
        if board.is_open.load(Ordering::SeqCst) {
            return;
        }
        yield_now();
    }
}

/// Stores a value. At a key that no other thread changes it is there then, or what was there
/// before.
fn puts<R: Wait, C: Crowded>(
    rt: &R,
    it: &C,
    board: &Board,
    key: u64,
    given: u64,
    is_own: bool,
) -> bool {
    let value = C::value_of(given);
    let before = it.find(key);
    let put = it.put(rt, key, given);
    let after = it.find(key);
    match put {
        Ok(old) => {
            board.came(key, value, old);
            !is_own || (old == before && after == Some(value))
        }
        Err(Refused::Memory) => !is_own || after == before,
        Err(_) => false,
    }
}

/// Removes a key. One that no other thread changes is gone then, or as it was before.
fn takes<R: Wait, C: Crowded>(rt: &R, it: &C, board: &Board, key: u64, is_own: bool) -> bool {
    let before = it.find(key);
    let taken = it.take_out(rt, key);
    let after = it.find(key);
    match taken {
        Ok(old) => {
            board.went(key, old);
            !is_own || (old == before && after.is_none())
        }
        Err(Refused::Memory) => !is_own || after == before,
        Err(_) => false,
    }
}

/// Stores a value at a key, or removes the key in one round of three.
fn changes<R: Wait, C: Crowded>(
    rt: &R,
    it: &C,
    board: &Board,
    key: u64,
    given: u64,
    is_own: bool,
) -> bool {
    if given.wrapping_add(key) % 3 == 0 {
        takes(rt, it, board, key, is_own)
    } else {
        puts(rt, it, board, key, given, is_own)
    }
}

/// Returns whether a call succeeded or failed with `Refused::Memory`.
fn is_over(answer: Result<(), Refused>) -> bool {
    answer == Ok(()) || answer == Err(Refused::Memory)
}

/// Returns whether an iterator returns each key that stays once, if memory does not run out.
fn walks<R: Wait, C: Crowded>(rt: &R, it: &C) -> bool {
    match it.walk(rt, STAY) {
        Ok((below, _)) => below == STAY,
        refused => refused == Err(Refused::Memory),
    }
}

/// Goes over the keys once; returns whether everything was as expected.
fn goes_over<R: Wait, C: Crowded>(rt: &R, it: &C, board: &Board, thread: u64, round: u64) -> bool {
    let first = OWN.wrapping_mul(thread).wrapping_add(SHARED);
    let given = ROUNDS.wrapping_mul(thread).wrapping_add(round);
    for at in 0..OWN {
        let stays = at % STAY;
        let shared = STAY.wrapping_add(at.wrapping_add(thread) % STAY);
        if !changes(rt, it, board, first.wrapping_add(at), given, true)
            || !changes(rt, it, board, shared, given, false)
            || it.find(stays) != Some(C::value_of(stays))
        {
            return false;
        }
    }
    walks(rt, it) && is_over(it.make_room(rt, 64usize.wrapping_mul(round as usize)))
}

/// Does the work of a thread.
fn works<R: Wait, C: Crowded>(
    rt: &R,
    alloc: Global,
    it: &C,
    board: &Board,
    thread: u64,
    every: usize,
) -> bool {
    meet(alloc, board, every);
    for round in 0..ROUNDS {
        if !goes_over(rt, it, board, thread, round) {
            return false;
        }
    }
    true
}

/// Lets eight threads do so, each with a number; returns whether everything was as expected.
fn eight<R: Threads + Wait + Sync, C: Crowded + Sync>(
    rt: &R,
    alloc: Global,
    it: &C,
    board: &Board,
    every: usize,
) -> bool {
    let mut did = [false; 8];
    for_each_mut(
        rt,
        &mut did,
        8,
        &|thread, did| {
            *did = works(rt, alloc, it, board, thread as u64, every);
        },
    );
    did == [true; 8]
}

/// Stores the keys that stay, each with itself.
fn stays<R: Wait, C: Crowded>(rt: &R, it: &C, board: &Board) -> Result<bool, Refused> {
    for key in 0..STAY {
        if it.put(rt, key, key)?.is_some() {
            return Ok(false);
        }
        board.came(key, C::value_of(key), None);
    }
    Ok(true)
}

/// Returns whether each key has what was recorded, and no other key has any value.
fn is_as_told<R: Wait, C: Crowded>(rt: &R, it: &C, board: &Board) -> Result<bool, Refused> {
    let mut keys = 0u64;
    for key in 0..KEYS {
        let found = it.find(key);
        if !board.has(key, found) {
            return Ok(false);
        }
        keys = keys.wrapping_add(u64::from(found.is_some()));
    }
    Ok(it.count() == keys && it.walk(rt, KEYS)? == (keys, keys))
}

/// Stores each key now, and removes each again; returns whether the old values were as expected.
fn goes_on<R: Wait, C: Crowded>(rt: &R, it: &C) -> Result<bool, Refused> {
    for key in 0..KEYS {
        let before = it.find(key);
        if it.put(rt, key, key)? != before || it.find(key) != Some(C::value_of(key)) {
            return Ok(false);
        }
    }
    let is_full = it.count() == KEYS && it.walk(rt, KEYS)? == (KEYS, KEYS);
    for key in 0..KEYS {
        if it.take_out(rt, key)? != Some(C::value_of(key)) {
            return Ok(false);
        }
    }
    Ok(is_full && it.count() == 0)
}

/// A crowd in which one request in every few is refused, with keys of one path or of their own.
#[derive(Clone, Copy)]
struct Crowd {
    mode: ResizeMode,
    hasher: Times,
    every: usize,
}

/// Returns whether everything was as expected while memory was refused, after that, and with
/// memory.
fn came_of<R: Threads + Wait + Sync, C: Crowded + Sync + Drop>(
    rt: &R,
    alloc: Global,
    crowd: Crowd,
) -> Result<(bool, bool, bool, bool), Fail> {
    let it: C = C::none(rt, alloc, crowd.mode, crowd.hasher)?;
    let board = Board::new(alloc)?;
    let stayed = stays(rt, &it, &board)?;
    let did = eight(rt, alloc, &it, &board, crowd.every);
    relent(alloc);
    Ok((stayed, did, is_as_told(rt, &it, &board)?, goes_on(rt, &it)?))
}

/// One request in this many is refused. With 1, nothing can be stored.
const EVERY: [usize; 6] = [1, 4, 5, 6, 9, 14];

/// Runs each crowd, in each mode, with keys that have paths of their own and with keys of one path.
fn crowds<R: Threads + Wait + Sync + Abort, C: Crowded + Sync + Drop>(
    rt: &R,
    alloc: Global,
) -> Result<(), Fail> {
    for mode in MODES {
        for hasher in [APART, TOGETHER] {
            for every in EVERY {
                let crowd = Crowd {
                    mode,
                    hasher,
                    every,
                };
                let found = came_of::<R, C>(rt, alloc, crowd)?;
                is_at(rt, every, found, (true, true, true, true));
            }
        }
    }
    Ok(())
}

#[test]
fn maps_of_a_crowd(rt: HostRuntime) -> Result<(), Fail> {
    crowds::<_, HashMap<u64, u64, Times>>(&rt, rt.alloc())
}

#[test]
fn sets_of_a_crowd(rt: HostRuntime) -> Result<(), Fail> {
    crowds::<_, HashSet<u64, Times>>(&rt, rt.alloc())
}
