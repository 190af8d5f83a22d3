// The jobs of the tests' threads on a map, and how the threads are started.
use crate::answers::Answer;
use crate::board::Board;
use crate::held::looks_anew;
use crate::limits::fills_up;
use crate::seen::Says;
use crate::shared::Shared;
use crate::steps::{Calls, Step, answer, has_below, inserts};
use crate::threads::{churn, draw, take_left};
use papaya_testing::gate::Gate;
use papaya_testing::heap::hold;
use std::sync::Wait;
use std::sync::atomic::Ordering;
use std::thread::{Threads, join};

/// A thread's job on a map. It returns whether everything was as expected.
#[derive(Clone, Copy)]
pub enum Job {
    /// Stores this value at each key below 64.
    Store(u64),
    /// Inserts the absent keys of a range, each with itself.
    Insert(u64, u64),
    /// Inserts the absent keys of a range, each with itself and with a new pass.
    Grow(u64, u64),
    /// Inserts the absent keys of a range; some may be refused at the map's limit.
    FillUp(u64, u64),
    /// Stores each key below this one again, with itself, 20 times.
    Rewrite(u64),
    /// Inserts and removes the absent keys of a range, one after another, 20 times.
    ComeAndGo(u64, u64),
    /// Reserves room for this many more, then for twice as many, this many times in all.
    Reserve(usize, u64),
    /// Checks that the keys below this one have themselves as values.
    Has(u64),
    /// Checks so this many times.
    HasOften(u64, u64),
    /// Checks so with new passes until the other thread is done, and once more.
    Read(u64),
    /// Adds 1 to each of four values 250 times: by computes, or by updates.
    Add,
    Count,
    /// Reads a value, and stores the next one when all threads have read it.
    ReadThenStore,
    /// Adds 1 to each of 64 values, by updates. Each is one or two more than its key then.
    Update,
    /// Iterates over the map, and meets each key below this one once, 20 times.
    Walk(u64),
    /// Inserts, reads and removes the same keys as other threads, under this number.
    Churn(u64),
    /// Stores values at the same keys as other threads, each the next one of its key. It counts the
    /// replaced values, or does not.
    Draw(bool),
    /// Takes out what threads of one of the two jobs have left.
    TakeLeft,
    /// Makes a call whose closure lets the other thread replace the entry (1, 10) that it is called
    /// with. The closure is then called with (1, 20), and the call has this result.
    Gated(Step, Answer),
    /// Replaces that entry.
    Replace,
    /// Keeps the reference to the value 10 that a lookup of key 1 returned, while another thread
    /// replaces it. Or looks it up again.
    Hold,
    LookAnew,
    /// Replaces that value 1000 times, and removes it.
    WearOut,
    /// Makes a call whose closure does not return before all other threads have ended.
    Stuck(Step, Answer),
}

/// Threads that do a job each.
#[derive(Clone, Copy)]
pub enum Crowd {
    Two([Job; 2]),
    /// No threads: the second job is done after the first one.
    Apart([Job; 2]),
    Eight([Job; 4], [Job; 4]),
    /// Four threads that count what they take out; the counts end with what is left.
    Four([Job; 4]),
    /// One thread makes a call whose closure does not return before all other threads have ended.
    Stuck(Step, Answer),
    /// Four threads, of which the first to request this many bytes waits until the others have
    /// ended.
    Held(usize, [Job; 4]),
}

impl Crowd {
    /// Returns how many threads start at once, and for how many ends a gate waits.
    pub fn size(self) -> (u64, u64) {
        match self {
            Crowd::Two(_) => (2, 0),
            Crowd::Apart(_) => (1, 1),
            Crowd::Eight(_, _) => (8, 0),
            Crowd::Four(_) => (4, 0),
            Crowd::Stuck(_, _) => (8, 7),
            Crowd::Held(_, _) => (4, 3),
        }
    }

    /// Returns whether what they take out is counted.
    pub fn counts(self) -> bool {
        matches!(self, Crowd::Four(_))
    }
}

/// Stores this value at each key below 64.
fn stores<R: Wait, C: Calls>(rt: &R, map: &mut C, value: u64) -> bool {
    for key in 0..64u64 {
        if let Answer::Refused(_) = map.insert(rt, key, value) {
            return false;
        }
    }
    true
}

/// Stores each key below this one again; returns whether it was there each time.
fn rewrites<R: Wait, C: Calls>(rt: &R, map: &mut C, end: u64) -> bool {
    for _ in 0..20u64 {
        for key in 0..end {
            if map.insert(rt, key, key) != Answer::Number(key) {
                return false;
            }
        }
    }
    true
}

/// Inserts and removes these keys; returns whether each was first absent, and then there.
fn comes_and_goes<R: Wait, C: Calls>(rt: &R, map: &mut C, from: u64, end: u64) -> bool {
    for _ in 0..20u64 {
        for key in from..end {
            let came = map.insert(rt, key, key) == Answer::Absent;
            if !came || map.remove(rt, key) != Answer::Number(key) {
                return false;
            }
        }
    }
    true
}

/// Reserves room for this many more, and then for twice as many, this many times in all.
fn reserves<R: Wait, C: Calls>(rt: &R, map: &mut C, first: usize, times: u64) -> bool {
    let mut is_done = true;
    let mut more = first;
    for _ in 0..times {
        is_done = map.reserve(rt, more) == Answer::Done && is_done;
        more = more.wrapping_mul(2);
    }
    is_done
}

/// Returns whether the keys below this one have themselves as values, looked up this many times.
fn has_often<C: Calls>(map: &mut C, end: u64, times: u64) -> bool {
    for _ in 0..times {
        if !has_below(map, end, 1, 0) {
            return false;
        }
    }
    true
}

/// Adds 1 to each of four values 250 times, by computes or by updates.
fn adds<R: Wait, C: Calls>(rt: &R, map: &mut C, computes: bool) -> bool {
    let gate = Gate::open();
    for at in 0..1000u64 {
        let added = match computes {
            true => map.compute(rt, at % 4, Says::Next, &gate),
            false => map.other(rt, Step::UpdateOrInsert(at % 4, 1)),
        };
        if let Answer::Refused(_) = added {
            return false;
        }
    }
    true
}

/// Reads the value of key 0, and stores the next one when all threads have read it.
fn reads_then_stores<R: Wait, C: Calls>(rt: &R, map: &mut C, board: &Board) -> bool {
    match map.get(0) {
        Answer::Number(value) if board.crossing.meets(2) => {
            map.insert(rt, 0, value.wrapping_add(1)) != Answer::Absent
        }
        _ => false,
    }
}

/// Adds 1 to each of 64 values; returns whether each is one or two more than the key.
fn updates<R: Wait, C: Calls>(rt: &R, map: &mut C) -> bool {
    let gate = Gate::open();
    for key in 0..64u64 {
        match map.update(rt, key, &gate) {
            Answer::Number(value) if value == key + 1 || value == key + 2 => {}
            _ => return false,
        }
    }
    true
}

/// Iterates over the map; returns whether each of the first keys was met once, each time.
fn walks<R: Wait, C: Calls>(rt: &R, map: &mut C, keys: u64) -> bool {
    for _ in 0..20u64 {
        match map.keys(rt, keys) {
            Answer::Pair(below, _) if below == keys => {}
            _ => return false,
        }
    }
    true
}

/// Makes the call, whose closure waits at the gate; returns whether the gate was open in time, and
/// whether the call had this result.
fn passes<R: Wait, C: Calls>(rt: &R, map: &mut C, call: Step, wanted: Answer, gate: &Gate) -> bool {
    let found = answer(rt, map, call, gate);
    let was_passed = gate.was_passed();
    // Lets the other threads end, whatever happened.
    gate.reached.store(true, Ordering::SeqCst);
    was_passed && found == wanted
}

/// Makes the call; returns whether its closure was called with both entries, and its result fits.
fn is_gated<R: Wait, C: Calls>(
    rt: &R,
    map: &mut C,
    call: Step,
    wanted: Answer,
    gate: &Gate,
) -> bool {
    let was_passed = passes(rt, map, call, wanted, gate);
    let seen = map.seen();
    let is_first = seen.first == Some((1, 10));
    was_passed && is_first && seen.told() == Answer::Saw(0, 2, Some((1, 20)))
}

/// Replaces the entry once a closure has it; returns whether it was there, and was replaced.
fn is_replaced<R: Wait, C: Calls>(rt: &R, map: &mut C, gate: &Gate) -> bool {
    let met = gate.turn_until(&gate.reached);
    let found = map.get(1);
    let old = map.insert(rt, 1, 20);
    gate.open.store(true, Ordering::SeqCst);
    met && found == Answer::Number(10) && old == Answer::Number(10)
}

/// Replaces the value of key 1 and removes it, once another thread has it; returns whether it was
/// there each time.
fn wears_out<R: Wait, C: Calls>(rt: &R, map: &mut C, gate: &Gate) -> bool {
    let mut is_there = gate.turn_until(&gate.reached);
    let mut last = 10;
    for value in 1000..2000u64 {
        is_there = map.insert(rt, 1, value) == Answer::Number(last) && is_there;
        last = value;
    }
    is_there = map.remove(rt, 1) == Answer::Number(last) && is_there;
    gate.open.store(true, Ordering::SeqCst);
    is_there
}

/// Does a job that several threads do at the same keys, or at a gate.
fn meets<R: Wait, C: Calls>(rt: &R, map: &mut C, job: Job, board: &Board) -> bool {
    match job {
        Job::ReadThenStore => reads_then_stores(rt, map, board),
        Job::Churn(thread) => churn(rt, map, board, thread),
        Job::Draw(tells) => draw(rt, map, board, tells),
        Job::TakeLeft => take_left(map, board.taken.as_slice()),
        Job::FillUp(from, end) => fills_up(rt, map, from, end),
        Job::Gated(call, wanted) => is_gated(rt, map, call, wanted, &board.crossing.gate),
        Job::Replace => is_replaced(rt, map, &board.crossing.gate),
        Job::LookAnew => looks_anew(map, &board.crossing.gate),
        Job::WearOut => wears_out(rt, map, &board.crossing.gate),
        Job::Stuck(call, wanted) => passes(rt, map, call, wanted, &board.crossing.gate),
        _ => false,
    }
}

/// Does a job with a pass of its own, except reading.
pub fn does<R: Wait, C: Calls>(rt: &R, map: &mut C, job: Job, board: &Board) -> bool {
    match job {
        Job::Store(value) => stores(rt, map, value),
        Job::Insert(from, end) | Job::Grow(from, end) => inserts(rt, map, from, end),
        Job::Rewrite(end) => rewrites(rt, map, end),
        Job::ComeAndGo(from, end) => comes_and_goes(rt, map, from, end),
        Job::Reserve(first, times) => reserves(rt, map, first, times),
        Job::Has(end) | Job::Read(end) => has_below(map, end, 1, 0),
        Job::HasOften(end, times) => has_often(map, end, times),
        Job::Add => adds(rt, map, true),
        Job::Count => adds(rt, map, false),
        Job::Update => updates(rt, map),
        Job::Walk(keys) => walks(rt, map, keys),
        _ => meets(rt, map, job, board),
    }
}

/// Reads until the other thread is done, and once more; returns whether it always found each key.
fn reads<R: Wait, M: Shared>(rt: &R, map: &M, end: u64, board: &Board) -> bool {
    for _ in 0..10_000_000u64 {
        let is_last = board.is_done.load(Ordering::SeqCst);
        if !map.does(rt, Job::Has(end), board) {
            return false;
        }
        if is_last {
            return true;
        }
    }
    false
}

/// Inserts absent keys, each with itself, by a new pass and a new pin.
fn grows<R: Wait, M: Shared>(rt: &R, map: &M, from: u64, end: u64, board: &Board) -> bool {
    for key in from..end {
        if !map.does(rt, Job::Insert(key, key + 1), board) {
            return false;
        }
    }
    true
}

/// Does a job.
fn work<R: Wait, M: Shared>(rt: &R, map: &M, job: Job, board: &Board) -> bool {
    match job {
        Job::Read(end) => reads(rt, map, end, board),
        Job::Grow(from, end) => grows(rt, map, from, end, board),
        Job::Hold => map.holds(&board.crossing.gate),
        _ => map.does(rt, job, board),
    }
}

/// Does a job once all threads are there, and then records that it is done.
fn says<R: Wait, M: Shared>(rt: &R, map: &M, job: Job, board: &Board) -> bool {
    let began = board.begins(job);
    let did = work(rt, map, job, board);
    board.ends();
    began && did
}

/// Lets two threads do a job each.
fn two<R: Threads + Wait + Sync, M: Shared + Sync>(
    rt: &R,
    map: &M,
    board: &Board,
    jobs: [Job; 2],
) -> (bool, bool) {
    let [first, second] = jobs;
    join(
        rt,
        || says(rt, map, first, board),
        || says(rt, map, second, board),
    )
}

/// Does one job after the other.
fn apart<R: Wait, M: Shared>(rt: &R, map: &M, board: &Board, jobs: [Job; 2]) -> (bool, bool) {
    let [first, second] = jobs;
    let did = says(rt, map, first, board);
    (did, says(rt, map, second, board))
}

/// Lets four threads do a job each.
fn four<R: Threads + Wait + Sync, M: Shared + Sync>(
    rt: &R,
    map: &M,
    board: &Board,
    jobs: [Job; 4],
) -> bool {
    let [first, second, third, fourth] = jobs;
    let (low, high) = join(
        rt,
        || two(rt, map, board, [first, second]),
        || two(rt, map, board, [third, fourth]),
    );
    low == (true, true) && high == (true, true)
}

/// Lets eight threads do a job each.
fn eight<R: Threads + Wait + Sync, M: Shared + Sync>(
    rt: &R,
    map: &M,
    board: &Board,
    low: [Job; 4],
    high: [Job; 4],
) -> (bool, bool) {
    join(
        rt,
        || four(rt, map, board, low),
        || four(rt, map, board, high),
    )
}

/// Runs four threads, of which one is held up in its request for this many bytes. Returns whether
/// they did their jobs, and whether one was held up until the others had ended, if the heap can do
/// so.
fn held<R: Threads + Wait + Sync, M: Shared + Sync>(
    rt: &R,
    map: &M,
    board: &Board,
    bytes: usize,
    jobs: [Job; 4],
) -> (bool, bool) {
    // Nobody comes to the gate, so none waits there to begin.
    board.crossing.gate.reached.store(true, Ordering::SeqCst);
    let is_told = hold(board.alloc, bytes);
    let did = four(rt, map, board, jobs);
    (did, board.was_held.load(Ordering::SeqCst) == is_told)
}

/// Returns the jobs of three of seven threads while one is stuck.
fn low_beside(call: Step, wanted: Answer) -> [Job; 4] {
    [
        Job::Stuck(call, wanted),
        Job::HasOften(6, 20),
        Job::Rewrite(6),
        Job::Insert(100, 150),
    ]
}

/// The jobs of the other four.
const HIGH_BESIDE: [Job; 4] = [
    Job::Insert(150, 200),
    Job::Reserve(64, 3),
    Job::Walk(6),
    Job::ComeAndGo(300, 310),
];

/// Lets a crowd do its jobs; returns whether everything was as expected.
pub fn gathers<R: Threads + Wait + Sync, M: Shared + Sync>(
    rt: &R,
    map: &M,
    board: &Board,
    crowd: Crowd,
) -> (bool, bool) {
    match crowd {
        Crowd::Two(jobs) => two(rt, map, board, jobs),
        Crowd::Apart(jobs) => apart(rt, map, board, jobs),
        Crowd::Eight(low, high) => eight(rt, map, board, low, high),
        Crowd::Four(jobs) => (
            four(rt, map, board, jobs),
            map.does(rt, Job::TakeLeft, board),
        ),
        Crowd::Stuck(call, wanted) => {
            eight(rt, map, board, low_beside(call, wanted), HIGH_BESIDE)
        }
        Crowd::Held(bytes, jobs) => held(rt, map, board, bytes, jobs),
    }
}
