// Calls of a set that overlap: a closure or a reference of one thread, and changes by others.
use crate::expect::is;
use crate::labels::{Keys, MODES, any, key, made};
use papaya_testing::crossing::Crossing;
use papaya_testing::gate::{Gate, Peek};
use papaya_testing::labels::Labelled;
use papaya_words::refused::Refused;
use papaya_words::resize_mode::ResizeMode;
use std::alloc::Global;
use std::process::Abort;
use std::sync::Wait;
use std::sync::atomic::Ordering;
use std::test::Fail;
use std::thread::{Threads, join, map_indices};

/// A thread's job on a set. It returns whether everything was as expected.
#[derive(Clone, Copy)]
enum Job {
    /// Retains by a closure that waits at the gate, and returns true from this call on.
    Retain(u64),
    /// Stores 7 once more, with another label, while a closure is called with it.
    Replace,
    /// Keeps the reference to the key 7 that a lookup returned, or looks it up again.
    Hold,
    LookAnew,
    /// Replaces that key 1000 times and removes it, once another thread has it.
    WearOut,
    /// Looks up the keys below 6, 20 times.
    Has,
    /// Stores each of them once more, 20 times.
    Rewrite,
    /// Inserts the absent keys of a range.
    Insert(u64, u64),
    /// Inserts and removes the absent keys of a range, one after another, 20 times.
    ComeAndGo(u64, u64),
    /// Reserves room three times.
    Reserve,
    /// Iterates over the set, and meets each key below 6 once, 20 times.
    Walk,
}

/// Returns the label of the stored key 7.
fn label(set: &Keys) -> Option<char> {
    match set.pin().get(&any(7)) {
        Some(key) => Some(key.label),
        None => None,
    }
}

/// Retains by a closure that waits at the gate, and returns true from this call on; returns whether
/// the gate was open in time.
fn retains<R: Wait>(rt: &R, set: &Keys, from: u64, gate: &Gate) -> Result<bool, Refused> {
    let pinned = set.pin();
    let mut calls = 0u64;
    let retained = pinned.retain(rt, |_| {
        gate.wait();
        calls = calls.wrapping_add(1);
        calls >= from
    });
    let was_passed = gate.was_passed();
    // Lets the other threads end, whatever happened.
    gate.reached.store(true, Ordering::SeqCst);
    retained?;
    Ok(was_passed)
}

/// Replaces key 7 once a closure has it; returns whether it was there, and was replaced.
fn replaces<R: Wait>(rt: &R, set: &Keys, gate: &Gate) -> Result<bool, Refused> {
    let met = gate.turn_until(&gate.reached);
    let was_there = label(set) == Some('x');
    let is_new = set.pin().insert(rt, key(7, 'y'));
    gate.open.store(true, Ordering::SeqCst);
    Ok(!is_new? && met && was_there)
}

/// The reference that a lookup returned.
#[derive(Drop)]
struct Held<'a>(&'a Labelled);

impl Peek for Held<'_> {
    fn is_same(&mut self) -> bool {
        self.0.label == 'x'
    }
}

/// A lookup that is made again each time.
#[derive(Drop)]
struct Anew<'a>(&'a Keys);

impl Peek for Anew<'_> {
    fn is_same(&mut self) -> bool {
        label(self.0) == Some('x')
    }
}

/// Returns whether the reference that a lookup returned keeps its value.
fn holds(set: &Keys, gate: &Gate) -> bool {
    match set.pin().get(&any(7)) {
        Some(key) => gate.stays(&mut Held(key)),
        None => false,
    }
}

/// Replaces key 7 and removes it; returns whether it was there each time.
fn replaces_often<R: Wait>(rt: &R, set: &Keys) -> Result<bool, Refused> {
    for _ in 0..1000u64 {
        if set.pin().insert(rt, key(7, 'y'))? {
            return Ok(false);
        }
    }
    set.pin().remove(rt, &any(7))
}

/// Does so once another thread has the key.
fn wears_out<R: Wait>(rt: &R, set: &Keys, gate: &Gate) -> Result<bool, Refused> {
    let met = gate.turn_until(&gate.reached);
    let was_there = replaces_often(rt, set);
    gate.open.store(true, Ordering::SeqCst);
    Ok(was_there? && met)
}

/// Returns whether each key below 6 is there, each time.
fn has(set: &Keys) -> bool {
    for at in 0..120u64 {
        if !set.pin().contains(&any(at % 6)) {
            return false;
        }
    }
    true
}

/// Returns whether each key below 6 was there, and was replaced, each time.
fn rewrites<R: Wait>(rt: &R, set: &Keys) -> Result<bool, Refused> {
    for at in 0..120u64 {
        if set.pin().insert(rt, key(at % 6, 'y'))? {
            return Ok(false);
        }
    }
    Ok(true)
}

/// Inserts these keys; returns whether each was absent.
fn inserts<R: Wait>(rt: &R, set: &Keys, from: u64, end: u64) -> Result<bool, Refused> {
    for number in from..end {
        if !set.pin().insert(rt, any(number))? {
            return Ok(false);
        }
    }
    Ok(true)
}

/// Removes these keys; returns whether each was there.
fn removes<R: Wait>(rt: &R, set: &Keys, from: u64, end: u64) -> Result<bool, Refused> {
    for number in from..end {
        if !set.pin().remove(rt, &any(number))? {
            return Ok(false);
        }
    }
    Ok(true)
}

/// Inserts and removes these keys; returns whether each was first absent, and then there.
fn comes_and_goes<R: Wait>(rt: &R, set: &Keys, from: u64, end: u64) -> Result<bool, Refused> {
    for _ in 0..20u64 {
        if !inserts(rt, set, from, end)? || !removes(rt, set, from, end)? {
            return Ok(false);
        }
    }
    Ok(true)
}

/// Reserves room for several numbers of keys, one after another.
fn reserves<R: Wait>(rt: &R, set: &Keys) -> Result<bool, Refused> {
    for more in [64, 128, 256] {
        set.pin().reserve(rt, more)?;
    }
    Ok(true)
}

/// Returns how many keys below 6 an iterator returns.
fn walked<R: Wait>(rt: &R, set: &Keys) -> Result<u64, Refused> {
    let mut below = 0u64;
    for key in set.pin().iter(rt)? {
        below = below.wrapping_add(u64::from(key.number < 6));
    }
    Ok(below)
}

/// Returns whether each of them was met once, each time.
fn walks<R: Wait>(rt: &R, set: &Keys) -> Result<bool, Refused> {
    for _ in 0..20u64 {
        if walked(rt, set)? != 6 {
            return Ok(false);
        }
    }
    Ok(true)
}

/// Does one of the jobs that are done beside others.
fn works<R: Wait>(rt: &R, set: &Keys, job: Job) -> Result<bool, Refused> {
    match job {
        Job::Rewrite => rewrites(rt, set),
        Job::Insert(from, end) => inserts(rt, set, from, end),
        Job::ComeAndGo(from, end) => comes_and_goes(rt, set, from, end),
        Job::Reserve => reserves(rt, set),
        Job::Walk => walks(rt, set),
        _ => Ok(has(set)),
    }
}

/// Does a job.
fn does<R: Wait>(rt: &R, set: &Keys, job: Job, gate: &Gate) -> Result<bool, Refused> {
    match job {
        Job::Retain(from) => retains(rt, set, from, gate),
        Job::Replace => replaces(rt, set, gate),
        Job::Hold => Ok(holds(set, gate)),
        Job::LookAnew => Ok(gate.stays(&mut Anew(set))),
        Job::WearOut => wears_out(rt, set, gate),
        _ => works(rt, set, job),
    }
}

/// Does a job once all threads are there, and then records that it is done.
fn says<R: Wait>(rt: &R, set: &Keys, job: Job, crossing: &Crossing) -> bool {
    let began = crossing.begins(!matches!(job, Job::Retain(_)));
    let did = does(rt, set, job, &crossing.gate);
    crossing.ends();
    began && did == Ok(true)
}

/// Lets two threads do a job each.
fn both<R: Threads + Wait + Sync>(rt: &R, set: &Keys, first: Job, second: Job) -> (bool, bool) {
    let crossing = Crossing::new(2, 0);
    join(
        rt,
        || says(rt, set, first, &crossing),
        || says(rt, set, second, &crossing),
    )
}

/// Does one job after the other.
fn apart<R: Wait>(rt: &R, set: &Keys, first: Job, second: Job) -> (bool, bool) {
    let crossing = Crossing::new(1, 0);
    let did = says(rt, set, first, &crossing);
    (did, says(rt, set, second, &crossing))
}

/// The jobs of eight threads, the first of which is stuck.
const BESIDE: [Job; 8] = [
    Job::Retain(2),
    Job::Has,
    Job::Rewrite,
    Job::Insert(100, 150),
    Job::Insert(150, 200),
    Job::Reserve,
    Job::Walk,
    Job::ComeAndGo(300, 310),
];

/// Lets the threads do these jobs; returns whether everything was as expected.
fn beside<R: Threads + Wait + Sync>(rt: &R, alloc: Global, set: &Keys) -> Result<bool, Fail> {
    let crossing = Crossing::new(8, 7);
    let did = map_indices(
        rt,
        alloc,
        8,
        &|at| { says(rt, set, BESIDE[at % 8], &crossing) },
    )?;
    Ok(did.iter().all(|did| *did))
}

/// Returns a set with the key 7, labelled x.
fn with_seven<R: Wait>(rt: &R, alloc: Global, mode: ResizeMode) -> Result<Keys, Refused> {
    let set = made(rt, alloc, mode)?;
    set.pin().insert(rt, key(7, 'x'))?;
    Ok(set)
}

/// Checks what is left if a key's entry is replaced before the closure returns. The closure is
/// called with the key once more, as it was stored, and its last result decides.
fn overlaps<R: Threads + Wait + Sync + Abort>(rt: &R, set: &Keys, from: u64, left: Option<char>) {
    let did = both(rt, set, Job::Retain(from), Job::Replace);
    is(rt, (did, label(set)), ((true, true), left));
}

#[test]
fn a_retain_shows_a_key_that_was_replaced_once_more(rt: HostRuntime) -> Result<(), Fail> {
    for mode in MODES {
        for (from, left) in [(2, Some('x')), (3, None)] {
            overlaps(&rt, &with_seven(&rt, rt.alloc(), mode)?, from, left);
        }
    }
    Ok(())
}

/// Checks that calls which do not overlap do not pass the gate.
#[test]
fn one_call_after_the_other_is_found_out(rt: HostRuntime) -> Result<(), Fail> {
    for mode in MODES {
        let set = with_seven(&rt, rt.alloc(), mode)?;
        let did = apart(&rt, &set, Job::Retain(3), Job::Replace);
        is(&rt, did, (false, false));
    }
    Ok(())
}

/// Checks that a reference keeps its value while another thread replaces its key 1000 times and
/// removes it. A thread that looks the key up again does not find it.
#[test]
fn a_reference_stays_as_it_is(rt: HostRuntime) -> Result<(), Fail> {
    for mode in MODES {
        for (job, stays) in [(Job::Hold, true), (Job::LookAnew, false)] {
            let set = with_seven(&rt, rt.alloc(), mode)?;
            is(&rt, both(&rt, &set, job, Job::WearOut), (stays, true));
        }
    }
    Ok(())
}

/// Checks that seven threads never wait while a retain's closure does not return. They look up,
/// store, replace and remove keys, make the table grow, and iterate. The keys below 6 stay: the one
/// that the closure would not keep was replaced meanwhile, and the closure is called with it once
/// more.
fn is_stuck<R: Threads + Wait + Sync + Abort>(
    rt: &R,
    alloc: Global,
    set: &Keys,
) -> Result<(), Fail> {
    is(rt, inserts(rt, set, 0, 6), Ok(true));
    is(rt, beside(rt, alloc, set)?, true);
    is(rt, has(set), true);
    Ok(())
}

#[test]
fn a_retain_is_stuck(rt: HostRuntime) -> Result<(), Fail> {
    for mode in MODES {
        is_stuck(&rt, rt.alloc(), &made(&rt, rt.alloc(), mode)?)?;
    }
    Ok(())
}
