// The examples of docs/GUIDE.md that are in no comment of the sources, each run once.
use crate::expect::is;
use papaya::json::{shared_map_from_value, shared_map_to_value};
use papaya::reclaiming::Handle;
use papaya::{
    Compute, HashMap, HashSet, Operation, Reclaiming, ReclaimingMap, Refused, Session, TextKey,
};
use serde_json::Value;
use std::alloc::Global;
use std::hash::BuildHasherDefault;
use std::sync::atomic::{AtomicU64, Ordering};
use std::sync::{Arc, Mutex, Wait};
use std::test::Fail;
use std::thread::{Threads, join};
use std::{io, thread};

/// Takes a seat of a room, and returns its number, or `None` if the room is full.
fn take_seat(
    rt: &impl Wait,
    taken: &mut Session<'_, u64, u64>,
    room: u64,
    seats: u64,
) -> Result<Option<u64>, Refused> {
    let computed = taken.compute(rt, room, |entry| match entry {
        None => Operation::Insert(1),
        Some((_, taken)) if *taken < seats => Operation::Insert(taken.saturating_add(1)),
        Some(_) => Operation::Abort(()),
    })?;
    Ok(match computed {
        Compute::Inserted(_, seat) => Some(*seat),
        Compute::Updated { new: (_, seat), .. } => Some(*seat),
        Compute::Removed(..) | Compute::Aborted(()) => None,
    })
}

/// Registers a name for a user, unless the name is taken. Returns whose it is.
fn register(
    rt: &impl Wait,
    names: &HashMap<u64, u64>,
    name: u64,
    user: u64,
) -> Result<u64, Refused> {
    match names.pin().try_insert(rt, name, user)? {
        Ok(inserted) => Ok(*inserted),
        Err(error) => Ok(*error.current),
    }
}

/// Counts visits to pages. Dropping it drops the map.
#[derive(Drop)]
struct Visits {
    counts: HashMap<String, AtomicU64>,
}

impl Visits {
    /// Returns an empty count.
    fn new(rt: &impl Wait, alloc: Global) -> Result<Visits, Refused> {
        Ok(Visits {
            counts: HashMap::new(rt, alloc)?,
        })
    }

    /// Returns the counter of a page. The reference outlives the pin.
    fn counter(&self, page: &str) -> Option<&AtomicU64> {
        self.counts.pin().get(&TextKey(page))
    }

    /// Counts a visit to a page.
    fn visit(&self, rt: &impl Wait, alloc: Global, page: &str) -> Result<u64, Refused> {
        if let Some(counter) = self.counter(page) {
            return Ok(counter.fetch_add(1, Ordering::SeqCst));
        }
        let Ok(page) = page.to_string(alloc) else {
            return Err(Refused::Memory);
        };
        let counter = self
            .counts
            .pin()
            .get_or_insert_with(rt, page, || AtomicU64::new(0))?;
        Ok(counter.fetch_add(1, Ordering::SeqCst))
    }
}

/// A worker, with a session of its own.
#[derive(Drop)]
struct Worker<'a> {
    scores: Session<'a, u64, u64>,
    rounds: u64,
}

impl<'a> Worker<'a> {
    /// Returns a worker. Call this in the worker's thread.
    fn new(scores: &'a HashMap<u64, u64>) -> Worker<'a> {
        Worker {
            scores: Session::new(scores),
            rounds: 0,
        }
    }

    /// Plays a round, and returns the new score of the player.
    fn play(&mut self, rt: &impl Wait, player: u64) -> Result<u64, Refused> {
        self.rounds = self.rounds.saturating_add(1);
        let score = self
            .scores
            .update_or_insert(rt, player, |score| score.saturating_add(1), 1)?;
        Ok(*score)
    }
}

/// Plays a round in each of two threads, with a worker each.
fn play_both(
    rt: &(impl Threads + Wait + Sync),
    scores: &HashMap<u64, u64>,
) -> (Result<u64, Refused>, Result<u64, Refused>) {
    join(
        rt,
        || Worker::new(scores).play(rt, 1),
        || Worker::new(scores).play(rt, 2),
    )
}

/// Stores a value by a thread that may outlive this call's borrows, and waits for it.
fn stores_by_a_thread<R: Threads + Wait + Copy + Send + Drop + 'static>(
    rt: R,
    map: &Arc<HashMap<u64, u64>>,
) -> io::Result<bool> {
    let theirs = Arc::try_clone(map)?;
    let child = thread::spawn(&rt, move || theirs.pin().insert(&rt, 1, 10).is_ok())?;
    Ok(child.join(&rt))
}

/// Returns whether this thread is the first to reserve a seat. Threads share the set by an `Arc`.
fn reserves(rt: &impl Wait, reserved: &Arc<HashSet<u64>>, seat: u64) -> Result<bool, Refused> {
    reserved.pin().insert(rt, seat)
}

/// Moves pieces from one shelf to another. Each thread that changes two shelves takes the lock.
fn moves(
    rt: &impl Wait,
    lock: &Mutex<()>,
    shelves: &HashMap<u64, u64>,
    from: u64,
    to: u64,
) -> Result<(), Refused> {
    if from == to {
        return Ok(());
    }
    let _alone = lock.lock(rt);
    let pinned = shelves.pin();
    if let Some(pieces) = pinned.get(&from) {
        pinned.update_or_insert(rt, to, |had| had.saturating_add(*pieces), *pieces)?;
        pinned.remove(rt, &from)?;
    }
    Ok(())
}

/// The counter of each name. A clone of an `Arc` is the same counter, so a reclaim keeps the counts.
type Counters = HashMap<String, Arc<AtomicU64>>;

/// Adds 1 to the counter of a name, and returns its old value.
fn count(
    rt: &impl Wait,
    alloc: Global,
    handle: &mut Handle<'_, Counters>,
    name: &str,
) -> Result<u64, Refused> {
    let entered = handle.enter(rt);
    let pinned = entered.pin();
    if let Some(counter) = pinned.get(&TextKey(name)) {
        return Ok(counter.fetch_add(1, Ordering::SeqCst));
    }
    let (Ok(name), Ok(fresh)) = (name.to_string(alloc), Arc::new(alloc, AtomicU64::new(0))) else {
        return Err(Refused::Memory);
    };
    let counter = pinned.get_or_insert(rt, name, fresh)?;
    Ok(counter.fetch_add(1, Ordering::SeqCst))
}

/// Returns the prices of a JSON object, and writes them as JSON again.
fn prices(rt: &impl Wait, alloc: Global, text: &str) -> Result<String, Fail> {
    let read: HashMap<String, u64> = shared_map_from_value(
        rt,
        alloc,
        &Value::from_str(alloc, text)?,
        BuildHasherDefault::new(),
        |name| name.to_string(alloc).ok(),
        Value::as_u64,
    )?;
    let written = shared_map_to_value(
        rt,
        alloc,
        &read,
        |name| name.clone().ok(),
        |price| Some(Value::from(*price)),
    )?;
    Ok(written.to_string(alloc)?)
}

#[test]
fn seats_are_taken(rt: HostRuntime) -> Result<(), Fail> {
    let map: HashMap<u64, u64> = HashMap::new(&rt, rt.alloc())?;
    let mut taken = Session::new(&map);
    is(&rt, take_seat(&rt, &mut taken, 1, 2), Ok(Some(1)));
    is(&rt, take_seat(&rt, &mut taken, 1, 2), Ok(Some(2)));
    is(&rt, take_seat(&rt, &mut taken, 1, 2), Ok(None));
    Ok(())
}

#[test]
fn names_are_registered_once(rt: HostRuntime) -> Result<(), Fail> {
    let names: HashMap<u64, u64> = HashMap::new(&rt, rt.alloc())?;
    is(&rt, register(&rt, &names, 1, 5), Ok(5));
    is(&rt, register(&rt, &names, 1, 6), Ok(5));
    Ok(())
}

#[test]
fn structs_hold_maps_and_sessions(rt: HostRuntime) -> Result<(), Fail> {
    let visits = Visits::new(&rt, rt.alloc())?;
    is(&rt, visits.visit(&rt, rt.alloc(), "home"), Ok(0));
    is(&rt, visits.visit(&rt, rt.alloc(), "home"), Ok(1));
    let counter = visits.counter("home").ok_or("none")?;
    is(&rt, counter.load(Ordering::SeqCst), 2);
    let scores: HashMap<u64, u64> = HashMap::new(&rt, rt.alloc())?;
    is(&rt, play_both(&rt, &scores), (Ok(1), Ok(1)));
    Ok(())
}

#[test]
fn threads_share_by_arc(rt: HostRuntime) -> Result<(), Fail> {
    let map = Arc::new(rt.alloc(), HashMap::new(&rt, rt.alloc())?)?;
    is(&rt, stores_by_a_thread(rt, &map)?, true);
    is(&rt, map.pin().get(&1), Some(&10));
    let seats = Arc::new(rt.alloc(), HashSet::new(&rt, rt.alloc())?)?;
    is(&rt, reserves(&rt, &seats, 1), Ok(true));
    is(&rt, reserves(&rt, &seats, 1), Ok(false));
    Ok(())
}

#[test]
fn pieces_are_moved(rt: HostRuntime) -> Result<(), Fail> {
    let shelves: HashMap<u64, u64> = HashMap::new(&rt, rt.alloc())?;
    shelves.pin().insert(&rt, 1, 10)?;
    shelves.pin().insert(&rt, 2, 5)?;
    is(&rt, moves(&rt, &Mutex::new(()), &shelves, 1, 2), Ok(()));
    is(&rt, shelves.pin().get(&2), Some(&15));
    Ok(())
}

#[test]
fn counters_survive_a_reclaim(rt: HostRuntime) -> Result<(), Fail> {
    let counters: ReclaimingMap<String, Arc<AtomicU64>> = Reclaiming::new(
        rt.alloc(),
        HashMap::new(&rt, rt.alloc())?,
    )?;
    let mut handle = counters.handle();
    is(&rt, count(&rt, rt.alloc(), &mut handle, "a"), Ok(0));
    handle.reclaim(&rt)?;
    is(&rt, count(&rt, rt.alloc(), &mut handle, "a"), Ok(1));
    Ok(())
}

#[test]
fn prices_are_read_and_written(rt: HostRuntime) -> Result<(), Fail> {
    let text = "{\"apple\":3,\"pear\":4}";
    is(&rt, prices(&rt, rt.alloc(), text)?.as_str(), text);
    Ok(())
}
