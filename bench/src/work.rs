//! The work of a thread at a map, and how several threads share it.
use crate::draw::Draw;
use crate::maps::{Map, Mode, TextMap};
use crate::plan::{key_of, Action, Part, Plan, Workload, THREADS};
use std::thread;
use std::time::Instant;

/// How long the rounds of a plan took, and the sum of what their calls returned.
#[derive(Clone, Copy)]
pub struct Measure {
    pub nanoseconds: u128,
    pub sum: u64,
}

/// Returns what a call adds to the sum: the value, or 1 if there was none.
#[inline(always)]
fn weight(found: Option<u64>) -> u64 {
    found.unwrap_or(1)
}

/// Inserts the keys of the numbers below `keys`, each with its number.
pub fn fill<M: Map>(map: &M, keys: u32) {
    let pinned = map.pin();
    for number in 0..u64::from(keys) {
        M::insert(&pinned, key_of(number), number);
    }
}

/// Makes one step, and returns what it adds to the sum.
#[inline(always)]
pub fn step<M: Map>(pinned: &M::Pinned<'_>, action: Action) -> u64 {
    match action {
        Action::Get(number) => weight(M::get(pinned, key_of(number))),
        Action::Insert(number, value) => weight(M::insert(pinned, key_of(number), value)),
        Action::Renew(number) => {
            let key = key_of(number);
            let removed = weight(M::remove(pinned, key));
            removed.wrapping_add(weight(M::insert(pinned, key, number)))
        }
    }
}

/// Makes the steps of one thread, pinned once, and returns their sum.
fn work<M: Map>(map: &M, plan: Plan, draws: &[Draw], part: Part) -> u64 {
    let pinned = map.pin();
    match plan.workload {
        Workload::UpdateOrInsert | Workload::Compute | Workload::Registry => {
            counts::<M>(&pinned, plan, part)
        }
        Workload::Iterate => iterations::<M>(&pinned, plan),
        Workload::Enter => entries::<M>(&pinned, plan, part),
        _ => rounds::<M>(&pinned, plan, draws, part),
    }
}

fn rounds<M: Map>(pinned: &M::Pinned<'_>, plan: Plan, draws: &[Draw], part: Part) -> u64 {
    let mut sum: u64 = 0;
    let (_, rounds) = plan.maps();
    for round in 0..rounds {
        for turn in part.start..part.end {
            let action = match plan.workload {
                Workload::Zipf => plan.drawn_at(draws, turn, round),
                _ => plan.action_at(plan.number_at(turn), round),
            };
            sum = sum.wrapping_add(step::<M>(pinned, action));
        }
    }
    sum
}

#[inline(never)]
fn counts<M: Map>(pinned: &M::Pinned<'_>, plan: Plan, part: Part) -> u64 {
    let mut sum: u64 = 0;
    let (_, rounds) = plan.maps();
    for _ in 0..rounds {
        for turn in part.start..part.end {
            let key = key_of(plan.number_at(turn));
            let count = match plan.workload {
                Workload::Compute => M::compute(pinned, key),
                _ => M::count(pinned, key),
            };
            sum = sum.wrapping_add(count);
        }
    }
    sum
}

#[inline(never)]
fn iterations<M: Map>(pinned: &M::Pinned<'_>, plan: Plan) -> u64 {
    let (_, rounds) = plan.maps();
    (0..rounds).fold(0, |sum: u64, _| sum.wrapping_add(M::sum(pinned)))
}

#[inline(never)]
fn entries<M: Map>(pinned: &M::Pinned<'_>, plan: Plan, part: Part) -> u64 {
    let mut sum: u64 = 0;
    let (_, rounds) = plan.maps();
    for _ in 0..rounds {
        for _ in part.start..part.end {
            sum = sum.wrapping_add(M::enter(pinned));
        }
    }
    sum
}

/// Makes the maps of a plan, which are filled before the clock is read.
fn made<M: Map>(plan: Plan) -> Vec<M> {
    let (maps, _) = plan.maps();
    (0..maps)
        .map(|_| {
            let map = M::new(plan.capacity(), Mode::Default);
            for _ in 0..plan.fills() {
                fill(&map, plan.keys);
            }
            map
        })
        .collect()
}

/// Makes one thread's part of a plan's rounds at all maps.
fn work_at_all<M: Map>(all: &[M], plan: Plan, draws: &[Draw], part: Part) -> u64 {
    all.iter().fold(0, |sum: u64, map| {
        sum.wrapping_add(work(map, plan, draws, part))
    })
}

/// Measures what one thread does.
fn timed_by_one(plan: Plan, work: impl Fn(Part) -> u64) -> Measure {
    let start = Instant::now();
    let sum = work(Part::whole(plan.keys));
    Measure {
        nanoseconds: start.elapsed().as_nanos(),
        sum,
    }
}

/// Measures what four threads do. Their start and their end are in the time.
fn timed_by_threads(plan: Plan, work: impl Fn(Part) -> u64 + Sync) -> Measure {
    let start = Instant::now();
    let sums = in_threads(&|thread| work(Part::of_thread(plan.keys, thread)));
    let sum = sums.into_iter().fold(0, u64::wrapping_add);
    Measure {
        nanoseconds: start.elapsed().as_nanos(),
        sum,
    }
}

/// Measures the rounds of a plan by one thread.
pub fn by_one<M: Map>(plan: Plan) -> Measure {
    let (all, draws) = (made::<M>(plan), plan.draws());
    timed_by_one(plan, |part| work_at_all(&all, plan, &draws, part))
}

/// Measures the rounds of a plan by four threads.
pub fn by_threads<M: Map>(plan: Plan) -> Measure {
    let (all, draws) = (made::<M>(plan), plan.draws());
    timed_by_threads(plan, |part| work_at_all(&all, plan, &draws, part))
}

/// Makes the map of a plan whose keys are texts, and the texts of its keys and of as many others.
fn made_of_texts<T: TextMap>(plan: Plan) -> (T, Vec<String>) {
    let texts: Vec<String> = (0..2 * u64::from(plan.keys))
        .map(|number| key_of(number).to_string())
        .collect();
    let map = T::new(plan.capacity());
    let pinned = map.pin();
    for (text, number) in texts.iter().zip(0..u64::from(plan.keys)) {
        T::put(&pinned, text.clone(), number);
    }
    drop(pinned);
    (map, texts)
}

/// Makes the steps of one thread at a map whose keys are texts, and returns their sum.
fn work_at_texts<T: TextMap>((map, texts): &(T, Vec<String>), plan: Plan, part: Part) -> u64 {
    let pinned = map.pin();
    let mut sum: u64 = 0;
    let (_, rounds) = plan.maps();
    for round in 0..rounds {
        for turn in part.start..part.end {
            let found = match plan.action_at(plan.number_at(turn), round) {
                Action::Get(number) => T::load(&pinned, &texts[number as usize]),
                Action::Insert(number, _) | Action::Renew(number) => {
                    T::add(&pinned, &texts[number as usize])
                }
            };
            sum = sum.wrapping_add(weight(found));
        }
    }
    sum
}

/// Measures the rounds of a plan whose keys are texts by one thread.
pub fn texts_by_one<T: TextMap>(plan: Plan) -> Measure {
    let made = made_of_texts::<T>(plan);
    timed_by_one(plan, |part| work_at_texts(&made, plan, part))
}

/// Measures the rounds of a plan whose keys are texts by four threads.
pub fn texts_by_threads<T: TextMap>(plan: Plan) -> Measure {
    let made = made_of_texts::<T>(plan);
    timed_by_threads(plan, |part| work_at_texts(&made, plan, part))
}

/// Calls `work` for each thread, and returns the results in order. As in `papaya-bench`, the
/// threads are split in halves, and the calling thread is one of them.
pub fn in_threads<T: Send>(work: &(impl Fn(u64) -> T + Sync)) -> Vec<T> {
    fn split<T: Send>(from: u64, count: u64, work: &(impl Fn(u64) -> T + Sync)) -> Vec<T> {
        if count == 1 {
            return vec![work(from)];
        }
        let low = count / 2;
        thread::scope(|scope| {
            let front = scope.spawn(|| split(from, low, work));
            let back = split(from + low, count - low, work);
            let mut all = front.join().expect("a thread panicked");
            all.extend(back);
            all
        })
    }
    split(0, THREADS, work)
}
