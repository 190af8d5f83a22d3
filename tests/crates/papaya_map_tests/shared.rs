// The tests of maps: how one is made, and what is done with it in turn. Functions are generic over
// the map, so that each is proved once, without a map's destructor.
use crate::board::Board;
use crate::builders::{Asked, built, sharing};
use crate::crowd::{Crowd, Job, does, gathers};
use crate::expect::is;
use crate::guarded::Guarded;
use crate::held::holds;
use crate::numbers::{Numbers, Pinned};
use crate::passes::meets;
use crate::printing::{What, printed, prints, prints_each, prints_either};
use crate::scarce::{Start, Way, tries_on};
use crate::steps::{Script, goes};
use papaya_map::map::HashMap;
use papaya_testing::gate::Gate;
use papaya_testing::times::{APART, Times};
use papaya_testing::tries::TryResult;
use papaya_words::refused::Refused;
use papaya_words::resize_mode::ResizeMode;
use papaya_words_keys::guard::Collector;
use std::alloc::Global;
use std::process::Abort;
use std::sync::{Arc, Wait};
use std::test::Fail;
use std::thread::Threads;

/// The way in which a map is made.
#[derive(Clone, Copy)]
pub enum Making {
    /// In this mode, for this many entries, with this hasher.
    Parts(ResizeMode, usize, Times),
    /// In this mode, for this many stored entries at most.
    Limited(ResizeMode, u64),
    /// With a hasher only.
    Hasher,
    /// For this many entries, with a hasher.
    Capacity(usize),
    /// By a builder with this setting.
    Built(Asked),
}

/// A map in each mode, in which small keys have places of their own.
pub const MODES: [Making; 3] = [
    Making::Parts(ResizeMode::Blocking, 0, APART),
    Making::Parts(ResizeMode::Incremental(1), 0, APART),
    Making::Parts(ResizeMode::Incremental(64), 0, APART),
];

/// The owner of the guard that the calls take.
#[derive(Clone, Copy)]
pub enum Holder {
    /// The map itself.
    Map,
    MapOwned,
    /// A collector of this number.
    Other(u64),
    OtherOwned(u64),
}

/// A step of a test on a map.
#[derive(Clone, Copy)]
pub enum Turn {
    /// Calls on the pinned map.
    Calls(Script),
    /// Calls with a guard.
    Guarded(Holder, Script),
    /// Threads do their jobs, and find everything as expected.
    Threads(Crowd),
    /// Threads do their jobs, and these are the results of the two halves.
    Fails(Crowd, (bool, bool)),
    /// Two passes share what they have observed.
    Meets,
    /// This is printed, or the map prints one of two texts, or each entry once while it grows.
    Prints(What, &'static str),
    PrintsEither(&'static str, &'static str),
    PrintEach,
}

/// A map that threads share.
pub trait Shared: Sized {
    fn made<R: Wait>(rt: &R, alloc: Global, making: Making) -> Result<Self, Refused>;

    /// Returns a map that shares a collector.
    fn sharing<R: Wait>(rt: &R, alloc: Global, by: Arc<Collector>) -> Result<Self, Refused>;

    /// Returns what is printed, if there is memory for it.
    fn printed<R: Wait>(&self, rt: &R, alloc: Global, what: What) -> Option<String>;

    /// Checks that the calls of a script have these results on the pinned map.
    fn goes<R: Wait + Abort>(&self, rt: &R, at: usize, script: Script);

    /// Checks the same with a guard of the map's.
    fn goes_with_own<R: Wait + Abort>(&self, rt: &R, at: usize, is_owned: bool, script: Script);

    /// Checks the same with a guard of this collector.
    fn goes_with<R: Wait + Abort>(
        &self,
        rt: &R,
        at: usize,
        collector: &Collector,
        is_owned: bool,
        script: Script,
    );

    /// Lets a thread do a job.
    fn does<R: Wait>(&self, rt: &R, job: Job, board: &Board) -> bool;

    /// Lets a thread keep the reference that a lookup returned.
    fn holds(&self, gate: &Gate) -> bool;

    /// Returns the map itself.
    fn numbers(&self) -> &Numbers;

    /// Reclaims the map.
    fn made_anew<R: Wait>(&mut self, rt: &R) -> Result<(), Refused>;

    /// Fills the map, and makes a call with the request of this number refused.
    fn tries<R: Wait>(
        &self,
        rt: &R,
        alloc: Global,
        way: Way,
        start: Start,
        number: usize,
    ) -> TryResult;
}

impl Shared for Numbers {
    fn made<R: Wait>(rt: &R, alloc: Global, making: Making) -> Result<Self, Refused> {
        match making {
            Making::Parts(mode, capacity, hasher) => {
                HashMap::with_parts(rt, alloc, mode, capacity, 4, hasher, None)
            }
            Making::Limited(mode, pairs) => {
                HashMap::with_parts(rt, alloc, mode, 0, 4, APART, Some(pairs))
            }
            Making::Hasher => HashMap::with_hasher(rt, alloc, APART),
            Making::Capacity(pairs) => HashMap::with_capacity_and_hasher(rt, alloc, pairs, APART),
            Making::Built(asked) => built(rt, alloc, asked),
        }
    }

    fn sharing<R: Wait>(rt: &R, alloc: Global, by: Arc<Collector>) -> Result<Self, Refused> {
        sharing(rt, alloc, by)
    }

    fn printed<R: Wait>(&self, rt: &R, alloc: Global, what: What) -> Option<String> {
        printed(rt, alloc, self, what)
    }

    fn goes<R: Wait + Abort>(&self, rt: &R, at: usize, script: Script) {
        goes(rt, at, &mut Pinned::owned_of(self), script);
    }

    fn goes_with_own<R: Wait + Abort>(&self, rt: &R, at: usize, is_owned: bool, script: Script) {
        if is_owned {
            let guard = self.owned_guard();
            goes(rt, at, &mut Guarded::of(self, &guard), script);
        } else {
            let guard = self.guard();
            goes(rt, at, &mut Guarded::of(self, &guard), script);
        }
    }

    fn goes_with<R: Wait + Abort>(
        &self,
        rt: &R,
        at: usize,
        collector: &Collector,
        is_owned: bool,
        script: Script,
    ) {
        if is_owned {
            let guard = collector.enter_owned();
            goes(rt, at, &mut Guarded::of(self, &guard), script);
        } else {
            let guard = collector.enter();
            goes(rt, at, &mut Guarded::of(self, &guard), script);
        }
    }

    fn does<R: Wait>(&self, rt: &R, job: Job, board: &Board) -> bool {
        does(rt, &mut Pinned::of(self), job, board)
    }

    fn holds(&self, gate: &Gate) -> bool {
        holds(self, gate)
    }

    fn numbers(&self) -> &Numbers {
        self
    }

    fn made_anew<R: Wait>(&mut self, rt: &R) -> Result<(), Refused> {
        self.reclaim(rt)
    }

    fn tries<R: Wait>(
        &self,
        rt: &R,
        alloc: Global,
        way: Way,
        start: Start,
        number: usize,
    ) -> TryResult {
        match way {
            Way::ByPass => tries_on(rt, alloc, &mut Pinned::of(self), start, number),
            Way::WithGuard => {
                let guard = self.guard();
                tries_on(rt, alloc, &mut Guarded::of(self, &guard), start, number)
            }
        }
    }
}

/// Checks that the calls of a script have these results with a guard.
fn goes_guarded<R: Wait + Abort, M: Shared>(
    rt: &R,
    at: usize,
    map: &M,
    holder: Holder,
    script: Script,
) {
    match holder {
        Holder::Map => map.goes_with_own(rt, at, false, script),
        Holder::MapOwned => map.goes_with_own(rt, at, true, script),
        Holder::Other(number) => map.goes_with(rt, at, &Collector::new(number), false, script),
        Holder::OtherOwned(number) => {
            map.goes_with(rt, at, &Collector::new(number), true, script)
        }
    }
}

/// Lets threads do a job each, and checks their results.
fn crowds<R: Threads + Wait + Sync + Abort, M: Shared + Sync>(
    rt: &R,
    alloc: Global,
    map: &M,
    crowd: Crowd,
    wanted: (bool, bool),
) {
    let board = Board::of(alloc, crowd).expect(rt, "a board");
    is(rt, gathers(rt, map, &board, crowd), wanted);
}

/// Takes a step on a map.
fn takes<R: Threads + Wait + Sync + Abort, M: Shared + Sync>(
    rt: &R,
    alloc: Global,
    at: usize,
    map: &M,
    turn: Turn,
) {
    match turn {
        Turn::Calls(script) => map.goes(rt, at, script),
        Turn::Guarded(holder, script) => goes_guarded(rt, at, map, holder, script),
        Turn::Prints(what, wanted) => prints(rt, alloc, map, what, wanted),
        Turn::PrintsEither(one, other) => prints_either(rt, alloc, map, one, other),
        Turn::PrintEach => prints_each(rt, alloc, map),
        Turn::Threads(crowd) => crowds(rt, alloc, map, crowd, (true, true)),
        Turn::Fails(crowd, wanted) => crowds(rt, alloc, map, crowd, wanted),
        Turn::Meets => is(rt, meets(rt, map.numbers()), true),
    }
}

/// Makes a map, also if memory was refused for it at first.
fn made<R: Wait, M: Shared>(rt: &R, alloc: Global, making: Making) -> Result<M, Refused> {
    match M::made(rt, alloc, making) {
        Err(Refused::Memory) => M::made(rt, alloc, making),
        made => made,
    }
}

/// Makes the maps one after another, and takes each step on each.
fn runs_on<R: Threads + Wait + Sync + Abort, M: Shared + Sync + Drop>(
    rt: &R,
    alloc: Global,
    makings: &[Making],
    turns: &[Turn],
) -> Result<(), Refused> {
    for (at, &making) in makings.iter().enumerate() {
        let map: M = made(rt, alloc, making)?;
        for &turn in turns {
            takes(rt, alloc, at, &map, turn);
        }
    }
    Ok(())
}

/// Runs a test.
pub fn runs<R: Threads + Wait + Sync + Abort, M: Shared + Sync + Drop>(
    rt: &R,
    alloc: Global,
    makings: &[Making],
    turns: &[Turn],
) -> Result<(), Fail> {
    runs_on::<R, M>(rt, alloc, makings, turns)?;
    Ok(())
}
