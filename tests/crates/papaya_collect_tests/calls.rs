// Each call that allocates for many keys, also while these are being moved, with each of its
// requests for memory refused in turn. It fails and leaves what was there, and then it succeeds.
// The heap of `tests/refused.py` is set to refuse.
use crate::collection::{Collection, Maker, has_below};
use crate::expect::is_at;
use crate::keys::{END, Key, MODES, Pair, START};
use papaya_map::map;
use papaya_seq::seq;
use papaya_set::{seq as set_alone, set};
use papaya_testing::tries::{ReadyCall, Trial, TryResult, fails_at, tries};
use papaya_words::refused::Refused;
use papaya_words::resize_mode::ResizeMode;
use std::alloc::Global;
use std::marker::PhantomData;
use std::process::Abort;
use std::sync::Wait;

/// The calls, and the calls on one key that maps and sets share.
#[derive(Clone, Copy)]
enum Call {
    FromIter,
    FromArray,
    TryClone,
    /// By a session, or by a pass.
    TryCloneAs,
    WriteAndRead,
    /// Writes by a session.
    WriteAsAndRead,
    Extend,
    ExtendRef,
    Reclaim,
    /// By a pass.
    ReclaimAs,
    Eq,
    Walk,
    Reserve,
    Clear,
    Retain,
    /// Stores an absent key, or removes one that is there.
    Store,
    TakeOut,
}

const CALLS: [Call; 17] = [
    Call::FromIter,
    Call::FromArray,
    Call::TryClone,
    Call::TryCloneAs,
    Call::WriteAndRead,
    Call::WriteAsAndRead,
    Call::Extend,
    Call::ExtendRef,
    Call::Reclaim,
    Call::ReclaimAs,
    Call::Eq,
    Call::Walk,
    Call::Reserve,
    Call::Clear,
    Call::Retain,
    Call::Store,
    Call::TakeOut,
];

/// The entries of which a collection is made: of two with one key the later value stays.
const ITEMS: [Pair; 3] = [(Key(0), 7), (Key(1), 10), (Key(0), 0)];

/// Returns the collection that a call makes beside the one that is there.
fn make<R: Wait, C: Collection>(rt: &R, alloc: Global, it: &C, call: Call) -> Result<C, Refused> {
    match call {
        Call::FromIter => C::of_items(rt, alloc, ITEMS),
        Call::FromArray => C::of_array(rt, alloc, ITEMS),
        Call::TryClone => it.copied(rt, alloc),
        Call::TryCloneAs => it.copied_as(rt, alloc),
        Call::WriteAsAndRead => C::read(rt, alloc, &it.written_as(rt, alloc)?),
        _ => C::read(rt, alloc, &it.written(rt, alloc)?),
    }
}

/// Returns how many keys such a collection has, made of one with this many.
fn keys_made(call: Call, keys: u64) -> u64 {
    match call {
        Call::FromIter | Call::FromArray => 2,
        _ => keys,
    }
}

/// Makes a call that changes the collection that is there.
fn change<R: Wait, C: Collection>(rt: &R, it: &mut C, call: Call) -> Result<(), Refused> {
    match call {
        Call::Extend => it.take(rt),
        Call::ExtendRef => it.take_lent(rt),
        Call::Reclaim => it.make_anew(rt),
        Call::ReclaimAs => it.make_anew_as(rt),
        Call::Reserve => it.make_room(rt),
        Call::Clear => it.empty(rt),
        _ => it.keep_even(rt),
    }
}

/// Returns whether all its keys are below this one and have their values, and whether the even ones
/// are there, if these stay.
fn is_left<C: Collection>(it: &C, keys: u64, evens_stay: bool) -> bool {
    let mut left = 0u64;
    for key in 0..keys {
        if it.has(Key(key), key.wrapping_mul(10)) {
            left = left.wrapping_add(1);
        } else if evens_stay && key % 2 == 0 {
            return false;
        }
    }
    it.count() == left
}

/// Returns whether it is as such a call leaves a collection that had this many keys.
fn is_changed<C: Collection>(it: &C, call: Call, keys: u64) -> bool {
    match call {
        Call::Extend | Call::ExtendRef => has_below(it, keys.max(END)),
        Call::Clear => it.count() == 0,
        Call::Retain => is_left(it, keys, true) && it.count() == keys.div_ceil(2),
        _ => has_below(it, keys),
    }
}

/// Stores the key after the ones that are there; returns whether it was new, and is there.
fn stores<R: Wait, C: Collection>(rt: &R, it: &mut C, keys: u64) -> Result<bool, Refused> {
    let is_new = it.store(rt, (Key(keys), keys.wrapping_mul(10)))?;
    Ok(is_new && has_below(it, keys.wrapping_add(1)))
}

/// Removes the last key; returns whether it was there, if any was, and is gone.
fn takes_out<R: Wait, C: Collection>(rt: &R, it: &mut C, keys: u64) -> Result<bool, Refused> {
    let left = keys.saturating_sub(1);
    Ok(it.take_out(rt, Key(left))? == (left < keys) && has_below(it, left))
}

/// Returns whether an iterator returns this many keys, by their number and sum.
fn walks<R: Wait, C: Collection>(rt: &R, it: &C, keys: u64) -> Result<bool, Refused> {
    let (found, sum, _) = it.walk(rt)?;
    let wanted = keys.wrapping_mul(keys.saturating_sub(1)) / 2;
    Ok(found == keys && sum == wanted && has_below(it, keys))
}

/// Converts a refusal: the function that makes a text of a key is refused memory too, and returns
/// `None` then.
fn of_memory(refused: Refused) -> Refused {
    match refused {
        Refused::Item => Refused::Memory,
        other => other,
    }
}

/// Makes a collection of this one, or of others; returns whether it has its keys.
fn makes<R: Wait, C: Collection + Drop>(
    rt: &R,
    alloc: Global,
    it: &C,
    call: Call,
    keys: u64,
) -> Result<bool, Refused> {
    let made = make(rt, alloc, it, call).map_err(of_memory)?;
    Ok(has_below(&made, keys_made(call, keys)) && has_below(it, keys))
}

/// Changes a collection of this many keys; returns whether it is as expected.
fn changes<R: Wait, C: Collection>(
    rt: &R,
    it: &mut C,
    call: Call,
    keys: u64,
) -> Result<bool, Refused> {
    change(rt, it, call)?;
    Ok(is_changed(it, call, keys))
}

/// Makes a call on a collection with the keys below this one; returns whether its result is right.
fn calls<R: Wait, C: Collection + Drop>(
    rt: &R,
    alloc: Global,
    it: &mut C,
    call: Call,
    keys: u64,
) -> Result<bool, Refused> {
    match call {
        Call::Eq => it.equals(rt, it),
        Call::Walk => walks(rt, it, keys),
        Call::Store => stores(rt, it, keys),
        Call::TakeOut => takes_out(rt, it, keys),
        Call::FromIter
        | Call::FromArray
        | Call::TryClone
        | Call::TryCloneAs
        | Call::WriteAndRead
        | Call::WriteAsAndRead => makes(rt, alloc, it, call, keys),
        _ => changes(rt, it, call, keys),
    }
}

/// Returns whether the collection is as it was after a refusal. If the call inserts keys, it has
/// those before the refused one; if it removes keys, it has those not removed yet.
fn is_kept<C: Collection>(it: &C, call: Call, keys: u64) -> bool {
    let count = it.count();
    match call {
        Call::Extend | Call::ExtendRef => {
            (count == keys || keys < count && count < END) && has_below(it, count)
        }
        Call::Clear => is_left(it, keys, false),
        Call::Retain => is_left(it, keys, true),
        _ => has_below(it, keys),
    }
}

/// A collection that has the keys below this one, and a call on it.
#[derive(Drop)]
struct Called<'r, 'c, R, C> {
    rt: &'r R,
    alloc: Global,
    it: &'c mut C,
    call: Call,
    keys: u64,
}

impl<R: Wait, C: Collection + Drop> ReadyCall for Called<'_, '_, R, C> {
    fn is_made(&mut self) -> Result<bool, Refused> {
        calls(self.rt, self.alloc, self.it, self.call, self.keys)
    }

    fn is_kept(&mut self) -> bool {
        is_kept(self.it, self.call, self.keys)
    }
}

/// Stores the keys below this one; returns whether they are there.
fn is_filled<R: Wait, C: Collection>(rt: &R, it: &mut C, end: u64) -> Result<bool, Refused> {
    for key in 0..end {
        if !it.store(rt, (Key(key), key.wrapping_mul(10)))? {
            return Ok(false);
        }
    }
    Ok(has_below(it, end))
}

/// A call on a collection that is made and filled for it.
#[derive(Drop)]
struct Calling<'r, R, C> {
    rt: &'r R,
    alloc: Global,
    mode: ResizeMode,
    keys: u64,
    call: Call,
    of: PhantomData<C>,
}

impl<R: Wait, C: Collection + Drop> Trial for Calling<'_, R, C> {
    fn with_refused(&self, number: usize) -> Result<TryResult, Refused> {
        let mut it: C = C::none(self.rt, self.alloc, Maker::Parts(self.mode))?;
        if !is_filled(self.rt, &mut it, self.keys)? {
            return Ok(TryResult::Fails);
        }
        let mut called = Called {
            rt: self.rt,
            alloc: self.alloc,
            it: &mut it,
            call: self.call,
            keys: self.keys,
        };
        Ok(tries(self.alloc, &mut called, number))
    }
}

/// A collection that is made in this way, and filled.
#[derive(Drop)]
struct Making<'r, R, C> {
    rt: &'r R,
    alloc: Global,
    by: Maker,
    of: PhantomData<C>,
}

impl<R: Wait, C: Collection + Drop> ReadyCall for Making<'_, R, C> {
    fn is_made(&mut self) -> Result<bool, Refused> {
        let mut it: C = C::none(self.rt, self.alloc, self.by)?;
        is_filled(self.rt, &mut it, START)
    }

    fn is_kept(&mut self) -> bool {
        true
    }
}

impl<R: Wait, C: Collection + Drop> Trial for Making<'_, R, C> {
    fn with_refused(&self, number: usize) -> Result<TryResult, Refused> {
        let mut making: Making<'_, R, C> = Making {
            rt: self.rt,
            alloc: self.alloc,
            by: self.by,
            of: PhantomData,
        };
        Ok(tries(self.alloc, &mut making, number))
    }
}

/// The ways to make an empty collection.
const MAKERS: [Maker; 7] = [
    Maker::Parts(ResizeMode::Blocking),
    Maker::New,
    Maker::Default,
    Maker::Capacity,
    Maker::Hasher,
    Maker::CapacityAndHasher,
    Maker::Built,
];

/// Checks that each of them makes a collection that can be filled.
fn each_maker<R: Wait + Abort, C: Collection + Drop>(rt: &R, alloc: Global) {
    for (case, by) in MAKERS.into_iter().enumerate() {
        let making: Making<'_, R, C> = Making {
            rt,
            alloc,
            by,
            of: PhantomData,
        };
        is_at(rt, case, fails_at(&making), Ok(None));
    }
}

/// The numbers of keys of one path at which calls are made. A table is full at the next key or not,
/// or is being copied; with 64 in all one is given up in `Blocking`.
const STAGES: [u64; 10] = [0, 20, 25, 26, 27, 47, 63, 64, 65, 67];

/// At these numbers of keys some are copied into a second table, or the next call makes it.
const COPIED: [u64; 32] = [
    32, 33, 34, 35, 36, 37, 38, 39, 40, 41, 42, 43, 44, 45, 46, 47, 48, 49, 50, 51, 52, 53, 54, 55,
    56, 57, 58, 59, 60, 61, 62, 63,
];

/// Returns whether a call inserts at least the ten keys that follow on those that are there.
fn follows(call: Call) -> bool {
    match call {
        Call::Extend | Call::ExtendRef => true,
        _ => false,
    }
}

/// Makes a call on a collection with this many keys.
fn at_stage<R: Wait + Abort, C: Collection + Drop>(
    rt: &R,
    alloc: Global,
    mode: ResizeMode,
    call: Call,
    keys: u64,
) {
    let calling: Calling<'_, R, C> = Calling {
        rt,
        alloc,
        mode,
        keys,
        call,
        of: PhantomData,
    };
    is_at(rt, keys as usize, fails_at(&calling), Ok(None));
}

/// Makes a call at each of these stages.
fn each_stage<R: Wait + Abort, C: Collection + Drop>(
    rt: &R,
    alloc: Global,
    mode: ResizeMode,
    call: Call,
    stages: &[u64],
) {
    for &keys in stages {
        if keys >= START || !follows(call) {
            at_stage::<R, C>(rt, alloc, mode, call, keys);
        }
    }
}

/// Makes each call, and makes those that remove all keys at more stages.
fn each_call<R: Wait + Abort, C: Collection + Drop>(rt: &R, alloc: Global) {
    each_maker::<R, C>(rt, alloc);
    for mode in MODES {
        for call in CALLS {
            each_stage::<R, C>(rt, alloc, mode, call, &STAGES);
        }
        each_stage::<R, C>(rt, alloc, mode, Call::Clear, &COPIED);
        each_stage::<R, C>(rt, alloc, mode, Call::Retain, &COPIED);
    }
}

#[test]
fn calls_of_maps_for_one_caller(rt: HostRuntime) {
    each_call::<_, seq::HashMap<Key, u64>>(&rt, rt.alloc());
}

#[test]
fn calls_of_maps_that_threads_share(rt: HostRuntime) {
    each_call::<_, map::HashMap<Key, u64>>(&rt, rt.alloc());
}

#[test]
fn calls_of_sets_for_one_caller(rt: HostRuntime) {
    each_call::<_, set_alone::HashSet<Key>>(&rt, rt.alloc());
}

#[test]
fn calls_of_sets_that_threads_share(rt: HostRuntime) {
    each_call::<_, set::HashSet<Key>>(&rt, rt.alloc());
}
