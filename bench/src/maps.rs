//! The maps, each behind the trait `Map`. Of each map these are its most basic calls.
use crate::hasher::Folding;
use std::collections::HashMap;
use std::sync::atomic::{AtomicU64, Ordering};
use std::sync::RwLock;

/// How a map grows. Only papaya lets its caller choose.
#[derive(Clone, Copy, PartialEq)]
pub enum Mode {
    /// The map's only way, or papaya's default: `Incremental(64)`.
    Default,
    /// papaya's `Blocking`.
    Blocking,
}

/// A map from numbers to numbers that threads share.
pub trait Map: Sized + Sync {
    /// A thread makes its calls by this: a guard with the map, or the map alone.
    type Pinned<'a>
    where
        Self: 'a;

    /// The name in the printed lines.
    const NAME: &'static str;

    /// Whether its caller chooses a resize mode.
    const HAS_MODES: bool = false;

    /// Whether it has `compute`.
    const COMPUTES: bool = false;

    /// Whether each call takes a guard of its own.
    const PINS_EACH_CALL: bool = false;

    /// Returns an empty map with room for `capacity` keys.
    fn new(capacity: usize, mode: Mode) -> Self;

    fn pin(&self) -> Self::Pinned<'_>;

    fn get(map: &Self::Pinned<'_>, key: u64) -> Option<u64>;

    /// Inserts a value, and returns the one that it replaced.
    fn insert(map: &Self::Pinned<'_>, key: u64, value: u64) -> Option<u64>;

    fn remove(map: &Self::Pinned<'_>, key: u64) -> Option<u64>;

    /// Adds one to the value of a key, or inserts 1, in one step. Returns the new value.
    fn count(map: &Self::Pinned<'_>, key: u64) -> u64;

    /// Does the same by `compute`. Only a map with `COMPUTES` is called by this.
    fn compute(map: &Self::Pinned<'_>, key: u64) -> u64 {
        Self::count(map, key)
    }

    /// Returns the sum of all values, by an iteration.
    fn sum(map: &Self::Pinned<'_>) -> u64;

    /// Takes a guard, drops it, and returns 1. Only a map with `PINS_EACH_CALL` is called by this.
    fn enter(_map: &Self::Pinned<'_>) -> u64 {
        1
    }
}

/// A map from texts to counters that threads share.
pub trait TextMap: Sized + Sync {
    /// A thread makes its calls by this: a guard with the map, or the map alone.
    type Pinned<'a>
    where
        Self: 'a;

    /// Returns an empty map with room for `capacity` keys.
    fn new(capacity: usize) -> Self;

    fn pin(&self) -> Self::Pinned<'_>;

    /// Inserts a text that the map does not have, and its counter's value.
    fn put(map: &Self::Pinned<'_>, text: String, value: u64);

    /// Returns what `use_it` returns for the counter of a text, if the map has the text.
    fn find(
        map: &Self::Pinned<'_>,
        text: &str,
        use_it: impl FnOnce(&AtomicU64) -> u64,
    ) -> Option<u64>;

    #[inline(always)]
    fn load(map: &Self::Pinned<'_>, text: &str) -> Option<u64> {
        Self::find(map, text, |counter| counter.load(Ordering::SeqCst))
    }

    /// Adds one to the counter of a text, and returns its new value.
    #[inline(always)]
    fn add(map: &Self::Pinned<'_>, text: &str) -> Option<u64> {
        Self::find(map, text, |counter| {
            counter.fetch_add(1, Ordering::SeqCst).wrapping_add(1)
        })
    }
}

/// No map: each call is one load, without which the compiler would leave the loop out.
pub struct Idle(AtomicU64);

impl Idle {
    #[inline(always)]
    fn pass(&self, key: u64) -> u64 {
        key.wrapping_add(self.0.load(Ordering::SeqCst))
    }
}

impl Map for Idle {
    type Pinned<'a> = &'a Idle;

    const NAME: &'static str = "loop";
    const COMPUTES: bool = true;
    const PINS_EACH_CALL: bool = true;

    fn new(_capacity: usize, _mode: Mode) -> Idle {
        Idle(AtomicU64::new(0))
    }

    fn pin(&self) -> &Idle {
        self
    }

    #[inline(always)]
    fn get(map: &&Idle, key: u64) -> Option<u64> {
        Some(map.pass(key))
    }

    #[inline(always)]
    fn insert(map: &&Idle, key: u64, _value: u64) -> Option<u64> {
        Some(map.pass(key))
    }

    #[inline(always)]
    fn remove(map: &&Idle, key: u64) -> Option<u64> {
        Some(map.pass(key))
    }

    #[inline(always)]
    fn count(map: &&Idle, key: u64) -> u64 {
        map.pass(key)
    }

    fn sum(map: &&Idle) -> u64 {
        map.pass(0)
    }

    #[inline(always)]
    fn enter(map: &&Idle) -> u64 {
        map.pass(1)
    }
}

/// The standard library's map behind its lock, which each call takes.
pub struct StdRwLock(RwLock<HashMap<u64, u64, Folding>>);

/// No call panics while it holds the lock.
const POISONED: &str = "the lock is poisoned";

impl Map for StdRwLock {
    type Pinned<'a> = &'a StdRwLock;

    const NAME: &'static str = "std-rwlock";

    fn new(capacity: usize, _mode: Mode) -> StdRwLock {
        StdRwLock(RwLock::new(HashMap::with_capacity_and_hasher(
            capacity,
            Folding::default(),
        )))
    }

    fn pin(&self) -> &StdRwLock {
        self
    }

    #[inline(always)]
    fn get(map: &&StdRwLock, key: u64) -> Option<u64> {
        map.0.read().expect(POISONED).get(&key).copied()
    }

    #[inline(always)]
    fn insert(map: &&StdRwLock, key: u64, value: u64) -> Option<u64> {
        map.0.write().expect(POISONED).insert(key, value)
    }

    #[inline(always)]
    fn remove(map: &&StdRwLock, key: u64) -> Option<u64> {
        map.0.write().expect(POISONED).remove(&key)
    }

    #[inline(always)]
    fn count(map: &&StdRwLock, key: u64) -> u64 {
        *map.0
            .write()
            .expect(POISONED)
            .entry(key)
            .and_modify(|count| *count += 1)
            .or_insert(1)
    }

    fn sum(map: &&StdRwLock) -> u64 {
        map.0
            .read()
            .expect(POISONED)
            .values()
            .fold(0, |sum, value| sum.wrapping_add(*value))
    }
}

/// The standard library's map of texts behind its lock.
pub struct StdTexts(RwLock<HashMap<String, AtomicU64, Folding>>);

impl TextMap for StdTexts {
    type Pinned<'a> = &'a StdTexts;

    fn new(capacity: usize) -> StdTexts {
        StdTexts(RwLock::new(HashMap::with_capacity_and_hasher(
            capacity,
            Folding::default(),
        )))
    }

    fn pin(&self) -> &StdTexts {
        self
    }

    fn put(map: &&StdTexts, text: String, value: u64) {
        let mut map = map.0.write().expect(POISONED);
        map.insert(text, AtomicU64::new(value));
    }

    #[inline(always)]
    fn find(map: &&StdTexts, text: &str, use_it: impl FnOnce(&AtomicU64) -> u64) -> Option<u64> {
        map.0.read().expect(POISONED).get(text).map(use_it)
    }
}

/// The calls that are written alike for papaya and flurry: both pin a map, and then lend its values.
#[cfg(any(feature = "papaya", feature = "flurry"))]
macro_rules! calls_of_a_pinned_map {
    () => {
        #[inline(always)]
        fn pin(&self) -> Self::Pinned<'_> {
            self.0.pin()
        }

        #[inline(always)]
        fn get(map: &Self::Pinned<'_>, key: u64) -> Option<u64> {
            map.get(&key).copied()
        }

        #[inline(always)]
        fn insert(map: &Self::Pinned<'_>, key: u64, value: u64) -> Option<u64> {
            map.insert(key, value).copied()
        }

        #[inline(always)]
        fn remove(map: &Self::Pinned<'_>, key: u64) -> Option<u64> {
            map.remove(&key).copied()
        }

        fn sum(map: &Self::Pinned<'_>) -> u64 {
            map.iter()
                .fold(0, |sum, (_, value)| sum.wrapping_add(*value))
        }
    };
}

/// The same for their maps of texts.
#[cfg(any(feature = "papaya", feature = "flurry"))]
macro_rules! calls_of_a_pinned_map_of_texts {
    () => {
        #[inline(always)]
        fn pin(&self) -> Self::Pinned<'_> {
            self.0.pin()
        }

        fn put(map: &Self::Pinned<'_>, text: String, value: u64) {
            map.insert(text, AtomicU64::new(value));
        }

        #[inline(always)]
        fn find(
            map: &Self::Pinned<'_>,
            text: &str,
            use_it: impl FnOnce(&AtomicU64) -> u64,
        ) -> Option<u64> {
            map.get(text).map(use_it)
        }
    };
}

#[cfg(feature = "papaya")]
pub mod papaya_maps {
    //! papaya, with a guard that a thread holds over all its calls, and with a guard for each call.
    use super::{Folding, Map, Mode, TextMap};
    use papaya::{Compute, HashMap, HashMapRef, LocalGuard, Operation, ResizeMode};
    use std::hash::Hash;
    use std::sync::atomic::AtomicU64;

    type Held<'a> = HashMapRef<'a, u64, u64, Folding, LocalGuard<'a>>;
    type HeldTexts<'a> = HashMapRef<'a, String, AtomicU64, Folding, LocalGuard<'a>>;

    fn made<K: Hash + Eq, V>(capacity: usize, mode: Mode) -> HashMap<K, V, Folding> {
        let mode = match mode {
            Mode::Default => ResizeMode::Incremental(64),
            Mode::Blocking => ResizeMode::Blocking,
        };
        HashMap::builder()
            .capacity(capacity)
            .hasher(Folding::default())
            .resize_mode(mode)
            .build()
    }

    fn counted(entry: Option<(&u64, &u64)>) -> Operation<u64, ()> {
        match entry {
            Some((_, count)) => Operation::Insert(count.wrapping_add(1)),
            None => Operation::Insert(1),
        }
    }

    /// The map, pinned once. What it replaces and removes is freed after its guard is dropped.
    pub struct Papaya(HashMap<u64, u64, Folding>);

    impl Map for Papaya {
        type Pinned<'a> = Held<'a>;

        const NAME: &'static str = "papaya";
        const HAS_MODES: bool = true;
        const COMPUTES: bool = true;

        fn new(capacity: usize, mode: Mode) -> Papaya {
            Papaya(made(capacity, mode))
        }

        calls_of_a_pinned_map!();

        #[inline(always)]
        fn count(map: &Held<'_>, key: u64) -> u64 {
            *map.update_or_insert(key, |count| count.wrapping_add(1), 1)
        }

        #[inline(always)]
        fn compute(map: &Held<'_>, key: u64) -> u64 {
            match map.compute(key, counted) {
                Compute::Inserted(_, value) => *value,
                Compute::Updated { new, .. } => *new.1,
                Compute::Removed(..) | Compute::Aborted(()) => 0,
            }
        }
    }

    /// The map, pinned for each call.
    pub struct PapayaPinACall(Papaya);

    impl Map for PapayaPinACall {
        type Pinned<'a> = &'a Papaya;

        const NAME: &'static str = "papaya-pin-a-call";
        const HAS_MODES: bool = true;
        const COMPUTES: bool = true;
        const PINS_EACH_CALL: bool = true;

        fn new(capacity: usize, mode: Mode) -> PapayaPinACall {
            PapayaPinACall(Papaya::new(capacity, mode))
        }

        fn pin(&self) -> &Papaya {
            &self.0
        }

        #[inline(always)]
        fn get(map: &&Papaya, key: u64) -> Option<u64> {
            Papaya::get(&map.pin(), key)
        }

        #[inline(always)]
        fn insert(map: &&Papaya, key: u64, value: u64) -> Option<u64> {
            Papaya::insert(&map.pin(), key, value)
        }

        #[inline(always)]
        fn remove(map: &&Papaya, key: u64) -> Option<u64> {
            Papaya::remove(&map.pin(), key)
        }

        #[inline(always)]
        fn count(map: &&Papaya, key: u64) -> u64 {
            Papaya::count(&map.pin(), key)
        }

        #[inline(always)]
        fn compute(map: &&Papaya, key: u64) -> u64 {
            Papaya::compute(&map.pin(), key)
        }

        fn sum(map: &&Papaya) -> u64 {
            Papaya::sum(&map.pin())
        }

        #[inline(always)]
        fn enter(map: &&Papaya) -> u64 {
            drop(map.pin());
            1
        }
    }

    /// The map of texts, pinned once.
    pub struct PapayaTexts(HashMap<String, AtomicU64, Folding>);

    impl TextMap for PapayaTexts {
        type Pinned<'a> = HeldTexts<'a>;

        fn new(capacity: usize) -> PapayaTexts {
            PapayaTexts(made(capacity, Mode::Default))
        }

        calls_of_a_pinned_map_of_texts!();
    }

    /// The map of texts, pinned for each call.
    pub struct PapayaTextsPinACall(PapayaTexts);

    impl TextMap for PapayaTextsPinACall {
        type Pinned<'a> = &'a PapayaTexts;

        fn new(capacity: usize) -> PapayaTextsPinACall {
            PapayaTextsPinACall(PapayaTexts::new(capacity))
        }

        fn pin(&self) -> &PapayaTexts {
            &self.0
        }

        fn put(map: &&PapayaTexts, text: String, value: u64) {
            PapayaTexts::put(&map.pin(), text, value);
        }

        #[inline(always)]
        fn find(
            map: &&PapayaTexts,
            text: &str,
            use_it: impl FnOnce(&AtomicU64) -> u64,
        ) -> Option<u64> {
            PapayaTexts::find(&map.pin(), text, use_it)
        }
    }
}

#[cfg(feature = "dashmap")]
pub mod dashmap_maps {
    //! dashmap, which locks one of its shards for each call.
    use super::{Folding, Map, Mode, TextMap};
    use dashmap::DashMap;
    use std::sync::atomic::AtomicU64;

    pub struct Dashmap(DashMap<u64, u64, Folding>);

    impl Map for Dashmap {
        type Pinned<'a> = &'a Dashmap;

        const NAME: &'static str = "dashmap";

        fn new(capacity: usize, _mode: Mode) -> Dashmap {
            Dashmap(DashMap::with_capacity_and_hasher(
                capacity,
                Folding::default(),
            ))
        }

        fn pin(&self) -> &Dashmap {
            self
        }

        #[inline(always)]
        fn get(map: &&Dashmap, key: u64) -> Option<u64> {
            map.0.get(&key).map(|value| *value)
        }

        #[inline(always)]
        fn insert(map: &&Dashmap, key: u64, value: u64) -> Option<u64> {
            map.0.insert(key, value)
        }

        #[inline(always)]
        fn remove(map: &&Dashmap, key: u64) -> Option<u64> {
            map.0.remove(&key).map(|(_, value)| value)
        }

        #[inline(always)]
        fn count(map: &&Dashmap, key: u64) -> u64 {
            *map.0
                .entry(key)
                .and_modify(|count| *count = count.wrapping_add(1))
                .or_insert(1)
        }

        fn sum(map: &&Dashmap) -> u64 {
            map.0
                .iter()
                .fold(0, |sum, entry| sum.wrapping_add(*entry.value()))
        }
    }

    pub struct DashmapTexts(DashMap<String, AtomicU64, Folding>);

    impl TextMap for DashmapTexts {
        type Pinned<'a> = &'a DashmapTexts;

        fn new(capacity: usize) -> DashmapTexts {
            DashmapTexts(DashMap::with_capacity_and_hasher(
                capacity,
                Folding::default(),
            ))
        }

        fn pin(&self) -> &DashmapTexts {
            self
        }

        fn put(map: &&DashmapTexts, text: String, value: u64) {
            map.0.insert(text, AtomicU64::new(value));
        }

        #[inline(always)]
        fn find(
            map: &&DashmapTexts,
            text: &str,
            use_it: impl FnOnce(&AtomicU64) -> u64,
        ) -> Option<u64> {
            map.0.get(text).map(|counter| use_it(&counter))
        }
    }
}

#[cfg(feature = "scc")]
pub mod scc_maps {
    //! scc's `HashMap`, which locks a bucket for each call. A lookup is `read`, which shares it.
    use super::{Folding, Map, Mode, TextMap};
    use scc::hash_map::Entry;
    use std::sync::atomic::AtomicU64;

    pub struct Scc(scc::HashMap<u64, u64, Folding>);

    impl Map for Scc {
        type Pinned<'a> = &'a Scc;

        const NAME: &'static str = "scc";

        fn new(capacity: usize, _mode: Mode) -> Scc {
            Scc(scc::HashMap::with_capacity_and_hasher(
                capacity,
                Folding::default(),
            ))
        }

        fn pin(&self) -> &Scc {
            self
        }

        #[inline(always)]
        fn get(map: &&Scc, key: u64) -> Option<u64> {
            map.0.read(&key, |_, value| *value)
        }

        #[inline(always)]
        fn insert(map: &&Scc, key: u64, value: u64) -> Option<u64> {
            match map.0.entry(key) {
                Entry::Occupied(mut entry) => Some(entry.insert(value)),
                Entry::Vacant(entry) => {
                    entry.insert_entry(value);
                    None
                }
            }
        }

        #[inline(always)]
        fn remove(map: &&Scc, key: u64) -> Option<u64> {
            map.0.remove(&key).map(|(_, value)| value)
        }

        #[inline(always)]
        fn count(map: &&Scc, key: u64) -> u64 {
            match map.0.entry(key) {
                Entry::Occupied(mut entry) => {
                    let count = entry.get_mut();
                    *count = count.wrapping_add(1);
                    *count
                }
                Entry::Vacant(entry) => {
                    entry.insert_entry(1);
                    1
                }
            }
        }

        fn sum(map: &&Scc) -> u64 {
            let mut sum: u64 = 0;
            map.0.scan(|_, value| sum = sum.wrapping_add(*value));
            sum
        }
    }

    pub struct SccTexts(scc::HashMap<String, AtomicU64, Folding>);

    impl TextMap for SccTexts {
        type Pinned<'a> = &'a SccTexts;

        fn new(capacity: usize) -> SccTexts {
            SccTexts(scc::HashMap::with_capacity_and_hasher(
                capacity,
                Folding::default(),
            ))
        }

        fn pin(&self) -> &SccTexts {
            self
        }

        fn put(map: &&SccTexts, text: String, value: u64) {
            // The text is not there, so it is not refused.
            let _ = map.0.insert(text, AtomicU64::new(value));
        }

        #[inline(always)]
        fn find(
            map: &&SccTexts,
            text: &str,
            use_it: impl FnOnce(&AtomicU64) -> u64,
        ) -> Option<u64> {
            map.0.read(text, |_, counter| use_it(counter))
        }
    }
}

#[cfg(feature = "flurry")]
pub mod flurry_maps {
    //! flurry, with a guard that a thread holds over all its calls.
    use super::{Folding, Map, Mode, TextMap};
    use flurry::HashMapRef;
    use std::sync::atomic::AtomicU64;

    type Held<'a> = HashMapRef<'a, u64, u64, Folding>;

    pub struct Flurry(flurry::HashMap<u64, u64, Folding>);

    impl Map for Flurry {
        type Pinned<'a> = Held<'a>;

        const NAME: &'static str = "flurry";

        fn new(capacity: usize, _mode: Mode) -> Flurry {
            Flurry(flurry::HashMap::with_capacity_and_hasher(
                capacity,
                Folding::default(),
            ))
        }

        calls_of_a_pinned_map!();

        /// flurry has no call that counts a key which is not there; such a key is inserted then.
        #[inline(always)]
        fn count(map: &Held<'_>, key: u64) -> u64 {
            match map.compute_if_present(&key, |_, count| Some(count.wrapping_add(1))) {
                Some(count) => *count,
                None => {
                    map.insert(key, 1);
                    1
                }
            }
        }
    }

    pub struct FlurryTexts(flurry::HashMap<String, AtomicU64, Folding>);

    impl TextMap for FlurryTexts {
        type Pinned<'a> = HashMapRef<'a, String, AtomicU64, Folding>;

        fn new(capacity: usize) -> FlurryTexts {
            FlurryTexts(flurry::HashMap::with_capacity_and_hasher(
                capacity,
                Folding::default(),
            ))
        }

        calls_of_a_pinned_map_of_texts!();
    }
}
