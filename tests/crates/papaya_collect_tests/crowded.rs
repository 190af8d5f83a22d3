// Maps and sets that threads share, by the calls of a crowd. In a set a key has the value 0.
use papaya_map::map::HashMap;
use papaya_set::set::HashSet;
use papaya_testing::times::Times;
use papaya_words::refused::Refused;
use papaya_words::resize_mode::ResizeMode;
use std::alloc::Global;
use std::sync::Wait;

/// A map or a set of many threads. Its keys are below 256.
pub trait Crowded: Sized {
    /// Returns an empty collection.
    fn none<R: Wait>(
        rt: &R,
        alloc: Global,
        mode: ResizeMode,
        hasher: Times,
    ) -> Result<Self, Refused>;
    /// Returns what a key has to which this value was given.
    fn value_of(given: u64) -> u64;
    /// Stores a value at a key; returns the old one.
    fn put<R: Wait>(&self, rt: &R, key: u64, value: u64) -> Result<Option<u64>, Refused>;
    /// Removes a key; returns its value.
    fn take_out<R: Wait>(&self, rt: &R, key: u64) -> Result<Option<u64>, Refused>;
    /// Returns the value of a key.
    fn find(&self, key: u64) -> Option<u64>;
    /// Reserves room for this many more.
    fn make_room<R: Wait>(&self, rt: &R, more: usize) -> Result<(), Refused>;
    /// Returns how many keys below this one an iterator returns, and how many in all.
    fn walk<R: Wait>(&self, rt: &R, end: u64) -> Result<(u64, u64), Refused>;
    /// Returns how many keys it has.
    fn count(&self) -> u64;
}

impl Crowded for HashMap<u64, u64, Times> {
    fn none<R: Wait>(
        rt: &R,
        alloc: Global,
        mode: ResizeMode,
        hasher: Times,
    ) -> Result<Self, Refused> {
        HashMap::with_parts(rt, alloc, mode, 0, 4, hasher, None)
    }

    fn value_of(given: u64) -> u64 {
        given
    }

    fn put<R: Wait>(&self, rt: &R, key: u64, value: u64) -> Result<Option<u64>, Refused> {
        Ok(self.pin().insert(rt, key, value)?.copied())
    }

    fn take_out<R: Wait>(&self, rt: &R, key: u64) -> Result<Option<u64>, Refused> {
        Ok(self.pin().remove(rt, &key)?.copied())
    }

    fn find(&self, key: u64) -> Option<u64> {
        self.pin().get(&key).copied()
    }

    fn make_room<R: Wait>(&self, rt: &R, more: usize) -> Result<(), Refused> {
        self.pin().reserve(rt, more)
    }

    fn walk<R: Wait>(&self, rt: &R, end: u64) -> Result<(u64, u64), Refused> {
        let (mut below, mut all) = (0u64, 0u64);
        for (key, _) in self.pin().iter(rt)? {
            below = below.wrapping_add(u64::from(*key < end));
            all = all.wrapping_add(1);
        }
        Ok((below, all))
    }

    fn count(&self) -> u64 {
        self.len() as u64
    }
}

impl Crowded for HashSet<u64, Times> {
    fn none<R: Wait>(
        rt: &R,
        alloc: Global,
        mode: ResizeMode,
        hasher: Times,
    ) -> Result<Self, Refused> {
        HashSet::with_parts(rt, alloc, mode, 0, 4, hasher, None)
    }

    fn value_of(_given: u64) -> u64 {
        0
    }

    fn put<R: Wait>(&self, rt: &R, key: u64, _value: u64) -> Result<Option<u64>, Refused> {
        let is_new = self.pin().insert(rt, key)?;
        Ok(if is_new { None } else { Some(0) })
    }

    fn take_out<R: Wait>(&self, rt: &R, key: u64) -> Result<Option<u64>, Refused> {
        let was_there = self.pin().remove(rt, &key)?;
        Ok(if was_there { Some(0) } else { None })
    }

    fn find(&self, key: u64) -> Option<u64> {
        if self.pin().contains(&key) {
            Some(0)
        } else {
            None
        }
    }

    fn make_room<R: Wait>(&self, rt: &R, more: usize) -> Result<(), Refused> {
        self.pin().reserve(rt, more)
    }

    fn walk<R: Wait>(&self, rt: &R, end: u64) -> Result<(u64, u64), Refused> {
        let (mut below, mut all) = (0u64, 0u64);
        for key in self.pin().iter(rt)? {
            below = below.wrapping_add(u64::from(*key < end));
            all = all.wrapping_add(1);
        }
        Ok((below, all))
    }

    fn count(&self) -> u64 {
        self.len() as u64
    }
}
