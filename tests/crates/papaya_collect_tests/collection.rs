// Maps and sets alike, by their calls that take many keys, copy, compare or reclaim.
use crate::keys::{Key, Pair};
use papaya_words::refused::Refused;
use papaya_words::resize_mode::ResizeMode;
use serde_json::Value;
use std::alloc::Global;
use std::sync::Wait;

/// A way to make an empty collection.
#[derive(Clone, Copy)]
pub enum Maker {
    New,
    Default,
    Capacity,
    Hasher,
    CapacityAndHasher,
    /// `with_parts`, in this mode.
    Parts(ResizeMode),
    /// By a builder.
    Built,
}

/// A map or a set, for one caller or shared by threads. Only the latter needs a runtime to wait by.
pub trait Collection: Sized {
    /// Returns an empty collection.
    fn none<R: Wait>(rt: &R, alloc: Global, by: Maker) -> Result<Self, Refused>;
    /// Makes one by `from_iter`.
    fn of_items<R: Wait>(rt: &R, alloc: Global, items: [Pair; 3]) -> Result<Self, Refused>;
    /// Makes one by `from_iter`, of no items.
    fn of_nothing<R: Wait>(rt: &R, alloc: Global) -> Result<Self, Refused>;
    /// Makes one by `from_array`.
    fn of_array<R: Wait>(rt: &R, alloc: Global, items: [Pair; 3]) -> Result<Self, Refused>;
    /// Makes one by `try_clone`.
    fn copied<R: Wait>(&self, rt: &R, alloc: Global) -> Result<Self, Refused>;
    /// Makes one by a session's `try_clone`, or by `try_clone_as`. Without sessions as `copied`.
    fn copied_as<R: Wait>(&self, rt: &R, alloc: Global) -> Result<Self, Refused> {
        self.copied(rt, alloc)
    }
    /// Reads one from JSON.
    fn read<R: Wait>(rt: &R, alloc: Global, value: &Value) -> Result<Self, Refused>;
    /// Writes it to JSON.
    fn written<R: Wait>(&self, rt: &R, alloc: Global) -> Result<Value, Refused>;
    /// Writes it to JSON by a session. Without sessions as `written`.
    fn written_as<R: Wait>(&self, rt: &R, alloc: Global) -> Result<Value, Refused> {
        self.written(rt, alloc)
    }
    /// Stores an entry; returns whether its key was new.
    fn store<R: Wait>(&mut self, rt: &R, pair: Pair) -> Result<bool, Refused>;
    /// Removes a key; returns whether it was there.
    fn take_out<R: Wait>(&mut self, rt: &R, key: Key) -> Result<bool, Refused>;
    /// Inserts the ten entries by `extend`.
    fn take<R: Wait>(&mut self, rt: &R) -> Result<(), Refused>;
    /// Inserts them by `extend_ref`.
    fn take_lent<R: Wait>(&mut self, rt: &R) -> Result<(), Refused>;
    /// Reclaims it by `reclaim`.
    fn make_anew<R: Wait>(&mut self, rt: &R) -> Result<(), Refused>;
    /// Reclaims it by `reclaim_as`. Without passes as `make_anew`.
    fn make_anew_as<R: Wait>(&mut self, rt: &R) -> Result<(), Refused> {
        self.make_anew(rt)
    }
    /// Reserves room for 100 more by `reserve`.
    fn make_room<R: Wait>(&mut self, rt: &R) -> Result<(), Refused>;
    /// Empties it by `clear`.
    fn empty<R: Wait>(&mut self, rt: &R) -> Result<(), Refused>;
    /// Keeps the even keys by `retain`.
    fn keep_even<R: Wait>(&mut self, rt: &R) -> Result<(), Refused>;
    /// Compares by `eq`.
    fn equals<R: Wait>(&self, rt: &R, other: &Self) -> Result<bool, Refused>;
    /// Returns how many keys it has.
    fn count(&self) -> u64;
    /// Returns whether it has this key, and for a map this value.
    fn has(&self, key: Key, value: u64) -> bool;
    /// Returns how many entries an iterator returns, the sum of their keys and, for a map, of their
    /// values.
    fn walk<R: Wait>(&self, rt: &R) -> Result<(u64, u64, u64), Refused>;
}

/// Returns whether it has the keys below this one, each with ten times itself, and no other.
pub fn has_below<C: Collection>(it: &C, end: u64) -> bool {
    for key in 0..end {
        if !it.has(Key(key), key.wrapping_mul(10)) {
            return false;
        }
    }
    it.count() == end
}
