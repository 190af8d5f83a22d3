// The set for one caller.
use crate::collection::{Collection, Maker};
use crate::keys::{KEYS, Key, Pair};
use papaya_json::from_value::set_from_value;
use papaya_json::to_value::set_to_value;
use papaya_set::seq::HashSet;
use papaya_set::set;
use papaya_words::refused::Refused;
use serde_json::Value;
use std::alloc::Global;
use std::hash::BuildHasherDefault;
use std::sync::Wait;

impl Collection for HashSet<Key> {
    fn none<R: Wait>(_rt: &R, alloc: Global, by: Maker) -> Result<Self, Refused> {
        let hasher = BuildHasherDefault::new();
        match by {
            Maker::New => HashSet::new(alloc),
            Maker::Default => HashSet::default(alloc),
            Maker::Capacity => HashSet::with_capacity(alloc, 3),
            Maker::Hasher => HashSet::with_hasher(alloc, hasher),
            Maker::CapacityAndHasher => HashSet::with_capacity_and_hasher(alloc, 3, hasher),
            Maker::Parts(mode) => HashSet::with_parts(alloc, mode, 0, 1, hasher, None),
            Maker::Built => set::HashSet::builder().capacity(3).build_seq(alloc),
        }
    }

    fn of_items<R: Wait>(_rt: &R, alloc: Global, items: [Pair; 3]) -> Result<Self, Refused> {
        let [first, second, third] = items;
        HashSet::from_iter(alloc, [first.0, second.0, third.0])
    }

    fn of_nothing<R: Wait>(_rt: &R, alloc: Global) -> Result<Self, Refused> {
        HashSet::from_iter(alloc, [])
    }

    fn of_array<R: Wait>(_rt: &R, alloc: Global, items: [Pair; 3]) -> Result<Self, Refused> {
        let [first, second, third] = items;
        HashSet::from_array(alloc, [first.0, second.0, third.0])
    }

    fn copied<R: Wait>(&self, _rt: &R, alloc: Global) -> Result<Self, Refused> {
        self.try_clone(alloc)
    }

    fn read<R: Wait>(_rt: &R, alloc: Global, value: &Value) -> Result<Self, Refused> {
        set_from_value(
            alloc,
            value,
            BuildHasherDefault::new(),
            |item| item.as_u64().map(Key),
        )
    }

    fn written<R: Wait>(&self, _rt: &R, alloc: Global) -> Result<Value, Refused> {
        set_to_value(alloc, self, |key| Some(Value::from(key.0)))
    }

    fn store<R: Wait>(&mut self, _rt: &R, pair: Pair) -> Result<bool, Refused> {
        self.insert(pair.0)
    }

    fn take_out<R: Wait>(&mut self, _rt: &R, key: Key) -> Result<bool, Refused> {
        self.remove(&key)
    }

    fn take<R: Wait>(&mut self, _rt: &R) -> Result<(), Refused> {
        self.extend(KEYS)
    }

    fn take_lent<R: Wait>(&mut self, _rt: &R) -> Result<(), Refused> {
        self.extend_ref(&KEYS)
    }

    fn make_anew<R: Wait>(&mut self, _rt: &R) -> Result<(), Refused> {
        self.reclaim()
    }

    fn make_room<R: Wait>(&mut self, _rt: &R) -> Result<(), Refused> {
        self.reserve(100)
    }

    fn empty<R: Wait>(&mut self, _rt: &R) -> Result<(), Refused> {
        self.clear()
    }

    fn keep_even<R: Wait>(&mut self, _rt: &R) -> Result<(), Refused> {
        self.retain(|key| key.0 % 2 == 0)
    }

    fn equals<R: Wait>(&self, _rt: &R, other: &Self) -> Result<bool, Refused> {
        Ok(self.eq(other))
    }

    fn count(&self) -> u64 {
        self.len() as u64
    }

    fn has(&self, key: Key, _value: u64) -> bool {
        self.contains(&key)
    }

    fn walk<R: Wait>(&self, _rt: &R) -> Result<(u64, u64, u64), Refused> {
        let (mut keys, mut sum) = (0u64, 0u64);
        for key in self.iter() {
            keys = keys.wrapping_add(1);
            sum = sum.wrapping_add(key.0);
        }
        Ok((keys, sum, 0))
    }
}
