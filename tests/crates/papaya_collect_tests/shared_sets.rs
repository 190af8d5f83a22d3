// The set that threads share.
use crate::collection::{Collection, Maker};
use crate::keys::{KEYS, Key, Pair};
use papaya_json::shared::{set_session_to_value, shared_set_from_value, shared_set_to_value};
use papaya_map::session::Session;
use papaya_set::set::HashSet;
use papaya_words::refused::Refused;
use serde_json::Value;
use std::alloc::Global;
use std::hash::BuildHasherDefault;
use std::sync::Wait;

impl Collection for HashSet<Key> {
    fn none<R: Wait>(rt: &R, alloc: Global, by: Maker) -> Result<Self, Refused> {
        let hasher = BuildHasherDefault::new();
        match by {
            Maker::New => HashSet::new(rt, alloc),
            Maker::Default => HashSet::default(rt, alloc),
            Maker::Capacity => HashSet::with_capacity(rt, alloc, 3),
            Maker::Hasher => HashSet::with_hasher(rt, alloc, hasher),
            Maker::CapacityAndHasher => HashSet::with_capacity_and_hasher(rt, alloc, 3, hasher),
            Maker::Parts(mode) => HashSet::with_parts(rt, alloc, mode, 0, 4, hasher, None),
            Maker::Built => HashSet::builder().capacity(3).build(rt, alloc),
        }
    }

    fn of_items<R: Wait>(rt: &R, alloc: Global, items: [Pair; 3]) -> Result<Self, Refused> {
        let [first, second, third] = items;
        HashSet::from_iter(rt, alloc, [first.0, second.0, third.0])
    }

    fn of_nothing<R: Wait>(rt: &R, alloc: Global) -> Result<Self, Refused> {
        HashSet::from_iter(rt, alloc, [])
    }

    fn of_array<R: Wait>(rt: &R, alloc: Global, items: [Pair; 3]) -> Result<Self, Refused> {
        let [first, second, third] = items;
        HashSet::from_array(rt, alloc, [first.0, second.0, third.0])
    }

    fn copied<R: Wait>(&self, rt: &R, alloc: Global) -> Result<Self, Refused> {
        self.try_clone(rt, alloc)
    }

    fn copied_as<R: Wait>(&self, rt: &R, alloc: Global) -> Result<Self, Refused> {
        let mut pass = self.map().pass();
        self.try_clone_as(rt, alloc, &mut pass)
    }

    fn read<R: Wait>(rt: &R, alloc: Global, value: &Value) -> Result<Self, Refused> {
        shared_set_from_value(
            rt,
            alloc,
            value,
            BuildHasherDefault::new(),
            |item| item.as_u64().map(Key),
        )
    }

    fn written<R: Wait>(&self, rt: &R, alloc: Global) -> Result<Value, Refused> {
        shared_set_to_value(rt, alloc, self, |key| Some(Value::from(key.0)))
    }

    fn written_as<R: Wait>(&self, rt: &R, alloc: Global) -> Result<Value, Refused> {
        let mut session = Session::new(self.map());
        set_session_to_value(rt, alloc, &mut session, |key| Some(Value::from(key.0)))
    }

    fn store<R: Wait>(&mut self, rt: &R, pair: Pair) -> Result<bool, Refused> {
        self.pin().insert(rt, pair.0)
    }

    fn take_out<R: Wait>(&mut self, rt: &R, key: Key) -> Result<bool, Refused> {
        self.pin().remove(rt, &key)
    }

    fn take<R: Wait>(&mut self, rt: &R) -> Result<(), Refused> {
        self.extend(rt, KEYS)
    }

    fn take_lent<R: Wait>(&mut self, rt: &R) -> Result<(), Refused> {
        self.extend_ref(rt, &KEYS)
    }

    fn make_anew<R: Wait>(&mut self, rt: &R) -> Result<(), Refused> {
        self.reclaim(rt)
    }

    fn make_anew_as<R: Wait>(&mut self, rt: &R) -> Result<(), Refused> {
        let mut pass = self.map().pass();
        self.reclaim_as(rt, &mut pass)
    }

    fn make_room<R: Wait>(&mut self, rt: &R) -> Result<(), Refused> {
        self.pin().reserve(rt, 100)
    }

    fn empty<R: Wait>(&mut self, rt: &R) -> Result<(), Refused> {
        self.pin().clear(rt)
    }

    fn keep_even<R: Wait>(&mut self, rt: &R) -> Result<(), Refused> {
        self.pin().retain(rt, |key| key.0 % 2 == 0)
    }

    fn equals<R: Wait>(&self, rt: &R, other: &Self) -> Result<bool, Refused> {
        self.eq(rt, other)
    }

    fn count(&self) -> u64 {
        self.len() as u64
    }

    fn has(&self, key: Key, _value: u64) -> bool {
        self.pin().contains(&key)
    }

    fn walk<R: Wait>(&self, rt: &R) -> Result<(u64, u64, u64), Refused> {
        let (mut keys, mut sum) = (0u64, 0u64);
        for key in self.pin().iter(rt)? {
            keys = keys.wrapping_add(1);
            sum = sum.wrapping_add(key.0);
        }
        Ok((keys, sum, 0))
    }
}
