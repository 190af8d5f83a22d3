// The map that threads share.
use crate::collection::{Collection, Maker};
use crate::keys::{Key, LENT, PAIRS, Pair, digits};
use papaya_json::shared::{session_to_value, shared_map_from_value, shared_map_to_value};
use papaya_map::map::HashMap;
use papaya_map::session::Session;
use papaya_words::refused::Refused;
use serde_json::Value;
use std::alloc::Global;
use std::hash::BuildHasherDefault;
use std::sync::Wait;

impl Collection for HashMap<Key, u64> {
    fn none<R: Wait>(rt: &R, alloc: Global, by: Maker) -> Result<Self, Refused> {
        let hasher = BuildHasherDefault::new();
        match by {
            Maker::New => HashMap::new(rt, alloc),
            Maker::Default => HashMap::default(rt, alloc),
            Maker::Capacity => HashMap::with_capacity(rt, alloc, 3),
            Maker::Hasher => HashMap::with_hasher(rt, alloc, hasher),
            Maker::CapacityAndHasher => HashMap::with_capacity_and_hasher(rt, alloc, 3, hasher),
            Maker::Parts(mode) => HashMap::with_parts(rt, alloc, mode, 0, 4, hasher, None),
            Maker::Built => HashMap::builder().capacity(3).build(rt, alloc),
        }
    }

    fn of_items<R: Wait>(rt: &R, alloc: Global, items: [Pair; 3]) -> Result<Self, Refused> {
        HashMap::from_iter(rt, alloc, items)
    }

    fn of_nothing<R: Wait>(rt: &R, alloc: Global) -> Result<Self, Refused> {
        HashMap::from_iter(rt, alloc, [])
    }

    fn of_array<R: Wait>(rt: &R, alloc: Global, items: [Pair; 3]) -> Result<Self, Refused> {
        HashMap::from_array(rt, alloc, items)
    }

    fn copied<R: Wait>(&self, rt: &R, alloc: Global) -> Result<Self, Refused> {
        self.try_clone(rt, alloc)
    }

    fn copied_as<R: Wait>(&self, rt: &R, alloc: Global) -> Result<Self, Refused> {
        Session::new(self).try_clone(rt, alloc)
    }

    fn read<R: Wait>(rt: &R, alloc: Global, value: &Value) -> Result<Self, Refused> {
        shared_map_from_value(
            rt,
            alloc,
            value,
            BuildHasherDefault::new(),
            |text| text.parse().ok().map(Key),
            Value::as_u64,
        )
    }

    fn written<R: Wait>(&self, rt: &R, alloc: Global) -> Result<Value, Refused> {
        shared_map_to_value(
            rt,
            alloc,
            self,
            |key| digits(alloc, key),
            |value| Some(Value::from(*value)),
        )
    }

    fn written_as<R: Wait>(&self, rt: &R, alloc: Global) -> Result<Value, Refused> {
        session_to_value(
            rt,
            alloc,
            &mut Session::new(self),
            |key| digits(alloc, key),
            |value| Some(Value::from(*value)),
        )
    }

    fn store<R: Wait>(&mut self, rt: &R, pair: Pair) -> Result<bool, Refused> {
        Ok(self.pin().insert(rt, pair.0, pair.1)?.is_none())
    }

    fn take_out<R: Wait>(&mut self, rt: &R, key: Key) -> Result<bool, Refused> {
        Ok(self.pin().remove(rt, &key)?.is_some())
    }

    fn take<R: Wait>(&mut self, rt: &R) -> Result<(), Refused> {
        self.extend(rt, PAIRS)
    }

    fn take_lent<R: Wait>(&mut self, rt: &R) -> Result<(), Refused> {
        self.extend_ref(rt, LENT)
    }

    fn make_anew<R: Wait>(&mut self, rt: &R) -> Result<(), Refused> {
        self.reclaim(rt)
    }

    fn make_anew_as<R: Wait>(&mut self, rt: &R) -> Result<(), Refused> {
        let mut pass = self.pass();
        self.reclaim_as(rt, &mut pass)
    }

    fn make_room<R: Wait>(&mut self, rt: &R) -> Result<(), Refused> {
        self.pin().reserve(rt, 100)
    }

    fn empty<R: Wait>(&mut self, rt: &R) -> Result<(), Refused> {
        self.pin().clear(rt)
    }

    fn keep_even<R: Wait>(&mut self, rt: &R) -> Result<(), Refused> {
        self.pin().retain(rt, |key, _| key.0 % 2 == 0)
    }

    fn equals<R: Wait>(&self, rt: &R, other: &Self) -> Result<bool, Refused> {
        self.eq(rt, other)
    }

    fn count(&self) -> u64 {
        self.len() as u64
    }

    fn has(&self, key: Key, value: u64) -> bool {
        self.pin().get(&key) == Some(&value)
    }

    fn walk<R: Wait>(&self, rt: &R) -> Result<(u64, u64, u64), Refused> {
        let (mut pairs, mut keys, mut values) = (0u64, 0u64, 0u64);
        for (key, value) in self.pin().iter(rt)? {
            pairs = pairs.wrapping_add(1);
            keys = keys.wrapping_add(key.0);
            values = values.wrapping_add(*value);
        }
        Ok((pairs, keys, values))
    }
}
