// The map for one caller.
use crate::collection::{Collection, Maker};
use crate::expect::is_at;
use crate::keys::{Key, LENT, PAIRS, Pair, digits};
use papaya_json::from_value::map_from_value;
use papaya_json::to_value::map_to_value;
use papaya_map::map;
use papaya_seq::seq::HashMap;
use papaya_words::refused::Refused;
use serde_json::Value;
use std::alloc::Global;
use std::hash::BuildHasherDefault;
use std::sync::Wait;

impl Collection for HashMap<Key, u64> {
    fn none<R: Wait>(_rt: &R, alloc: Global, by: Maker) -> Result<Self, Refused> {
        let hasher = BuildHasherDefault::new();
        match by {
            Maker::New => HashMap::new(alloc),
            Maker::Default => HashMap::default(alloc),
            Maker::Capacity => HashMap::with_capacity(alloc, 3),
            Maker::Hasher => HashMap::with_hasher(alloc, hasher),
            Maker::CapacityAndHasher => HashMap::with_capacity_and_hasher(alloc, 3, hasher),
            Maker::Parts(mode) => HashMap::with_parts(alloc, mode, 0, 1, hasher, None),
            Maker::Built => map::HashMap::builder().capacity(3).build_seq(alloc),
        }
    }

    fn of_items<R: Wait>(_rt: &R, alloc: Global, items: [Pair; 3]) -> Result<Self, Refused> {
        HashMap::from_iter(alloc, items)
    }

    fn of_nothing<R: Wait>(_rt: &R, alloc: Global) -> Result<Self, Refused> {
        HashMap::from_iter(alloc, [])
    }

    fn of_array<R: Wait>(_rt: &R, alloc: Global, items: [Pair; 3]) -> Result<Self, Refused> {
        HashMap::from_array(alloc, items)
    }

    fn copied<R: Wait>(&self, _rt: &R, alloc: Global) -> Result<Self, Refused> {
        self.try_clone(alloc)
    }

    fn read<R: Wait>(_rt: &R, alloc: Global, value: &Value) -> Result<Self, Refused> {
        map_from_value(
            alloc,
            value,
            BuildHasherDefault::new(),
            |text| text.parse().ok().map(Key),
            Value::as_u64,
        )
    }

    fn written<R: Wait>(&self, _rt: &R, alloc: Global) -> Result<Value, Refused> {
        map_to_value(
            alloc,
            self,
            |key| digits(alloc, key),
            |value| Some(Value::from(*value)),
        )
    }

    fn store<R: Wait>(&mut self, _rt: &R, pair: Pair) -> Result<bool, Refused> {
        self.put(pair.0, pair.1)
    }

    fn take_out<R: Wait>(&mut self, _rt: &R, key: Key) -> Result<bool, Refused> {
        Ok(self.remove(&key)?.is_some())
    }

    fn take<R: Wait>(&mut self, _rt: &R) -> Result<(), Refused> {
        self.extend(PAIRS)
    }

    fn take_lent<R: Wait>(&mut self, _rt: &R) -> Result<(), Refused> {
        self.extend_ref(LENT)
    }

    fn make_anew<R: Wait>(&mut self, _rt: &R) -> Result<(), Refused> {
        self.reclaim()
    }

    fn make_room<R: Wait>(&mut self, _rt: &R) -> Result<(), Refused> {
        self.reserve(100)
    }

    fn empty<R: Wait>(&mut self, _rt: &R) -> Result<(), Refused> {
        self.clear()
    }

    fn keep_even<R: Wait>(&mut self, _rt: &R) -> Result<(), Refused> {
        self.retain(|key, _| key.0 % 2 == 0)
    }

    fn equals<R: Wait>(&self, _rt: &R, other: &Self) -> Result<bool, Refused> {
        Ok(self.eq(other))
    }

    fn count(&self) -> u64 {
        self.len() as u64
    }

    fn has(&self, key: Key, value: u64) -> bool {
        self.get(&key) == Some(&value)
    }

    fn walk<R: Wait>(&self, _rt: &R) -> Result<(u64, u64, u64), Refused> {
        let (mut pairs, mut keys, mut values) = (0u64, 0u64, 0u64);
        for (key, value) in self.iter() {
            pairs = pairs.wrapping_add(1);
            keys = keys.wrapping_add(key.0);
            values = values.wrapping_add(*value);
        }
        Ok((pairs, keys, values))
    }
}

/// Returns how many slots a new map has, or why there is none.
fn slots(made: Result<HashMap<Key, u64>, Refused>) -> Result<usize, Refused> {
    Ok(made?.slots())
}

#[test]
fn a_map_of_no_pairs_has_no_table(rt: HostRuntime) {
    is_at(&rt, 0, slots(HashMap::from_iter(rt.alloc(), [])), Ok(0));
}
