// The cases on maps for one caller.
use crate::answers::{Answer, compute_of, insertion_of, making_of, pair_of, removal_of, value_of};
use crate::expect::MODES;
use crate::maps::{CASES, goes};
use crate::steps::{Agrees, Calls, by_parity};
use papaya_seq::seq::HashMap;
use papaya_testing::same::{FIRST, LAST};
use papaya_words::refused::Refused;
use std::alloc::Global;
use std::hash::{BuildHasher, BuildHasherDefault, FoldHasher};
use std::process::Abort;
use std::test::Fail;

impl<S: BuildHasher> Calls for HashMap<u64, u64, S> {
    fn insert_one(&mut self, key: u64, value: u64) -> Result<Answer, Refused> {
        Ok(value_of(self.insert(key, value)?))
    }

    fn get_one(&self, key: u64) -> Answer {
        value_of(self.get(&key))
    }

    fn get_pair(&self, key: u64) -> Answer {
        pair_of(self.get_key_value(&key))
    }

    fn contains_one(&self, key: u64) -> bool {
        self.contains_key(&key)
    }

    fn remove_one(&mut self, key: u64) -> Result<Answer, Refused> {
        Ok(value_of(self.remove(&key)?))
    }

    fn remove_one_if(&mut self, key: u64, agrees: Agrees) -> Result<Answer, Refused> {
        Ok(removal_of(self.remove_if(&key, |_, value| agrees.to(*value))?))
    }

    fn try_one(&mut self, key: u64, value: u64) -> Result<Answer, Refused> {
        Ok(insertion_of(self.try_insert(key, value)?))
    }

    fn try_one_with(&mut self, key: u64, value: u64) -> Result<Answer, Refused> {
        let mut made = false;
        let tried = self.try_insert_with(key, || {
            made = true;
            value
        })?;
        Ok(making_of(tried, made))
    }

    fn get_or_insert_one(&mut self, key: u64, value: u64) -> Result<Answer, Refused> {
        Ok(Answer::Number(*self.get_or_insert(key, value)?))
    }

    fn get_or_insert_one_with(&mut self, key: u64, value: u64) -> Result<Answer, Refused> {
        Ok(Answer::Number(*self.get_or_insert_with(key, || value)?))
    }

    fn update_one(&mut self, key: u64, by: u64) -> Result<Answer, Refused> {
        Ok(value_of(self.update(key, |value| value.wrapping_add(by))?))
    }

    fn update_one_or_insert(&mut self, key: u64, value: u64) -> Result<Answer, Refused> {
        let there = self.update_or_insert(key, |old| old.wrapping_add(1), value)?;
        Ok(Answer::Number(*there))
    }

    fn update_one_or_insert_with(&mut self, key: u64, value: u64) -> Result<Answer, Refused> {
        let there = self.update_or_insert_with(key, |old| old.wrapping_add(1), || value)?;
        Ok(Answer::Number(*there))
    }

    fn compute_one(&mut self, key: u64) -> Result<Answer, Refused> {
        Ok(compute_of(self.compute(key, by_parity)?))
    }

    fn pairs(&self) -> usize {
        self.len()
    }

    fn walk(&self) -> Result<Answer, Refused> {
        let (mut pairs, mut keys, mut values) = (0u64, 0u64, 0u64);
        for (key, value) in self.iter() {
            pairs = pairs.wrapping_add(1);
            keys = keys.wrapping_add(*key);
            values = values.wrapping_add(*value);
        }
        Ok(Answer::Walked(pairs, keys, values))
    }

    fn retain_below(&mut self, end: u64) -> Result<(), Refused> {
        self.retain(|_, value| *value < end)
    }
}

/// Runs each case in each mode, on maps for one caller.
fn cases<S: BuildHasher + Copy>(rt: &impl Abort, alloc: Global, hasher: S) -> Result<(), Fail> {
    for mode in MODES {
        for (at, case) in CASES.iter().enumerate() {
            let mut map = HashMap::with_parts(alloc, mode, 0, 1, hasher, None)?;
            goes(rt, at, case, &mut map);
        }
    }
    Ok(())
}

#[test]
fn cases_of_maps_for_one_caller(rt: HostRuntime) -> Result<(), Fail> {
    let alloc = rt.alloc();
    cases(&rt, alloc, FIRST)?;
    cases(&rt, alloc, LAST)?;
    cases(&rt, alloc, BuildHasherDefault::<FoldHasher>::new())
}
