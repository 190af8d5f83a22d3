// The cases on maps that threads share, pinned.
use crate::answers::{Answer, compute_of, insertion_of, making_of, pair_of, removal_of, value_of};
use crate::expect::MODES;
use crate::maps::{CASES, goes};
use crate::steps::{Agrees, Calls, by_parity};
use papaya_map::map::HashMap;
use papaya_testing::same::{FIRST, LAST};
use papaya_words::refused::Refused;
use std::alloc::Global;
use std::hash::{BuildHasher, BuildHasherDefault, FoldHasher};
use std::process::Abort;
use std::sync::Wait;
use std::sync::atomic::{AtomicBool, Ordering};
use std::test::Fail;

/// A map that threads share, and the runtime.
#[derive(Drop)]
pub struct Shared<'r, 'm, R, S: BuildHasher> {
    pub rt: &'r R,
    pub map: &'m HashMap<u64, u64, S>,
}

impl<R: Wait, S: BuildHasher> Calls for Shared<'_, '_, R, S> {
    fn insert_one(&mut self, key: u64, value: u64) -> Result<Answer, Refused> {
        Ok(value_of(self.map.pin().insert(self.rt, key, value)?))
    }

    fn get_one(&self, key: u64) -> Answer {
        value_of(self.map.pin().get(&key))
    }

    fn get_pair(&self, key: u64) -> Answer {
        pair_of(self.map.pin().get_key_value(&key))
    }

    fn contains_one(&self, key: u64) -> bool {
        self.map.pin().contains_key(&key)
    }

    fn remove_one(&mut self, key: u64) -> Result<Answer, Refused> {
        Ok(value_of(self.map.pin().remove(self.rt, &key)?))
    }

    fn remove_one_if(&mut self, key: u64, agrees: Agrees) -> Result<Answer, Refused> {
        let pinned = self.map.pin();
        Ok(removal_of(pinned.remove_if(self.rt, &key, |_, value| agrees.to(*value))?))
    }

    fn try_one(&mut self, key: u64, value: u64) -> Result<Answer, Refused> {
        Ok(insertion_of(self.map.pin().try_insert(self.rt, key, value)?))
    }

    fn try_one_with(&mut self, key: u64, value: u64) -> Result<Answer, Refused> {
        let made = AtomicBool::new(false);
        let tried = self.map.pin().try_insert_with(self.rt, key, || {
            made.store(true, Ordering::SeqCst);
            value
        })?;
        Ok(making_of(tried, made.load(Ordering::SeqCst)))
    }

    fn get_or_insert_one(&mut self, key: u64, value: u64) -> Result<Answer, Refused> {
        let there = self.map.pin().get_or_insert(self.rt, key, value)?;
        Ok(Answer::Number(*there))
    }

    fn get_or_insert_one_with(&mut self, key: u64, value: u64) -> Result<Answer, Refused> {
        let there = self.map.pin().get_or_insert_with(self.rt, key, || value)?;
        Ok(Answer::Number(*there))
    }

    fn update_one(&mut self, key: u64, by: u64) -> Result<Answer, Refused> {
        let pinned = self.map.pin();
        Ok(value_of(pinned.update(self.rt, key, |value| value.wrapping_add(by))?))
    }

    fn update_one_or_insert(&mut self, key: u64, value: u64) -> Result<Answer, Refused> {
        let pinned = self.map.pin();
        let there = pinned.update_or_insert(self.rt, key, |old| old.wrapping_add(1), value)?;
        Ok(Answer::Number(*there))
    }

    fn update_one_or_insert_with(&mut self, key: u64, value: u64) -> Result<Answer, Refused> {
        let pinned = self.map.pin();
        let there = pinned.update_or_insert_with(
            self.rt,
            key,
            |old| old.wrapping_add(1),
            || value,
        )?;
        Ok(Answer::Number(*there))
    }

    fn compute_one(&mut self, key: u64) -> Result<Answer, Refused> {
        let computed = self
            .map
            .pin()
            .compute(self.rt, key, |shown| by_parity(shown))?;
        Ok(compute_of(computed))
    }

    fn pairs(&self) -> usize {
        self.map.len()
    }

    fn walk(&self) -> Result<Answer, Refused> {
        let (mut pairs, mut keys, mut values) = (0u64, 0u64, 0u64);
        for (key, value) in self.map.pin().iter(self.rt)? {
            pairs = pairs.wrapping_add(1);
            keys = keys.wrapping_add(*key);
            values = values.wrapping_add(*value);
        }
        Ok(Answer::Walked(pairs, keys, values))
    }

    fn retain_below(&mut self, end: u64) -> Result<(), Refused> {
        self.map.pin().retain(self.rt, |_, value| *value < end)
    }
}

/// Runs each case in each mode, on maps that threads share.
fn cases<R: Wait + Abort, S: BuildHasher + Copy>(
    rt: &R,
    alloc: Global,
    hasher: S,
) -> Result<(), Fail> {
    for mode in MODES {
        for (at, case) in CASES.iter().enumerate() {
            let map = HashMap::with_parts(rt, alloc, mode, 0, 4, hasher, None)?;
            goes(rt, at, case, &mut Shared { rt, map: &map });
        }
    }
    Ok(())
}

#[test]
fn cases_of_maps_that_threads_share(rt: HostRuntime) -> Result<(), Fail> {
    let alloc = rt.alloc();
    cases(&rt, alloc, FIRST)?;
    cases(&rt, alloc, LAST)?;
    cases(&rt, alloc, BuildHasherDefault::<FoldHasher>::new())
}
