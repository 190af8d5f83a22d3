// The cases on sets for one caller.
use crate::expect::MODES;
use crate::key_steps::Calls;
use crate::sets::{CASES, goes};
use papaya_set::seq::HashSet;
use papaya_testing::same::{FIRST, LAST};
use papaya_words::refused::Refused;
use std::alloc::Global;
use std::hash::{BuildHasher, BuildHasherDefault, FoldHasher};
use std::process::Abort;
use std::test::Fail;

impl<S: BuildHasher> Calls for HashSet<u64, S> {
    fn insert_one(&mut self, key: u64) -> Result<bool, Refused> {
        self.insert(key)
    }

    fn remove_one(&mut self, key: u64) -> Result<bool, Refused> {
        self.remove(&key)
    }

    fn contains_one(&self, key: u64) -> Result<bool, Refused> {
        Ok(self.contains(&key))
    }

    fn get_one(&self, key: u64) -> Result<Option<u64>, Refused> {
        Ok(self.get(&key).copied())
    }

    fn keys(&self) -> usize {
        self.len()
    }

    fn walk(&self) -> Result<(u64, u64), Refused> {
        let (mut keys, mut sum) = (0u64, 0u64);
        for key in self.iter() {
            keys = keys.wrapping_add(1);
            sum = sum.wrapping_add(*key);
        }
        Ok((keys, sum))
    }

    fn clear_all(&mut self) -> Result<(), Refused> {
        self.clear()
    }

    fn make_room(&mut self, more: usize) -> Result<(), Refused> {
        self.reserve(more)
    }

    fn retain_from(&mut self, least: u64) -> Result<(), Refused> {
        self.retain(|key| least <= *key)
    }

    fn take(&mut self, from: u64, end: u64) -> Result<(), Refused> {
        self.extend(from..end)
    }

    fn take_lent(&mut self, keys: &[u64]) -> Result<(), Refused> {
        self.extend_ref(keys)
    }
}

/// Runs each case in each mode.
fn cases<S: BuildHasher + Copy>(rt: &impl Abort, alloc: Global, hasher: S) -> Result<(), Fail> {
    for mode in MODES {
        for (at, case) in CASES.iter().enumerate() {
            let mut set = HashSet::with_parts(alloc, mode, 0, 1, hasher, None)?;
            goes(rt, at, case, &mut set);
        }
    }
    Ok(())
}

#[test]
fn cases_of_sets_for_one_caller(rt: HostRuntime) -> Result<(), Fail> {
    let alloc = rt.alloc();
    cases(&rt, alloc, FIRST)?;
    cases(&rt, alloc, LAST)?;
    cases(&rt, alloc, BuildHasherDefault::<FoldHasher>::new())
}
