// The cases on sets that threads share, pinned.
use crate::expect::MODES;
use crate::key_steps::Calls;
use crate::sets::{CASES, goes};
use papaya_set::set::HashSet;
use papaya_testing::same::{FIRST, LAST};
use papaya_words::refused::Refused;
use std::alloc::Global;
use std::hash::{BuildHasher, BuildHasherDefault, FoldHasher};
use std::process::Abort;
use std::sync::Wait;
use std::test::Fail;

/// A set that threads share, and the runtime.
#[derive(Drop)]
pub struct Shared<'r, 's, R, S: BuildHasher> {
    pub rt: &'r R,
    pub set: &'s HashSet<u64, S>,
}

impl<R: Wait, S: BuildHasher> Calls for Shared<'_, '_, R, S> {
    fn insert_one(&mut self, key: u64) -> Result<bool, Refused> {
        self.set.pin().insert(self.rt, key)
    }

    fn remove_one(&mut self, key: u64) -> Result<bool, Refused> {
        self.set.pin().remove(self.rt, &key)
    }

    fn contains_one(&self, key: u64) -> Result<bool, Refused> {
        Ok(self.set.pin().contains(&key))
    }

    fn get_one(&self, key: u64) -> Result<Option<u64>, Refused> {
        Ok(self.set.pin().get(&key).copied())
    }

    fn keys(&self) -> usize {
        self.set.len()
    }

    fn walk(&self) -> Result<(u64, u64), Refused> {
        let (mut keys, mut sum) = (0u64, 0u64);
        for key in self.set.pin().iter(self.rt)? {
            keys = keys.wrapping_add(1);
            sum = sum.wrapping_add(*key);
        }
        Ok((keys, sum))
    }

    fn clear_all(&mut self) -> Result<(), Refused> {
        self.set.pin().clear(self.rt)
    }

    fn make_room(&mut self, more: usize) -> Result<(), Refused> {
        self.set.pin().reserve(self.rt, more)
    }

    fn retain_from(&mut self, least: u64) -> Result<(), Refused> {
        self.set.pin().retain(self.rt, |key| least <= *key)
    }

    fn take(&mut self, from: u64, end: u64) -> Result<(), Refused> {
        self.set.extend(self.rt, from..end)
    }

    fn take_lent(&mut self, keys: &[u64]) -> Result<(), Refused> {
        self.set.extend_ref(self.rt, keys)
    }
}

/// Runs each case in each mode.
fn cases<R: Wait + Abort, S: BuildHasher + Copy>(
    rt: &R,
    alloc: Global,
    hasher: S,
) -> Result<(), Fail> {
    for mode in MODES {
        for (at, case) in CASES.iter().enumerate() {
            let set = HashSet::with_parts(rt, alloc, mode, 0, 4, hasher, None)?;
            goes(rt, at, case, &mut Shared { rt, set: &set });
        }
    }
    Ok(())
}

#[test]
fn cases_of_sets_that_threads_share(rt: HostRuntime) -> Result<(), Fail> {
    let alloc = rt.alloc();
    cases(&rt, alloc, FIRST)?;
    cases(&rt, alloc, LAST)?;
    cases(&rt, alloc, BuildHasherDefault::<FoldHasher>::new())
}
