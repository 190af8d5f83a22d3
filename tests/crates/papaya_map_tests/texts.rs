// A map of texts, with the hasher that maps have by default.
use crate::answers::Answer::{Absent, Number};
use crate::answers::{Answer, value};
use crate::steps::answers;
use papaya_map::map::HashMap;
use papaya_words::refused::Refused;
use papaya_words::resize_mode::ResizeMode;
use papaya_words_keys::guard::TextKey;
use std::alloc::Global;
use std::hash::{BuildHasherDefault, FoldHasher};
use std::process::Abort;
use std::sync::Wait;
use std::test::Fail;

/// A map of texts.
trait Texts: Sized {
    fn made<R: Wait>(rt: &R, alloc: Global) -> Result<Self, Refused>;

    /// Inserts by a pass of its own, as each call does.
    fn insert<R: Wait>(&self, rt: &R, alloc: Global, key: &str, to: u64) -> Answer;

    fn get(&self, key: &str) -> Answer;

    /// Looks up an owned key.
    fn get_owned(&self, alloc: Global, key: &str) -> Answer;

    fn remove<R: Wait>(&self, rt: &R, key: &str) -> Answer;

    fn count(&self) -> u64;
}

/// The result if there is no memory for a text.
const NO_MEMORY: Answer = Answer::Refused(Refused::Memory);

impl Texts for HashMap<String, u64, BuildHasherDefault<FoldHasher>> {
    fn made<R: Wait>(rt: &R, alloc: Global) -> Result<Self, Refused> {
        let hasher = BuildHasherDefault::default();
        HashMap::with_parts(rt, alloc, ResizeMode::Blocking, 0, 4, hasher, None)
    }

    fn insert<R: Wait>(&self, rt: &R, alloc: Global, key: &str, to: u64) -> Answer {
        let Ok(key) = key.to_string(alloc) else {
            return NO_MEMORY;
        };
        let mut pass = self.pass();
        value(self.pin().insert_as(rt, key, to, &mut pass))
    }

    fn get(&self, key: &str) -> Answer {
        let mut pass = self.pass();
        value(Ok(self.pin().get_as(&TextKey(key), &mut pass)))
    }

    fn get_owned(&self, alloc: Global, key: &str) -> Answer {
        let Ok(key) = key.to_string(alloc) else {
            return NO_MEMORY;
        };
        let mut pass = self.pass();
        value(Ok(self.pin().get_as(&key, &mut pass)))
    }

    fn remove<R: Wait>(&self, rt: &R, key: &str) -> Answer {
        let mut pass = self.pass();
        value(self.pin().remove_as(rt, &TextKey(key), &mut pass))
    }

    fn count(&self) -> u64 {
        self.len() as u64
    }
}

/// Stores two texts, removes the first, and fails to remove one that is not there. The second one
/// is found by an owned key.
fn keeps_blue<R: Wait + Abort, T: Texts>(rt: &R, alloc: Global, map: &T) {
    answers(rt, 0, 0, map.insert(rt, alloc, "red", 1), Absent);
    answers(rt, 0, 1, map.insert(rt, alloc, "blue", 2), Absent);
    answers(rt, 0, 2, map.get("red"), Number(1));
    answers(rt, 0, 3, map.get("green"), Absent);
    answers(rt, 0, 4, map.remove(rt, "green"), Absent);
    answers(rt, 0, 5, map.remove(rt, "red"), Number(1));
    answers(rt, 0, 6, map.get("red"), Absent);
    answers(rt, 0, 7, map.get_owned(alloc, "blue"), Number(2));
    answers(rt, 0, 8, Number(map.count()), Number(1));
}

/// Checks this on a new map.
fn keeps_of_new<R: Wait + Abort, T: Texts + Drop>(rt: &R, alloc: Global) -> Result<(), Refused> {
    let map: T = T::made(rt, alloc)?;
    keeps_blue(rt, alloc, &map);
    Ok(())
}

#[test]
fn texts_are_removed_by_text(rt: HostRuntime) -> Result<(), Fail> {
    keeps_of_new::<_, HashMap<String, u64, BuildHasherDefault<FoldHasher>>>(&rt, rt.alloc())?;
    Ok(())
}
