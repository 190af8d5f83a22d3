// Maps of numbers, pinned: their calls by a pass, and those without one.
ghost use Rattle.std.specs.Prelude.{◌≡◌};

use crate::answers::{Answer, computed, done, pair, removal, there, value};
use crate::seen::{Says, Seen, agrees, next, next_at, operation};
use crate::steps::{Calls, Keeps, Step};
use papaya_map::map::{HashMap, HashMapRef};
use papaya_map::pass::Pass;
use papaya_testing::gate::Gate;
use papaya_testing::times::Times;
use papaya_words::refused::Refused;
use std::mem::swap;
use std::sync::Wait;

/// The maps of the tests.
pub type Numbers = HashMap<u64, u64, Times>;

/// Such a map, pinned, with two passes of it.
#[derive(Drop)]
pub struct Pinned<'a> {
    map: HashMapRef<'a, u64, u64, Times>,
    pass: Pass<u64, u64, Times>,
    other: Pass<u64, u64, Times>,
    seen: Seen,
    ghost same: { pass.book ≡ map.map.book },
    ghost other_same: { other.book ≡ map.map.book },
}

impl<'a> Pinned<'a> {
    /// Pins a map by `pin`, with a new pass.
    pub fn of(map: &'a Numbers) -> Pinned<'a> {
        Pinned {
            map: map.pin(),
            pass: map.pass(),
            other: map.pass(),
            seen: Seen::nothing(),
        }
    }

    /// Pins a map by `pin_owned`.
    pub fn owned_of(map: &'a Numbers) -> Pinned<'a> {
        Pinned {
            map: map.pin_owned(),
            pass: map.pass(),
            other: map.pass(),
            seen: Seen::nothing(),
        }
    }

    /// Lets the passes meet.
    fn meet(&mut self) -> Answer {
        self.map.meet(&mut self.pass, &mut self.other);
        Answer::Done
    }

    /// Swaps the passes.
    fn swap(&mut self) -> Answer {
        swap(&mut self.pass, &mut self.other);
        Answer::Done
    }

    /// Counts an iterator's entries whose key is the value, and those whose key is below it.
    fn pairs<R: Wait>(&self, rt: &R) -> Result<Answer, Refused> {
        let mut same = 0u64;
        let mut less = 0u64;
        for (key, value) in self.map.iter(rt)? {
            same = same.wrapping_add(u64::from(key == value));
            less = less.wrapping_add(u64::from(key < value));
        }
        Ok(Answer::Pair(same, less))
    }

    /// Counts an iterator's keys below this one, and sums up all its keys.
    fn walk_keys<R: Wait>(&self, rt: &R, end: u64) -> Result<Answer, Refused> {
        let mut below = 0u64;
        let mut sum = 0u64;
        for key in self.map.keys(rt)? {
            below = below.wrapping_add(u64::from(*key < end));
            sum = sum.wrapping_add(*key);
        }
        Ok(Answer::Pair(below, sum))
    }

    /// Sums up the values of an iterator.
    fn walk_values<R: Wait>(&self, rt: &R) -> Result<Answer, Refused> {
        let mut sum = 0u64;
        for value in self.map.values(rt)? {
            sum = sum.wrapping_add(*value);
        }
        Ok(Answer::Number(sum))
    }
}

/// Returns the result, also if the call failed.
pub fn said(answer: Result<Answer, Refused>) -> Answer {
    match answer {
        Ok(answer) => answer,
        Err(refused) => Answer::Refused(refused),
    }
}

impl Calls for Pinned<'_> {
    fn get(&mut self, key: u64) -> Answer {
        value(Ok(self.map.get_as(&key, &mut self.pass)))
    }

    fn contains(&mut self, key: u64) -> Answer {
        Answer::Is(self.map.contains_key(&key))
    }

    fn insert<R: Wait>(&mut self, rt: &R, key: u64, to: u64) -> Answer {
        value(self.map.insert_as(rt, key, to, &mut self.pass))
    }

    fn remove<R: Wait>(&mut self, rt: &R, key: u64) -> Answer {
        value(self.map.remove_as(rt, &key, &mut self.pass))
    }

    fn remove_entry<R: Wait>(&mut self, rt: &R, key: u64) -> Answer {
        pair(self.map.remove_entry(rt, &key))
    }

    fn remove_if<R: Wait>(&mut self, rt: &R, key: u64, says: bool, gate: &Gate) -> Answer {
        let mut seen = Seen::nothing();
        let removed = self.map.remove_if_as(
            rt,
            &key,
            |key, value| agrees(says, &mut seen, gate, key, value),
            &mut self.pass,
        );
        self.seen = seen;
        removal(removed)
    }

    fn update<R: Wait>(&mut self, rt: &R, key: u64, gate: &Gate) -> Answer {
        value(self.map.update(rt, key, |value| next_at(gate, value)))
    }

    fn compute<R: Wait>(&mut self, rt: &R, key: u64, says: Says, gate: &Gate) -> Answer {
        let mut seen = Seen::nothing();
        let answer = self.map.compute_as(
            rt,
            key,
            |shown| operation(says, &mut seen, gate, shown),
            &mut self.pass,
        );
        self.seen = seen;
        computed(answer)
    }

    fn seen(&self) -> Seen {
        self.seen
    }

    fn reserve<R: Wait>(&mut self, rt: &R, more: usize) -> Answer {
        done(self.map.reserve(rt, more))
    }

    fn retain<R: Wait>(&mut self, rt: &R, keeps: Keeps, gate: &Gate) -> Answer {
        let map = &self.map;
        done(map.retain(rt, |key, value| keeps.at(gate, *key, *value)))
    }

    fn clear<R: Wait>(&mut self, rt: &R) -> Answer {
        done(self.map.clear(rt))
    }

    fn iter<R: Wait>(&mut self, rt: &R) -> Answer {
        said(self.pairs(rt))
    }

    fn keys<R: Wait>(&mut self, rt: &R, end: u64) -> Answer {
        said(self.walk_keys(rt, end))
    }

    fn values<R: Wait>(&mut self, rt: &R) -> Answer {
        said(self.walk_values(rt))
    }

    fn len(&self) -> u64 {
        self.map.len() as u64
    }

    fn is_empty(&self) -> bool {
        self.map.is_empty()
    }

    fn other<R: Wait>(&mut self, rt: &R, step: Step) -> Answer {
        match step {
            Step::GetAlone(key) => value(Ok(self.map.get(&key))),
            Step::InsertAlone(key, to) => value(self.map.insert(rt, key, to)),
            Step::RemoveAlone(key) => value(self.map.remove(rt, &key)),
            Step::Meet => self.meet(),
            Step::Swap => self.swap(),
            Step::UpdateOrInsert(key, to) => there(self.map.update_or_insert(rt, key, next, to)),
            Step::GetKeyValue(key) => pair(Ok(self.map.get_key_value(&key))),
            _ => Answer::Number(self.map.map().len() as u64),
        }
    }
}
