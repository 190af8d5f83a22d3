// Maps of numbers: their calls with a guard.
use crate::answers::{Answer, computed, done, made, pair, removal, there, tried, truth, value};
use crate::numbers::{Numbers, said};
use crate::seen::{Says, Seen, agrees, next, next_at, operation};
use crate::steps::{Calls, Keeps, Step};
use papaya_testing::gate::Gate;
use papaya_words::refused::Refused;
use papaya_words_keys::guard::Guard;
use std::sync::Wait;

/// A map, and a guard of its collector or of another one.
#[derive(Drop)]
pub struct Guarded<'a, G> {
    map: &'a Numbers,
    guard: &'a G,
    seen: Seen,
}

impl<'a, G: Guard> Guarded<'a, G> {
    /// Calls with this guard.
    pub fn of(map: &'a Numbers, guard: &'a G) -> Guarded<'a, G> {
        Guarded {
            map,
            guard,
            seen: Seen::nothing(),
        }
    }

    /// Counts an iterator's entries whose key is the value, and those whose key is below it.
    fn pairs<R: Wait>(&self, rt: &R) -> Result<Answer, Refused> {
        let mut same = 0u64;
        let mut less = 0u64;
        for (key, value) in self.map.iter(rt, self.guard)? {
            same = same.wrapping_add(u64::from(key == value));
            less = less.wrapping_add(u64::from(key < value));
        }
        Ok(Answer::Pair(same, less))
    }

    /// Counts an iterator's keys below this one, and sums up all its keys.
    fn walk_keys<R: Wait>(&self, rt: &R, end: u64) -> Result<Answer, Refused> {
        let mut below = 0u64;
        let mut sum = 0u64;
        for key in self.map.keys(rt, self.guard)? {
            below = below.wrapping_add(u64::from(*key < end));
            sum = sum.wrapping_add(*key);
        }
        Ok(Answer::Pair(below, sum))
    }

    /// Sums up the values of an iterator.
    fn walk_values<R: Wait>(&self, rt: &R) -> Result<Answer, Refused> {
        let mut sum = 0u64;
        for value in self.map.values(rt, self.guard)? {
            sum = sum.wrapping_add(*value);
        }
        Ok(Answer::Number(sum))
    }

    /// Stores the value if the key has none.
    fn stores<R: Wait>(&self, rt: &R, step: Step) -> Answer {
        match step {
            Step::TryInsert(key, to) => tried(self.map.try_insert(rt, key, to, self.guard)),
            Step::TryInsertWith(key, to) => {
                made(self.map.try_insert_with(rt, key, || to, self.guard))
            }
            Step::GetOrInsert(key, to) => there(self.map.get_or_insert(rt, key, to, self.guard)),
            Step::GetOrInsertWith(key, to) => {
                there(self.map.get_or_insert_with(rt, key, || to, self.guard))
            }
            _ => self.updates(rt, step),
        }
    }

    /// Adds 1 to the value, or stores one if the key has none.
    fn updates<R: Wait>(&self, rt: &R, step: Step) -> Answer {
        match step {
            Step::UpdateOrInsert(key, to) => {
                there(self.map.update_or_insert(rt, key, next, to, self.guard))
            }
            Step::UpdateOrInsertWith(key, to) => {
                let map = self.map;
                there(map.update_or_insert_with(rt, key, next, || to, self.guard))
            }
            Step::GetKeyValue(key) => pair(self.map.get_key_value(&key, self.guard)),
            _ => done(self.map.verify(self.guard)),
        }
    }
}

impl<G: Guard> Calls for Guarded<'_, G> {
    fn get(&mut self, key: u64) -> Answer {
        value(self.map.get(&key, self.guard))
    }

    fn contains(&mut self, key: u64) -> Answer {
        truth(self.map.contains_key(&key, self.guard))
    }

    fn insert<R: Wait>(&mut self, rt: &R, key: u64, to: u64) -> Answer {
        value(self.map.insert(rt, key, to, self.guard))
    }

    fn remove<R: Wait>(&mut self, rt: &R, key: u64) -> Answer {
        value(self.map.remove(rt, &key, self.guard))
    }

    fn remove_entry<R: Wait>(&mut self, rt: &R, key: u64) -> Answer {
        pair(self.map.remove_entry(rt, &key, self.guard))
    }

    fn remove_if<R: Wait>(&mut self, rt: &R, key: u64, says: bool, gate: &Gate) -> Answer {
        let mut seen = Seen::nothing();
        let removed = self.map.remove_if(
            rt,
            &key,
            |key, value| agrees(says, &mut seen, gate, key, value),
            self.guard,
        );
        self.seen = seen;
        removal(removed)
    }

    fn update<R: Wait>(&mut self, rt: &R, key: u64, gate: &Gate) -> Answer {
        let map = self.map;
        value(map.update(rt, key, |value| next_at(gate, value), self.guard))
    }

    fn compute<R: Wait>(&mut self, rt: &R, key: u64, says: Says, gate: &Gate) -> Answer {
        let mut seen = Seen::nothing();
        let answer = self.map.compute(
            rt,
            key,
            |shown| operation(says, &mut seen, gate, shown),
            self.guard,
        );
        self.seen = seen;
        computed(answer)
    }

    fn seen(&self) -> Seen {
        self.seen
    }

    fn reserve<R: Wait>(&mut self, rt: &R, more: usize) -> Answer {
        done(self.map.reserve(rt, more, self.guard))
    }

    fn retain<R: Wait>(&mut self, rt: &R, keeps: Keeps, gate: &Gate) -> Answer {
        let map = self.map;
        done(map.retain(rt, |key, value| keeps.at(gate, *key, *value), self.guard))
    }

    fn clear<R: Wait>(&mut self, rt: &R) -> Answer {
        done(self.map.clear(rt, self.guard))
    }

    fn iter<R: Wait>(&mut self, rt: &R) -> Answer {
        said(self.pairs(rt))
    }

    fn keys<R: Wait>(&mut self, rt: &R, end: u64) -> Answer {
        said(self.walk_keys(rt, end))
    }

    fn values<R: Wait>(&mut self, rt: &R) -> Answer {
        said(self.walk_values(rt))
    }

    fn len(&self) -> u64 {
        self.map.len() as u64
    }

    fn is_empty(&self) -> bool {
        self.map.is_empty()
    }

    fn other<R: Wait>(&mut self, rt: &R, step: Step) -> Answer {
        self.stores(rt, step)
    }
}
