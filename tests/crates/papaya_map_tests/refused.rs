// A refused allocation leaves the map as it was. If `tests/refused.py` refuses a request for
// memory, a call here meets it.
use crate::answers::Answer;
use crate::numbers::Numbers;
use crate::shared::{Making, Turn, runs};
use crate::steps::{Calls, Step, has_below};
use papaya_testing::times::TOGETHER;
use papaya_words::refused::Refused;
use papaya_words::resize_mode::ResizeMode;
use std::sync::Wait;
use std::test::Fail;

/// Returns whether the map has the keys below this one, each with ten times itself, and no other.
fn has_tens<C: Calls>(map: &mut C, end: u64) -> bool {
    has_below(map, end, 10, 0) && map.get(end) == Answer::Absent && map.len() == end
}

/// Inserts a key that is absent, and again after `Refused::Memory`; returns whether the map was
/// unchanged after a refusal.
pub fn stores_again<R: Wait, C: Calls>(rt: &R, map: &mut C, key: u64) -> bool {
    let value = key.wrapping_mul(10);
    match map.insert(rt, key, value) {
        Answer::Absent => true,
        Answer::Refused(Refused::Memory) => {
            has_tens(map, key) && map.insert(rt, key, value) == Answer::Absent
        }
        _ => false,
    }
}

/// The number of keys of one path that make a table of 32 slots grow. In `Blocking` a longer table
/// is given up.
const KEYS: u64 = 70;

/// Fills an empty map; returns whether it was as expected after each key.
pub fn fills<R: Wait, C: Calls>(rt: &R, map: &mut C) -> bool {
    for key in 0..KEYS {
        if !has_tens(map, key) || !stores_again(rt, map, key) {
            return false;
        }
    }
    has_tens(map, KEYS)
}

/// Removes these keys from a map, the highest first; returns whether it was as expected after each.
/// A removal allocates nothing, even if it moves entries to a table that is there.
pub fn empties<R: Wait, C: Calls>(rt: &R, map: &mut C) -> bool {
    for gone in 0..KEYS {
        let key = KEYS - 1 - gone;
        if map.remove(rt, key) != Answer::Number(key.wrapping_mul(10)) || !has_tens(map, key) {
            return false;
        }
    }
    true
}

/// Replaces the value 0 of key 0 again and again; returns whether the map was as expected, also
/// after a refusal.
pub fn replaces<R: Wait, C: Calls>(rt: &R, map: &mut C) -> bool {
    let mut stands = 0u64;
    for value in 1..100u64 {
        let old = map.insert(rt, 0, value);
        if old == Answer::Number(stands) {
            stands = value;
        } else if old != Answer::Refused(Refused::Memory) {
            return false;
        }
        if map.get(0) != Answer::Number(stands) || map.len() != 1 {
            return false;
        }
    }
    true
}

/// Maps whose keys all take one path.
const TO_FILL: [Making; 3] = [
    Making::Parts(ResizeMode::Blocking, 0, TOGETHER),
    Making::Parts(ResizeMode::Blocking, 20, TOGETHER),
    Making::Parts(ResizeMode::Incremental(1), 20, TOGETHER),
];

#[test]
fn refused_growth_leaves_the_map(rt: HostRuntime) -> Result<(), Fail> {
    runs::<_, Numbers>(
        &rt,
        rt.alloc(),
        &TO_FILL,
        &[Turn::Calls(&[
            (Step::Fills, Answer::Is(true)),
            (Step::Empties, Answer::Is(true)),
        ])],
    )
}

#[test]
fn refused_replacement_leaves_the_value(rt: HostRuntime) -> Result<(), Fail> {
    runs::<_, Numbers>(
        &rt,
        rt.alloc(),
        &[Making::Parts(ResizeMode::Incremental(64), 0, TOGETHER)],
        &[Turn::Calls(&[
            (Step::StoresAgain(0), Answer::Is(true)),
            (Step::Replaces, Answer::Is(true)),
        ])],
    )
}
