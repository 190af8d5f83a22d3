// A reference that a lookup has returned, while the entry is replaced and removed.
use crate::answers::Answer::{Absent, Number};
use crate::crowd::Crowd::Two;
use crate::crowd::Job::{Hold, LookAnew, WearOut};
use crate::numbers::Numbers;
use crate::shared::Turn::{Calls, Fails, Threads};
use crate::shared::{MODES, Turn, runs};
use crate::steps;
use crate::steps::Step::{Get, Insert, Len};
use papaya_testing::gate::{Gate, Peek};
use std::test::Fail;

/// The reference that a lookup returned, and the value that it had.
#[derive(Drop)]
struct Held<'a>(&'a u64);

impl Peek for Held<'_> {
    fn is_same(&mut self) -> bool {
        *self.0 == 10
    }
}

/// A lookup of key 1 that is made again each time.
#[derive(Drop)]
struct Anew<'a, C>(&'a mut C);

impl<C: steps::Calls> Peek for Anew<'_, C> {
    fn is_same(&mut self) -> bool {
        self.0.get(1) == Number(10)
    }
}

/// Returns whether the reference that a lookup returned keeps its value.
pub fn holds(map: &Numbers, gate: &Gate) -> bool {
    match map.pin().get(&1) {
        Some(value) => gate.stays(&mut Held(value)),
        None => false,
    }
}

/// Returns whether new lookups keep returning the same value.
pub fn looks_anew<C: steps::Calls>(map: &mut C, gate: &Gate) -> bool {
    gate.stays(&mut Anew(map))
}

/// A reference keeps its value while another thread replaces the entry 1000 times and removes it.
const HOLDS: [Turn; 3] = [
    Calls(&[(Insert(1, 10), Absent)]),
    Threads(Two([Hold, WearOut])),
    Calls(&[(Get(1), Absent), (Len, Number(0))]),
];

#[test]
fn a_reference_stays_as_it_is(rt: HostRuntime) -> Result<(), Fail> {
    runs::<_, Numbers>(&rt, rt.alloc(), &MODES, &HOLDS)
}

/// A thread that looks the key up again does not find the same value.
const LOOKS_ANEW: [Turn; 2] = [
    Calls(&[(Insert(1, 10), Absent)]),
    Fails(Two([LookAnew, WearOut]), (false, true)),
];

#[test]
fn a_lookup_anew_is_found_out(rt: HostRuntime) -> Result<(), Fail> {
    runs::<_, Numbers>(&rt, rt.alloc(), &MODES, &LOOKS_ANEW)
}
