// Two passes that share what they have observed of a map.
ghost use Rattle.std.specs.Prelude.{◌≡◌};

use crate::answers::Answer::{Absent, Done, Number};
use crate::answers::{Answer, value};
use crate::expect::is;
use crate::numbers::Numbers;
use crate::shared::Turn::{Calls, Meets};
use crate::shared::{MODES, Turn, runs};
use crate::steps::Step::{Get, Insert, Meet, Swap};
use papaya_map::pass::Pass;
use papaya_testing::times::Times;
use papaya_words::refused::Refused;
use std::sync::Wait;
use std::test::Fail;
use std::thread::{Threads, join};

/// Two passes meet; each finds no value of the other's key, and stores its own. They meet again,
/// and each finds both keys.
const MEETS: [Turn; 1] = [Calls(&[
    (Meet, Done),
    (Get(2), Absent),
    (Swap, Done),
    (Get(1), Absent),
    (Swap, Done),
    (Insert(1, 10), Absent),
    (Swap, Done),
    (Insert(2, 20), Absent),
    (Meet, Done),
    (Get(1), Number(10)),
    (Get(2), Number(20)),
    (Swap, Done),
    (Get(1), Number(10)),
    (Get(2), Number(20)),
])];

#[test]
fn two_passes_meet(rt: HostRuntime) -> Result<(), Fail> {
    runs::<_, Numbers>(&rt, rt.alloc(), &MODES, &MEETS)
}

/// The result of a thread that has stored an entry, and its pass.
type Stored = (Answer, Pass<u64, u64, Times>);

/// Stores an entry by a pass of its own.
fn stored<R: Wait>(rt: &R, map: &Numbers, key: u64, to: u64) -> Stored
    ensures { result.1.book ≡ map.now.book }
{
    let mut pass = map.pass();
    let old = value(map.pin().insert_as(rt, key, to, &mut pass));
    (old, pass)
}

/// How many of the entries are (1, 10), and how many (2, 20).
#[derive(Clone, Copy)]
struct Given {
    first: u64,
    second: u64,
    other: u64,
}

impl Given {
    /// Returns counts of 0.
    fn nothing() -> Given {
        Given {
            first: 0,
            second: 0,
            other: 0,
        }
    }

    /// Counts an entry of an iterator.
    fn give(&mut self, key: u64, value: u64) {
        match (key, value) {
            (1, 10) => self.first = self.first.wrapping_add(1),
            (2, 20) => self.second = self.second.wrapping_add(1),
            _ => self.other = self.other.wrapping_add(1),
        }
    }

    /// Returns whether each of the two was returned once, and nothing else.
    fn is_both(self) -> bool {
        (self.first, self.second, self.other) == (1, 1, 0)
    }
}

/// Counts the entries of an iterator by a pass.
fn walked<R: Wait>(
    rt: &R,
    map: &Numbers,
    pass: &mut Pass<u64, u64, Times>,
) -> Result<Given, Refused>
    requires { pass.old.book ≡ map.now.book }
    ensures { pass.new.book ≡ pass.old.book }
{
    let mut given = Given::nothing();
    for (key, value) in map.pin().iter_as(rt, pass)? {
        given.give(*key, *value);
    }
    Ok(given)
}

/// Returns whether a pass finds both entries, by lookups and by an iterator.
fn finds_both<R: Wait>(rt: &R, map: &Numbers, mut pass: Pass<u64, u64, Times>) -> bool
    requires { pass.book ≡ map.now.book }
{
    let first = value(Ok(map.pin().get_as(&1, &mut pass)));
    let second = value(Ok(map.pin().get_as(&2, &mut pass)));
    let is_walked = match walked(rt, map, &mut pass) {
        Ok(given) => given.is_both(),
        Err(_) => false,
    };
    first == Number(10) && second == Number(20) && is_walked
}

/// Lets two threads store an entry each by a pass, and lets the passes meet; returns whether each
/// then finds both.
pub fn meets<R: Threads + Wait + Sync>(rt: &R, map: &Numbers) -> bool {
    let ((one, mut first), (other, mut second)) = join(
        rt,
        || stored(rt, map, 1, 10),
        || stored(rt, map, 2, 20),
    );
    map.pin().meet(&mut first, &mut second);
    let is_new = one == Absent && other == Absent;
    finds_both(rt, map, first) && finds_both(rt, map, second) && is_new
}

/// Checks that a pass finds what another thread stored, once the two passes have met.
#[test]
fn passes_of_two_threads_meet(rt: HostRuntime) -> Result<(), Fail> {
    runs::<_, Numbers>(&rt, rt.alloc(), &MODES, &[Meets])
}

/// Lists of entries, and whether each is just the two entries.
const GIVEN: [(&[(u64, u64)], bool); 6] = [
    (&[], false),
    (&[(1, 10)], false),
    (&[(2, 20), (1, 10)], true),
    (&[(1, 10), (2, 20), (1, 10)], false),
    (&[(1, 20), (2, 10)], false),
    (&[(1, 10), (2, 20), (3, 30)], false),
];

/// Checks that the test notices an iterator that returns less or more than both entries.
#[test]
fn a_walk_that_gives_nothing_is_found_out(rt: HostRuntime) {
    for (pairs, wanted) in GIVEN {
        let mut given = Given::nothing();
        for &(key, value) in pairs {
            given.give(key, value);
        }
        is(&rt, given.is_both(), wanted);
    }
}
