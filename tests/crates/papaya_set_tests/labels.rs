// Keys that are equal if their numbers are. A label tells which of them is stored.

use papaya_set::set::{HashSet, HashSetRef};
use papaya_testing::labels::Labelled;
use papaya_words::refused::Refused;
use papaya_words::resize_mode::ResizeMode;
use std::alloc::Global;
use std::hash::{BuildHasherDefault, FoldHasher};
use std::sync::Wait;

/// A set of such keys that threads share.
pub type Keys = HashSet<Labelled>;

pub type Pinned<'a> = HashSetRef<'a, Labelled, BuildHasherDefault<FoldHasher>>;

/// Returns a key of this number and label.
pub fn key(number: u64, label: char) -> Labelled {
    Labelled { number, label }
}

/// Returns a key of this number, with a label that does not matter.
pub fn any(number: u64) -> Labelled {
    key(number, '?')
}

/// The resize modes of the tests.
pub const MODES: [ResizeMode; 3] = [
    ResizeMode::Blocking,
    ResizeMode::Incremental(1),
    ResizeMode::Incremental(64),
];

/// Returns a set of this mode, with a table of 8 slots.
pub fn made<R: Wait>(rt: &R, alloc: Global, mode: ResizeMode) -> Result<Keys, Refused> {
    HashSet::with_parts(rt, alloc, mode, 6, 4, BuildHasherDefault::new(), None)
}
