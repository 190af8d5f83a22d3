// Keys that share one path, so that a table of few keys has to grow.
ghost use Rattle.std.specs.Prelude.{◌≡◌};
ghost use Rattle.std.proofs.Common.{refl};
ghost use Rattle.std.specs.Hash as fed;

use papaya_words::resize_mode::ResizeMode;
use std::alloc::Global;
use std::hash::{Hash, Hasher};

/// The resize modes of the tests.
pub const MODES: [ResizeMode; 3] = [
    ResizeMode::Blocking,
    ResizeMode::Incremental(1),
    ResizeMode::Incremental(64),
];

/// A number with the same hash as all others.
#[derive(Clone, Copy, Debug, PartialEq, Eq)]
pub struct Key(pub u64);

impl Hash for Key {
    ghost hash_input = { λ key. fed.u64 0 };

    ghost respects_eq = { λ x y same. refl };

    fn hash<H: Hasher>(&self, state: &mut H) {
        0u64.hash(state);
    }
}

/// A key with its value. A set takes the key alone.
pub type Pair = (Key, u64);

/// The keys below this one are there before a call, each with ten times itself as its value.
pub const START: u64 = 20;

/// The call of ten further keys ends below this one. Its table grows at the seventh of them.
pub const END: u64 = 30;

/// The ten keys from `START` on, with their values.
pub const PAIRS: [Pair; 10] = [
    (Key(20), 200),
    (Key(21), 210),
    (Key(22), 220),
    (Key(23), 230),
    (Key(24), 240),
    (Key(25), 250),
    (Key(26), 260),
    (Key(27), 270),
    (Key(28), 280),
    (Key(29), 290),
];

/// The same entries by reference.
pub const LENT: [(&Key, &u64); 10] = [
    (&Key(20), &200),
    (&Key(21), &210),
    (&Key(22), &220),
    (&Key(23), &230),
    (&Key(24), &240),
    (&Key(25), &250),
    (&Key(26), &260),
    (&Key(27), &270),
    (&Key(28), &280),
    (&Key(29), &290),
];

/// The same keys without values.
pub const KEYS: [Key; 10] = [
    Key(20),
    Key(21),
    Key(22),
    Key(23),
    Key(24),
    Key(25),
    Key(26),
    Key(27),
    Key(28),
    Key(29),
];

/// Returns a key as decimal digits, if there is memory for them.
pub fn digits(alloc: Global, key: &Key) -> Option<String> {
    key.0.to_string(alloc).ok()
}
