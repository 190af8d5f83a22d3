// The tests' only assertions. A test calls these instead of writing assertions out, because each of
// those makes the test's proof longer.
use std::fmt::Debug;
use std::process::Abort;

/// Asserts that `found` equals `wanted`.
pub fn is<T: PartialEq + Debug + Drop>(rt: &impl Abort, found: T, wanted: T) {
    assert_eq!(rt; found, wanted);
}

/// Asserts that `found` equals `wanted` in the case of this number.
pub fn is_at<T: PartialEq + Debug + Drop>(rt: &impl Abort, case: usize, found: T, wanted: T) {
    assert_eq!(rt; found, wanted, "at {case}");
}
