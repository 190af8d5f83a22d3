// The comparison of the tests. A test calls this, since each assertion that is written out in one
// makes its proof longer.
use std::fmt::Debug;
use std::process::Abort;

/// Checks that what was found is what is wanted.
pub fn is<T: PartialEq + Debug + Drop>(rt: &impl Abort, found: T, wanted: T) {
    assert_eq!(rt; found, wanted);
}
