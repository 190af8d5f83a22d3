// The comparisons of the tests. A test calls these, since each assertion that is written out in one
// makes its proof longer.
use std::alloc::Global;
use std::fmt::Debug;
use std::process::Abort;
use std::test::Fail;

/// Checks that what was found is what is wanted.
pub fn is<T: PartialEq + Debug + Drop>(rt: &impl Abort, found: T, wanted: T) {
    assert_eq!(rt; found, wanted);
}

/// Checks that `Debug` prints what is wanted of a value.
pub fn prints<T: Debug>(
    rt: &impl Abort,
    alloc: Global,
    value: &T,
    wanted: &str,
) -> Result<(), Fail> {
    is(rt, format!(in alloc; "{value:?}")?.as_str(), wanted);
    Ok(())
}

/// Checks that what was found in the case of this number is what is wanted.
pub fn is_at<T: PartialEq + Debug + Drop>(rt: &impl Abort, case: usize, found: T, wanted: T) {
    assert_eq!(rt; found, wanted, "at {case}");
}
