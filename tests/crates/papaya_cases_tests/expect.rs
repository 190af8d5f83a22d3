// The comparisons of the tests.
use crate::answers::Answer;
use papaya_words::resize_mode::ResizeMode;
use std::fmt::Debug;
use std::process::Abort;

/// The resize modes of the tests.
pub const MODES: [ResizeMode; 3] = [
    ResizeMode::Blocking,
    ResizeMode::Incremental(1),
    ResizeMode::Incremental(64),
];

/// Checks that what was found is what is wanted.
pub fn is<T: PartialEq + Debug + Drop>(rt: &impl Abort, found: T, wanted: T) {
    assert_eq!(rt; found, wanted);
}

/// Checks that a step of a case has the wanted result.
pub fn answers(rt: &impl Abort, case: usize, step: usize, found: Answer, wanted: Answer) {
    assert!(rt; found == wanted, "case {case}, step {step}");
}
