// Runs of `papaya-run` on texts, and the expected output.
use papaya_run_lines::run::run_on;
use papaya_run_shell::fakes::{Sink, Source, words};
use std::alloc::Global;
use std::process::Abort;
use std::sync::Wait;
use std::test::Fail;

/// A script, what a run of it prints on its output and on standard error, and its exit status.
#[derive(Clone, Copy)]
pub(crate) struct Case<'a> {
    pub script: &'a [u8],
    pub output: &'a str,
    pub errors: &'a str,
    pub status: u8,
}

impl<'a> Case<'a> {
    /// Returns a run that ends at a bad line.
    pub(crate) fn bad(script: &'a [u8], output: &'a str, errors: &'a str) -> Case<'a> {
        Case {
            script,
            output,
            errors,
            status: 2,
        }
    }

    /// Returns a run whose input fails.
    pub(crate) fn cut(script: &'a [u8], output: &'a str) -> Case<'a> {
        Case {
            script,
            output,
            errors: "papaya-run: input failed\n",
            status: 1,
        }
    }
}

/// Asserts that a run of this script has written this.
fn has_written<A: Abort>(rt: &A, found: &[u8], wanted: &str, script: &[u8]) {
    assert_eq!(rt;
        std::str::from_utf8(found).ok(),
        Some(wanted),
        "in {script:?}"
    );
}

/// Asserts that a run of this script has ended with this exit status.
pub(crate) fn has_ended<A: Abort>(rt: &A, found: u8, wanted: u8, script: &[u8]) {
    assert_eq!(rt; found, wanted, "in {script:?}");
}

/// Asserts what a run with these arguments does if its reader fails at its end.
pub(crate) fn expect_cut<A: Abort + Wait>(
    rt: &A,
    alloc: Global,
    args: &str,
    case: Case<'_>,
) -> Result<(), Fail> {
    let args = words(alloc, args)?;
    let mut source = Source {
        text: case.script,
        step: 5,
        fails: true,
    };
    let mut printed = Vec::new(alloc);
    let mut said = Vec::new(alloc);
    let status = run_on(
        rt,
        alloc,
        args.as_slice(),
        &mut source,
        &mut printed,
        &mut said,
    );
    has_written(rt, printed.as_slice(), case.output, case.script);
    has_written(rt, said.as_slice(), case.errors, case.script);
    has_ended(rt, status, case.status, case.script);
    Ok(())
}

/// Asserts that a run fails if its writer has room for these bytes only.
pub(crate) fn expect_full<A: Abort + Wait>(
    rt: &A,
    alloc: Global,
    args: &str,
    script: &[u8],
    kept: &str,
) -> Result<(), Fail> {
    let args = words(alloc, args)?;
    let mut output = Sink {
        text: Vec::new(alloc),
        room: kept.len(),
    };
    let mut said = Vec::new(alloc);
    let mut source = script;
    let status = run_on(
        rt,
        alloc,
        args.as_slice(),
        &mut source,
        &mut output,
        &mut said,
    );
    has_written(rt, output.text.as_slice(), kept, script);
    has_written(rt, said.as_slice(), "papaya-run: output failed\n", script);
    has_ended(rt, status, 1, script);
    Ok(())
}
