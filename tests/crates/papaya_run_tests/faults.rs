// Readers and writers of `papaya-run` that fail.
use crate::runs::{Case, expect_cut, expect_full, has_ended};
use papaya_run_lines::run::run_on;
use papaya_run_shell::fakes::{Sink, Source};
use std::test::Fail;

/// A schedule, which prints three lines.
const FIRST: &[u8] = b"begin 0 i 1 10\nbegin 1 g 1\nfinish 1\nfinish 0\nbegin 1 g 1\nfinish 1\n";

/// The backends that perform their lines one by one.
const BACKENDS: [&str; 2] = ["seq inc:64 id", "shared inc:64 id"];

#[test]
fn faults_of_the_input(rt: HostRuntime) -> Result<(), Fail> {
    // The printed text stays. The line that the fault cuts off is not performed, whatever it says
    // so far, and no line behind a bad one is read.
    let cases = [
        Case::cut(b"", ""),
        Case::cut(b"i 1 10\ng 1\ng 1", "none\nsome 10\n"),
        Case::bad(
            b"i 1 10\nx\ng 1",
            "none\n",
            "papaya-run: line 2: bad command\n",
        ),
    ];
    for args in BACKENDS {
        for case in cases {
            expect_cut(&rt, rt.alloc(), args, case)?;
        }
    }
    // A schedule is not run then, even behind a bad line.
    let scripts: [&[u8]; 3] = [b"", FIRST, b"x\nbegin 0 g 1\nfin"];
    for script in scripts {
        expect_cut(&rt, rt.alloc(), "core inc:64 id", Case::cut(script, ""))?;
    }
    Ok(())
}

/// Checks that bad arguments are reported before anything is read.
#[test]
fn bad_arguments_read_nothing(rt: HostRuntime) -> Result<(), Fail> {
    let mut source = Source {
        text: b"",
        step: 1,
        fails: true,
    };
    let mut printed = Vec::new(rt.alloc());
    let mut said = Vec::new(rt.alloc());
    let status = run_on(&rt, rt.alloc(), &[], &mut source, &mut printed, &mut said);
    has_ended(&rt, status, 2, b"");
    Ok(())
}

#[test]
fn faults_of_the_output(rt: HostRuntime) -> Result<(), Fail> {
    // Fails at the first write, at one in the middle of a line, and at one of a later line.
    for args in BACKENDS {
        for kept in ["", "no", "none\nsome "] {
            expect_full(&rt, rt.alloc(), args, b"i 1 10\ng 1\nx\n", kept)?;
        }
    }
    for kept in ["", "1: n", "1: none\n0: none\n"] {
        expect_full(&rt, rt.alloc(), "core inc:64 id", FIRST, kept)?;
    }
    Ok(())
}

#[test]
fn faults_of_the_errors(rt: HostRuntime) -> Result<(), Fail> {
    let mut errors = Sink {
        text: Vec::new(rt.alloc()),
        room: 3,
    };
    let mut printed = Vec::new(rt.alloc());
    let mut source = FIRST;
    let status = run_on(&rt, rt.alloc(), &[], &mut source, &mut printed, &mut errors);
    has_ended(&rt, status, 2, FIRST);
    assert_eq!(rt; errors.text.as_slice(), b"pap".as_slice());
    Ok(())
}
