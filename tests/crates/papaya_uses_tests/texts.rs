// The uses whose keys are texts, each run once; threads share the maps.
use crate::expect::is;
use papaya::{Refused, Session};
use papaya_uses::interner::Interner;
use papaya_uses::metrics::{Metrics, add, read};
use papaya_uses::routes::{Routes, handler, lead};
use std::alloc::Global;
use std::process::Abort;
use std::sync::Wait;
use std::test::Fail;
use std::thread::{Threads, join};

/// Adds this many times to one metric, and once to another, by one thread.
fn adds(rt: &impl Wait, alloc: Global, metrics: &Metrics, times: u64) -> Result<u64, Refused> {
    let mut session = Session::new(metrics);
    for _ in 0..times {
        add(rt, alloc, &mut session, "requests", 2)?;
    }
    add(rt, alloc, &mut session, "threads", 1)
}

/// Lets two threads add at a time.
fn both_add(rt: &(impl Threads + Wait + Sync + Abort), alloc: Global, metrics: &Metrics) {
    let both = join(
        rt,
        || adds(rt, alloc, metrics, 1000),
        || adds(rt, alloc, metrics, 1000),
    );
    is(rt, both == (Ok(0), Ok(1)) || both == (Ok(1), Ok(0)), true);
    let mut session = Session::new(metrics);
    is(rt, read(&mut session, "requests"), Some(4000));
    is(rt, read(&mut session, "errors"), None);
}

#[test]
fn no_addition_to_a_metric_is_lost(rt: HostRuntime) -> Result<(), Fail> {
    let metrics: Metrics = Metrics::new(&rt, rt.alloc())?;
    both_add(&rt, rt.alloc(), &metrics);
    Ok(())
}

/// Gets the numbers of three texts by one thread; returns their sum.
fn numbers(rt: &impl Wait, alloc: Global, interner: &Interner) -> Result<u64, Refused> {
    let mut sum = 0u64;
    for text in ["red", "green", "blue"] {
        sum = sum.wrapping_add(interner.number(rt, alloc, text)?);
    }
    Ok(sum)
}

/// Checks that two threads get the same numbers.
fn both_ask(rt: &(impl Threads + Wait + Sync + Abort), alloc: Global, interner: &Interner) {
    let (first, second) = join(
        rt,
        || numbers(rt, alloc, interner),
        || numbers(rt, alloc, interner),
    );
    is(rt, (first.is_ok(), first == second), (true, true));
}

#[test]
fn a_text_has_one_number(rt: HostRuntime) -> Result<(), Fail> {
    let interner = Interner::new(&rt, rt.alloc())?;
    both_ask(&rt, rt.alloc(), &interner);
    let red = interner.number(&rt, rt.alloc(), "red")?;
    is(&rt, interner.text(red), Some("red"));
    is(&rt, interner.text(99), None);
    Ok(())
}

/// Sets a path's handler to this one, and checks the previous one.
fn leads(
    rt: &(impl Wait + Abort),
    alloc: Global,
    routes: &Routes,
    number: u64,
    before: Option<u64>,
) -> Result<(), Fail> {
    let mut session = Session::new(routes);
    let home = "/home".to_string(alloc)?;
    is(rt, lead(rt, &mut session, home, number), Ok(before));
    is(rt, handler(&mut session, "/home"), Some(number));
    is(rt, handler(&mut session, "/none"), None);
    Ok(())
}

#[test]
fn a_path_is_led(rt: HostRuntime) -> Result<(), Fail> {
    let routes: Routes = Routes::new(&rt, rt.alloc())?;
    leads(&rt, rt.alloc(), &routes, 1, None)?;
    leads(&rt, rt.alloc(), &routes, 2, Some(1))
}
