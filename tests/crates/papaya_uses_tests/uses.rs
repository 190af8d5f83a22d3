// Each use, run once; threads share the tables and the set.
use crate::expect::is;
use papaya::seq::HashMap;
use papaya::{Refused, Session};
use papaya_uses::counters::{Counters, add};
use papaya_uses::hits::{Hits, forget_below, hit, reads, total};
use papaya_uses::jobs::{Outcomes, outcome_after, report};
use papaya_uses::seen::{Finder, Items};
use papaya_uses::sessions::{Users, sign_in, sign_out, user_of};
use papaya_uses::settings::{Settings, set_and_read};
use papaya_uses::words::count_words;
use std::process::Abort;
use std::sync::Wait;
use std::test::Fail;
use std::thread;
use std::thread::{Threads, join};

/// Checks that the word occurs this many times in the text.
fn stands(rt: &impl Abort, counts: &HashMap<&'static str, u64>, word: &'static str, times: u64) {
    assert_eq!(rt; counts.get(&word).copied().unwrap_or(0), times, "of {word}");
}

#[test]
fn words_are_counted(rt: HostRuntime) -> Result<(), Fail> {
    let text = ["to", "be", "or", "not", "to", "be"];
    let counts = count_words(rt.alloc(), &text)?;
    stands(&rt, &counts, "to", 2);
    stands(&rt, &counts, "or", 1);
    stands(&rt, &counts, "is", 0);
    Ok(())
}

/// Checks that the token has this user.
fn has(rt: &impl Abort, desk: &mut Session<'_, u64, u64>, token: u64, user: Option<u64>) {
    assert_eq!(rt; user_of(desk, token), user, "of {token}");
}

/// Signs a user in under two tokens, and out of the second.
fn comes_and_goes(rt: &impl Wait, users: &Users, user: u64) -> Result<bool, Refused> {
    let mut desk = Session::new(users);
    let second = user.wrapping_add(100);
    sign_in(rt, &mut desk, user, user)?;
    sign_in(rt, &mut desk, second, user)?;
    sign_out(rt, &mut desk, second, user)
}

/// Lets two threads do so at a time.
fn both_come(
    rt: &(impl Threads + Wait + Sync),
    users: &Users,
) -> (Result<bool, Refused>, Result<bool, Refused>) {
    join(
        rt,
        || comes_and_goes(rt, users, 1),
        || comes_and_goes(rt, users, 2),
    )
}

#[test]
fn threads_share_users(rt: HostRuntime) -> Result<(), Fail> {
    let users: Users = Users::with_capacity(&rt, rt.alloc(), 100)?;
    is(&rt, both_come(&rt, &users), (Ok(true), Ok(true)));
    let mut desk = Session::new(&users);
    has(&rt, &mut desk, 1, Some(1));
    has(&rt, &mut desk, 2, Some(2));
    has(&rt, &mut desk, 101, None);
    Ok(())
}

#[test]
fn a_session_of_another_user_stays(rt: HostRuntime) -> Result<(), Fail> {
    let users: Users = Users::with_capacity(&rt, rt.alloc(), 100)?;
    let mut desk = Session::new(&users);
    is(&rt, sign_in(&rt, &mut desk, 7, 1), Ok(None));
    is(&rt, sign_out(&rt, &mut desk, 7, 2), Ok(false));
    has(&rt, &mut desk, 7, Some(1));
    Ok(())
}

#[test]
fn a_setting_is_read_back(rt: HostRuntime) -> Result<(), Fail> {
    let settings: Settings = Settings::with_capacity(&rt, rt.alloc(), 100)?;
    let mut session = Session::new(&settings);
    is(&rt, set_and_read(&rt, &mut session, 1, 7), Ok(Some(7)));
    Ok(())
}

/// Adds 1 to a counter this many times.
fn adds(rt: &impl Wait, counters: &Counters, times: u64) -> Result<u64, Refused> {
    let mut session = Session::new(counters);
    for _ in 0..times {
        add(rt, &mut session, 5, 1)?;
    }
    add(rt, &mut session, 5, 0)
}

/// Lets two threads add at a time.
fn both_add(
    rt: &(impl Threads + Wait + Sync),
    counters: &Counters,
) -> (Result<u64, Refused>, Result<u64, Refused>) {
    join(rt, || adds(rt, counters, 1000), || adds(rt, counters, 1000))
}

#[test]
fn no_addition_is_lost(rt: HostRuntime) -> Result<(), Fail> {
    let counters: Counters = Counters::with_capacity(&rt, rt.alloc(), 100)?;
    let _ = both_add(&rt, &counters);
    is(&rt, adds(&rt, &counters, 0), Ok(2000));
    Ok(())
}

/// Reads a page of the thread's own ten times, and page 1 in between; returns whether no call
/// failed.
fn reads_pages(rt: &impl Wait, hits: &Hits, own: u64) -> bool {
    let mut session = Session::new(hits);
    for _ in 0..10u64 {
        if hit(rt, &mut session, own).is_err() || hit(rt, &mut session, 1).is_err() {
            return false;
        }
    }
    true
}

/// Lets two threads read pages, and removes one of them.
fn counts_hits(rt: &(impl Threads + Wait + Sync + Abort), hits: &Hits) {
    let both = join(rt, || reads_pages(rt, hits, 2), || reads_pages(rt, hits, 3));
    is(rt, both, (true, true));
    is(rt, hit(rt, &mut Session::new(hits), 2), Ok(11));
    is(rt, total(rt, hits), Ok(41));
    is(rt, forget_below(rt, hits, 11).is_ok(), true);
    is(rt, reads(hits, 1), Some(20));
    is(rt, (reads(hits, 2), reads(hits, 3)), (Some(11), None));
    is(rt, hits.len(), 2);
}

#[test]
fn threads_count_hits(rt: HostRuntime) -> Result<(), Fail> {
    let hits: Hits = Hits::new(&rt, rt.alloc())?;
    counts_hits(&rt, &hits);
    Ok(())
}

/// Meets eight items by a finder; returns how many of them were new.
fn meets(rt: &impl Wait, items: &Items) -> Result<u64, Refused> {
    let mut finder = Finder::new(items);
    let mut new = 0u64;
    for item in 0..8u64 {
        if finder.meet(rt, item)? {
            new = new.wrapping_add(1);
        }
    }
    Ok(new)
}

/// Lets two threads meet them; returns how many were new to one of them.
fn both_meet(rt: &(impl Threads + Wait + Sync), items: &Items) -> Result<u64, Refused> {
    let (first, second) = join(rt, || meets(rt, items), || meets(rt, items));
    Ok(first?.wrapping_add(second?))
}

/// Lets two threads meet them, and then forgets one.
fn finds(rt: &(impl Threads + Wait + Sync + Abort), items: &Items) {
    is(rt, both_meet(rt, items), Ok(8));
    let mut finder = Finder::new(items);
    is(rt, finder.forget(rt, 3), Ok(true));
    is(rt, finder.meet(rt, 3), Ok(true));
    is(rt, meets(rt, items), Ok(0));
}

#[test]
fn each_item_is_new_once(rt: HostRuntime) -> Result<(), Fail> {
    let items: Items = Items::new(&rt, rt.alloc())?;
    finds(&rt, &items);
    Ok(())
}

/// Lets a thread of a scope report the outcome of a job, and reads the outcome in this thread.
fn reads_after_a_scope(
    rt: &(impl Threads + Wait + Sync),
    outcomes: &Outcomes,
    reader: &mut Session<'_, u64, u64>,
    job: u64,
    outcome: u64,
) -> Result<Option<u64>, Refused> {
    let mut worker = thread::scope(thread::scope_env(), rt, |scope| {
        let Ok(worker) = scope.spawn(move || report(rt, Session::new(outcomes), job, outcome))
        else {
            return Err(Refused::Memory);
        };
        worker.join(rt)
    })?;
    Ok(outcome_after(reader, &mut worker, job))
}

/// Reports an outcome, replaces it by a second session, and removes it by a third. Returns what the
/// reader reads after it has met each of them.
fn reads_each(
    rt: &impl Wait,
    outcomes: &Outcomes,
    reader: &mut Session<'_, u64, u64>,
) -> Result<(Option<u64>, Option<u64>, Option<u64>), Refused> {
    let mut first = report(rt, Session::new(outcomes), 3, 30)?;
    let reported = outcome_after(reader, &mut first, 3);
    let mut second = report(rt, Session::new(outcomes), 3, 31)?;
    let replaced = outcome_after(reader, &mut second, 3);
    let mut third = Session::new(outcomes);
    third.remove(rt, &3)?;
    Ok((reported, replaced, outcome_after(reader, &mut third, 3)))
}

/// Lets another thread report an outcome, and then reads it in this thread.
fn report_and_read(
    rt: &(impl Threads + Wait + Sync),
    outcomes: &Outcomes,
    reader: &mut Session<'_, u64, u64>,
    job: u64,
    outcome: u64,
) -> Result<Option<u64>, Refused> {
    let mut worker = Session::new(outcomes);
    worker.meet(reader);
    let (reported, _) = join(rt, move || report(rt, worker, job, outcome), || ());
    let mut after = reported?;
    Ok(outcome_after(reader, &mut after, job))
}

/// Lets other threads report outcomes, and reads them in this thread.
fn passes_on(rt: &(impl Threads + Wait + Sync + Abort), outcomes: &Outcomes) {
    let mut reader = Session::new(outcomes);
    for outcome in 0..100u64 {
        let read = report_and_read(rt, outcomes, &mut reader, 1, outcome);
        is(rt, read, Ok(Some(outcome)));
    }
    let read = reads_after_a_scope(rt, outcomes, &mut reader, 2, 20);
    is(rt, read, Ok(Some(20)));
    is(
        rt,
        reads_each(rt, outcomes, &mut reader),
        Ok((Some(30), Some(31), None)),
    );
    is(
        rt,
        outcome_after(&mut reader, &mut Session::new(outcomes), 1),
        Some(99),
    );
}

#[test]
fn a_thread_reads_what_another_one_reported(rt: HostRuntime) -> Result<(), Fail> {
    let outcomes: Outcomes = Outcomes::new(&rt, rt.alloc())?;
    passes_on(&rt, &outcomes);
    Ok(())
}
