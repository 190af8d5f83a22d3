// The work of a server over months: logins that end, and a cache that is full.
use crate::expect::is;
use papaya::Refused;
use papaya_uses::logins::{Desk, Login, log_in, login_of, logins, sweep};
use papaya_uses::pages::{Page, Reader, pages, put, text_of};
use std::alloc::Global;
use std::process::Abort;
use std::sync::Wait;
use std::test::Fail;

/// Logs a user in under each token below this one, until as many seconds as the token says.
fn all_log_in(rt: &impl Wait, desk: &mut Desk<'_>, tokens: u64) -> Result<(), Refused> {
    for token in 0..tokens {
        log_in(
            rt,
            desk,
            token,
            Login {
                user: 1,
                until: token,
            },
        )?;
    }
    Ok(())
}

/// Returns whether a user is logged in by this token now.
fn is_in(rt: &impl Wait, desk: &mut Desk<'_>, token: u64, now: u64) -> bool {
    login_of(rt, desk, token, now).is_some()
}

/// Checks that logins come, end, and are swept.
fn come_and_end(rt: &(impl Abort + Wait), desk: &mut Desk<'_>) {
    is(rt, all_log_in(rt, desk, 9000), Ok(()));
    is(rt, is_in(rt, desk, 5, 5), false);
    is(rt, is_in(rt, desk, 5, 4), true);
    // 9,000 are stored, and the last 999 have not ended
    is(rt, sweep(rt, desk, 8000), Ok(true));
    is(rt, sweep(rt, desk, 8000), Ok(false));
    let entered = desk.enter(rt);
    is(rt, (entered.len(), entered.stored()), (999, 999));
}

#[test]
fn logins_end_and_give_back_memory(rt: HostRuntime) -> Result<(), Fail> {
    let table = logins(&rt, rt.alloc())?;
    come_and_end(&rt, &mut table.handle());
    Ok(())
}

/// Puts a page in, this many seconds after the server was started.
fn puts(
    rt: &impl Wait,
    alloc: Global,
    reader: &mut Reader<'_>,
    number: u64,
    since: u64,
) -> Result<(), Fail> {
    let text = "text".to_string(alloc)?;
    put(rt, reader, number, &Page { text, since })?;
    Ok(())
}

/// Checks for each of these pages whether the cache has it.
fn has(
    rt: &(impl Abort + Wait),
    reader: &mut Reader<'_>,
    wanted: &[(u64, bool)],
) -> Result<(), Fail> {
    for (number, is_there) in wanted {
        let text = text_of(rt, reader, *number)?;
        assert!(rt; text.is_some() == *is_there, "of {number}");
    }
    Ok(())
}

/// Checks which pages the cache has after a hundred pages fill it, the later ones this many seconds
/// after those before, and a further page is put in.
fn makes_room(
    rt: &(impl Abort + Wait),
    alloc: Global,
    apart: u64,
    wanted: &[(u64, bool)],
) -> Result<(), Fail> {
    let cache = pages(rt, alloc, 100)?;
    let mut reader = cache.handle();
    for number in 0..101u64 {
        puts(rt, alloc, &mut reader, number, number.wrapping_mul(apart))?;
    }
    has(rt, &mut reader, wanted)
}

#[test]
fn a_full_cache_drops_old_pages(rt: HostRuntime) -> Result<(), Fail> {
    // a page is old after 600 seconds: those below 71
    makes_room(
        &rt,
        rt.alloc(),
        20,
        &[(0, false), (70, false), (71, true), (99, true), (100, true)],
    )
}

#[test]
fn a_full_cache_of_new_pages_drops_all(rt: HostRuntime) -> Result<(), Fail> {
    makes_room(&rt, rt.alloc(), 1, &[(0, false), (99, false), (100, true)])
}
