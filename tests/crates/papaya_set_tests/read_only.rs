// A set that nobody changes any more: its lookups, its iterations, and the set once it is opened again.
use crate::expect::is;
use crate::labels::{MODES, any, key, made};
use papaya_set::set::read_only::ReadOnlySet;
use papaya_testing::labels::Labelled;
use papaya_words::refused::Refused;
use std::process::Abort;
use std::sync::Wait;
use std::test::Fail;

/// Returns the sum of the numbers of the keys that an iteration returns, and how many it returns.
fn sum<R: Wait>(rt: &R, fixed: &ReadOnlySet<Labelled>) -> Result<(u64, u64), Refused> {
    let mut sum = (0u64, 0u64);
    for stored in fixed.iter(rt)? {
        sum = (sum.0 + stored.number, sum.1 + 1);
    }
    Ok(sum)
}

/// Checks a set of the keys 1, with the label `a`, and 3.
fn reads<R: Wait + Abort>(rt: &R, fixed: &ReadOnlySet<Labelled>) {
    is(
        rt,
        (fixed.contains(&any(1)), fixed.contains(&any(2))),
        (true, false),
    );
    is(rt, fixed.get(&any(1)).map(|stored| stored.label), Some('a'));
    is(rt, fixed.get(&any(2)).map(|stored| stored.label), None);
    is(rt, (fixed.len(), fixed.is_empty()), (2, false));
    is(rt, sum(rt, fixed), Ok((4, 2)));
}

#[test]
fn a_closed_set_is_read_and_opened_again(rt: HostRuntime) -> Result<(), Fail> {
    for mode in MODES {
        let set = made(&rt, rt.alloc(), mode)?;
        set.pin().insert(&rt, key(1, 'a'))?;
        set.pin().insert(&rt, key(1, 'b'))?;
        set.pin().insert(&rt, any(2))?;
        set.pin().insert(&rt, any(3))?;
        set.pin().remove(&rt, &any(2))?;
        let fixed = set.into_read_only();
        reads(&rt, &fixed);
        let set = fixed.into_set();
        is(&rt, set.pin().insert(&rt, any(2)), Ok(true));
        let fixed = set.into_read_only();
        is(&rt, sum(&rt, &fixed), Ok((6, 3)));
    }
    Ok(())
}
