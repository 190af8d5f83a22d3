// A session's calls on the whole map: the map itself, its count, its keys and its values. And a
// removed entry.
use papaya_map::map::HashMap;
use papaya_map::session::Session;
use papaya_words::refused::Refused;
use std::process::Abort;
use std::sync::Wait;
use std::test::Fail;

type NumbersSession<'a> = Session<'a, u64, u64>;

/// Returns the sum of the keys, and that of the values.
fn sums<R: Wait>(rt: &R, session: &mut NumbersSession<'_>) -> Result<(u64, u64), Refused> {
    let mut sums = (0u64, 0u64);
    for key in session.keys(rt)? {
        sums.0 = sums.0.wrapping_add(*key);
    }
    for value in session.values(rt)? {
        sums.1 = sums.1.wrapping_add(*value);
    }
    Ok(sums)
}

/// Stores two entries, and removes one.
fn comes_and_goes<R: Wait + Abort>(rt: &R, session: &mut NumbersSession<'_>) {
    assert!(rt; session.is_empty());
    assert_eq!(rt; session.insert(rt, 1, 10), Ok(None));
    assert_eq!(rt; session.insert(rt, 2, 20), Ok(None));
    assert_eq!(rt; sums(rt, session), Ok((3, 30)));
    assert_eq!(rt; session.remove_entry(rt, &1), Ok(Some((&1, &10))));
    assert_eq!(rt; session.remove_entry(rt, &1), Ok(None));
    assert_eq!(rt; sums(rt, session), Ok((2, 20)));
    assert_eq!(rt; session.len(), 1);
}

#[test]
fn a_session_shows_its_whole_map(rt: HostRuntime) -> Result<(), Fail> {
    let map: HashMap<u64, u64> = HashMap::new(&rt, rt.alloc())?;
    comes_and_goes(&rt, &mut Session::new(&map));
    assert_eq!(rt; Session::new(&map).map().len(), 1);
    Ok(())
}
