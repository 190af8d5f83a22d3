// Each call of the set that threads share, once and with ample memory: its result for one caller.
use crate::expect::is;
use crate::labels::{Keys, Pinned, any, key};
use papaya_set::set::HashSet;
use papaya_testing::labels::Labelled;
use papaya_words::refused::Refused;
use papaya_words::resize_mode::ResizeMode;
use papaya_words_keys::guard::Collector;
use std::alloc::Global;
use std::hash::BuildHasherDefault;
use std::process::Abort;
use std::sync::Wait;
use std::test::Fail;

/// Returns which key is stored, by its label.
fn label_of(key: Option<&Labelled>) -> Option<char> {
    match key {
        Some(key) => Some(key.label),
        None => None,
    }
}

/// Checks that the stored key stays if an equal one is inserted.
fn stores<R: Wait + Abort>(rt: &R, set: &Pinned<'_>) {
    is(rt, set.insert(rt, key(7, 'x')), Ok(true));
    is(rt, set.insert(rt, key(7, 'y')), Ok(false));
    is(rt, label_of(set.get(&any(7))), Some('x'));
    is(
        rt,
        (set.contains(&any(7)), set.contains(&any(8))),
        (true, false),
    );
    is(rt, (set.len(), set.is_empty()), (1, false));
}

/// Checks that a key is removed once.
fn removes<R: Wait + Abort>(rt: &R, set: &Pinned<'_>) {
    is(rt, set.remove(rt, &any(7)), Ok(true));
    is(rt, set.remove(rt, &any(7)), Ok(false));
    is(rt, label_of(set.get(&any(7))), None);
    is(rt, set.set().is_empty(), true);
}

/// Returns the sum of an iterator's numbers.
fn sum<R: Wait>(rt: &R, set: &Keys) -> Result<u64, Refused> {
    let mut sum = 0u64;
    for key in set.pin().iter(rt)? {
        sum = sum.wrapping_add(key.number);
    }
    Ok(sum)
}

/// Inserts many keys, removes some, and then all.
fn scans<R: Wait + Abort>(rt: &R, set: &Keys) {
    let pinned = set.pin_owned();
    is(rt, pinned.reserve(rt, 5), Ok(()));
    is(rt, set.extend_ref(rt, &[any(1), any(2), any(4)]), Ok(()));
    is(rt, set.extend(rt, [any(4), any(8)]), Ok(()));
    is(rt, sum(rt, set), Ok(15));
    is(rt, pinned.retain(rt, |key| key.number < 3), Ok(()));
    is(rt, sum(rt, set), Ok(3));
    is(rt, pinned.clear(rt), Ok(()));
    is(rt, sum(rt, set), Ok(0));
}

#[test]
fn a_pinned_set_answers(rt: HostRuntime) -> Result<(), Fail> {
    let set: Keys = HashSet::new(&rt, rt.alloc())?;
    stores(&rt, &set.pin());
    removes(&rt, &set.pin());
    scans(&rt, &set);
    Ok(())
}

/// Returns how many keys a new set has, or why none was made.
fn len(made: Result<Keys, Refused>) -> Result<usize, Refused> {
    match made {
        Ok(set) => Ok(set.len()),
        Err(refused) => Err(refused),
    }
}

/// Returns the label of key 7 in a new set.
fn label_in(made: Result<Keys, Refused>) -> Option<char> {
    match made {
        Ok(set) => label_of(set.pin().get(&any(7))),
        Err(_) => None,
    }
}

/// Returns an empty set, made by the constructor of this number.
fn made<R: Wait>(rt: &R, alloc: Global, by: u64) -> Result<Keys, Refused> {
    let mode = ResizeMode::Blocking;
    match by {
        0 => HashSet::default(rt, alloc),
        1 => HashSet::with_capacity(rt, alloc, 3),
        2 => HashSet::with_hasher(rt, alloc, BuildHasherDefault::new()),
        3 => HashSet::with_capacity_and_hasher(rt, alloc, 3, BuildHasherDefault::new()),
        4 => HashSet::with_parts(rt, alloc, mode, 3, 2, BuildHasherDefault::new(), None),
        _ => HashSet::builder()
            .capacity(3)
            .resize_mode(mode)
            .build(rt, alloc),
    }
}

#[test]
fn sets_are_made(rt: HostRuntime) {
    let alloc = rt.alloc();
    for by in 0..6u64 {
        is(&rt, len(made(&rt, alloc, by)), Ok(0));
    }
    let none: [Labelled; 0] = [];
    is(&rt, len(HashSet::from_iter(&rt, alloc, none)), Ok(0));
    let keys = [any(1), any(2), any(1)];
    is(&rt, len(HashSet::from_iter(&rt, alloc, keys)), Ok(2));
    is(&rt, len(HashSet::from_array(&rt, alloc, keys)), Ok(2));
}

/// Checks that the earlier of equal keys stays.
#[test]
fn a_set_is_made_of_the_first_of_equal_keys(rt: HostRuntime) {
    let alloc = rt.alloc();
    let keys = [key(7, 'x'), key(7, 'y')];
    is(
        &rt,
        label_in(HashSet::from_iter(&rt, alloc, keys)),
        Some('x'),
    );
    is(
        &rt,
        label_in(HashSet::from_array(&rt, alloc, keys)),
        Some('x'),
    );
}

/// Uses up a set that stores two keys at most, one of which was inserted twice.
fn spends<R: Wait + Abort>(rt: &R, set: &Pinned<'_>) {
    is(rt, set.insert(rt, any(1)), Ok(true));
    is(rt, set.insert(rt, any(1)), Ok(false));
    is(rt, set.insert(rt, any(2)), Err(Refused::Limit));
    is(rt, set.insert(rt, any(1)), Err(Refused::Limit));
    is(rt, set.remove(rt, &any(1)), Ok(true));
    is(rt, set.insert(rt, any(1)), Err(Refused::Limit));
}

#[test]
fn a_set_meets_its_limit(rt: HostRuntime) -> Result<(), Fail> {
    let alloc = rt.alloc();
    let mut set: Keys = HashSet::builder().pair_limit(2).build(&rt, alloc)?;
    spends(&rt, &set.pin());
    is(&rt, set.reclaim(&rt), Ok(()));
    is(&rt, set.pin().insert(&rt, any(2)), Ok(true));
    is(&rt, set.len(), 1);
    Ok(())
}

/// Checks that a builder shows its capacity, its collector's number and its mode.
#[test]
fn a_builder_of_sets_prints(rt: HostRuntime) -> Result<(), Fail> {
    let builder = Keys::builder().capacity(6).collector(Collector::new(2));
    let text = format!(in rt.alloc(); "{builder:?}")?;
    let wanted = "HashSetBuilder { capacity: 6, collector: 2, resize_mode: Incremental(64) }";
    is(&rt, text.as_str(), wanted);
    Ok(())
}
