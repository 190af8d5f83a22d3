// How maps and sets are made of items, extended, copied and compared, once each, and what
// builders take.
use crate::expect::is;
use papaya::{Collector, HashMap, HashSet, Reclaiming, Refused, ResizeMode, seq};
use std::alloc::Global;
use std::hash::{BuildHasherDefault, DefaultHasher, FoldHasher};
use std::process::Abort;
use std::sync::{Arc, Wait};
use std::test::Fail;

type Numbers = HashMap<u64, u64>;

type Keys = HashSet<u64>;

/// Extends a map by two entries.
fn extends<R: Wait>(rt: &R, map: &Numbers) -> Result<usize, Refused> {
    map.extend(rt, [(3, 30)])?;
    map.extend_ref(rt, [(&4, &40)])?;
    Ok(map.len())
}

/// Makes a map of entries.
fn of_entries<R: Wait>(rt: &R, alloc: Global) -> Result<Numbers, Refused> {
    HashMap::from_iter(rt, alloc, [(1, 10), (2, 20)])
}

/// Makes the same map of an array.
fn of_array<R: Wait>(rt: &R, alloc: Global) -> Result<Numbers, Refused> {
    HashMap::from_array(rt, alloc, [(1, 10), (2, 20)])
}

/// Returns whether a copy of a map is equal to it.
fn is_copied<R: Wait>(rt: &R, alloc: Global, map: &Numbers) -> Result<bool, Refused> {
    let copy = map.try_clone(rt, alloc)?;
    map.eq(rt, &copy)
}

/// Extends a set by two keys.
fn extends_set<R: Wait>(rt: &R, set: &Keys) -> Result<usize, Refused> {
    set.extend(rt, [3])?;
    set.extend_ref(rt, [&4])?;
    Ok(set.len())
}

/// Makes a set of keys.
fn of_keys<R: Wait>(rt: &R, alloc: Global) -> Result<Keys, Refused> {
    HashSet::from_iter(rt, alloc, [1, 2])
}

/// Makes the same set of an array.
fn of_key_array<R: Wait>(rt: &R, alloc: Global) -> Result<Keys, Refused> {
    HashSet::from_array(rt, alloc, [1, 2])
}

/// Returns whether a copy of a set is equal to it.
fn is_set_copied<R: Wait>(rt: &R, alloc: Global, set: &Keys) -> Result<bool, Refused> {
    let copy = set.try_clone(rt, alloc)?;
    set.eq(rt, &copy)
}

/// Checks the calls of a set that no caller makes.
fn calls_set<R: Wait + Abort>(rt: &R, set: &Keys) {
    let guard = set.guard();
    is(rt, set.verify(&guard), Ok(()));
    is(rt, set.reserve(rt, 8, &guard), Ok(()));
    is(rt, set.contains(&1, &set.owned_guard()), Ok(true));
    is(rt, set.pin_owned().reserve(rt, 8), Ok(()));
    is(rt, set.pin().set().len(), 2);
    is(rt, (set.resizing(), set.pin().resizing()), (false, false));
}

/// Makes a map by all settings of a builder.
fn built<R: Wait>(rt: &R, alloc: Global) -> Result<Numbers, Refused> {
    HashMap::builder()
        .hasher(BuildHasherDefault::<FoldHasher>::new())
        .collector(Collector::new(3))
        .resize_mode(ResizeMode::Blocking)
        .shards(4)
        .build(rt, alloc)
}

/// Makes a set by all settings of a builder.
fn built_set<R: Wait>(rt: &R, alloc: Global, shared: Arc<Collector>) -> Result<Keys, Refused> {
    HashSet::builder()
        .hasher(BuildHasherDefault::<FoldHasher>::new())
        .shared_collector(shared)
        .resize_mode(ResizeMode::Blocking)
        .shards(4)
        .build(rt, alloc)
}

#[test]
fn maps_of_entries(rt: HostRuntime) -> Result<(), Fail> {
    let map = of_entries(&rt, rt.alloc())?;
    is(&rt, map.eq(&rt, &of_array(&rt, rt.alloc())?), Ok(true));
    is(&rt, extends(&rt, &map), Ok(4));
    is(&rt, is_copied(&rt, rt.alloc(), &map), Ok(true));
    is(&rt, built(&rt, rt.alloc())?.len(), 0);
    Ok(())
}

#[test]
fn sets_of_keys(rt: HostRuntime) -> Result<(), Fail> {
    let set = of_keys(&rt, rt.alloc())?;
    is(&rt, set.eq(&rt, &of_key_array(&rt, rt.alloc())?), Ok(true));
    calls_set(&rt, &set);
    is(&rt, extends_set(&rt, &set), Ok(4));
    is(&rt, is_set_copied(&rt, rt.alloc(), &set), Ok(true));
    let shared = Arc::new(rt.alloc(), Collector::new(3))?;
    is(&rt, built_set(&rt, rt.alloc(), shared)?.len(), 0);
    Ok(())
}

/// Makes a map for one caller of entries, extends it, and compares it with one of an array.
fn lone_entries(alloc: Global) -> Result<bool, Refused> {
    let mut map: seq::HashMap<u64, u64> = seq::HashMap::from_iter(alloc, [(1, 10)])?;
    map.extend([(2, 20)])?;
    map.extend_ref([(&3, &30)])?;
    Ok(map.eq(&seq::HashMap::from_array(alloc, [(1, 10), (2, 20), (3, 30)])?))
}

/// Makes a set for one caller of keys, extends it, and compares a copy with one of an array.
fn lone_keys(alloc: Global) -> Result<bool, Refused> {
    let mut set: seq::HashSet<u64> = seq::HashSet::from_iter(alloc, [1])?;
    set.reserve(8)?;
    set.extend([2])?;
    set.extend_ref([&3])?;
    Ok(
        set.try_clone(alloc)?
            .eq(&seq::HashSet::from_array(alloc, [1, 2, 3])?),
    )
}

/// A hasher that is not the maps' own.
type Sip = BuildHasherDefault<DefaultHasher>;

/// Makes a map and a set with the default of another hasher, and returns how many slots they have.
fn with_defaults<R: Wait>(rt: &R, alloc: Global) -> Result<(usize, usize), Refused> {
    let map: HashMap<u64, u64, Sip> = HashMap::default(rt, alloc)?;
    let set: HashSet<u64, Sip> = HashSet::default(rt, alloc)?;
    Ok((map.slots(), set.slots()))
}

/// Makes the same for one caller.
fn lone_defaults(alloc: Global) -> Result<(usize, usize), Refused> {
    let map: seq::HashMap<u64, u64, Sip> = seq::HashMap::default(alloc)?;
    let set: seq::HashSet<u64, Sip> = seq::HashSet::default(alloc)?;
    Ok((map.slots(), set.map().slots()))
}

#[test]
fn defaults_of_another_hasher(rt: HostRuntime) -> Result<(), Fail> {
    is(&rt, with_defaults(&rt, rt.alloc()), Ok((0, 0)));
    is(&rt, lone_defaults(rt.alloc()), Ok((0, 0)));
    Ok(())
}

/// Makes a map and a set for one caller by builders.
fn lone_built(alloc: Global) -> Result<(usize, usize), Refused> {
    let map: seq::HashMap<u64, u64> = HashMap::builder().build_seq(alloc)?;
    let set: seq::HashSet<u64> = HashSet::builder().build_seq(alloc)?;
    Ok((map.len(), set.len()))
}

#[test]
fn maps_and_sets_of_one_caller(rt: HostRuntime) -> Result<(), Fail> {
    is(&rt, lone_entries(rt.alloc()), Ok(true));
    is(&rt, lone_keys(rt.alloc()), Ok(true));
    is(&rt, lone_built(rt.alloc()), Ok((0, 0)));
    Ok(())
}

#[test]
fn a_map_is_reclaimed_and_comes_out_again(rt: HostRuntime) -> Result<(), Fail> {
    let shared = Reclaiming::new(rt.alloc(), of_entries(&rt, rt.alloc())?)?;
    is(&rt, shared.handle().try_reclaim(&rt), Ok(true));
    is(&rt, shared.into_inner().map(|map| map.len()), Some(2));
    Ok(())
}
