// Threads that look up the keys of a set while room is reserved.
use crate::answers::Answer;
use crate::answers::Answer::{Done, Number};
use crate::expect::MODES;
use crate::key_steps::Step;
use crate::key_steps::Step::{GetBelow, InsertBelow, Reserve};
use crate::sets::{Case, goes};
use crate::shared_sets::Shared;
use papaya_set::set::HashSet;
use std::hash::BuildHasherDefault;
use std::process::Abort;
use std::sync::Wait;
use std::test::Fail;
use std::thread::{Threads, join};

/// Checks that the calls have these results.
fn make<R: Wait + Abort>(rt: &R, set: &HashSet<u64>, case: &[(Step, Answer)]) {
    goes(rt, 0, case, &mut Shared { rt, set });
}

/// Reserves room for more keys, each time in a longer table.
const ROOMS: Case = &[
    (Reserve(2048), Done),
    (Reserve(4096), Done),
    (Reserve(8192), Done),
    (Reserve(16_384), Done),
    (Reserve(32_768), Done),
];

/// Lookups of all keys.
const LOOKUPS: Case = &[(GetBelow(1024), Number(1024)); 32];

/// Checks that a thread finds all keys each time while another reserves room.
fn finds_beside<R: Threads + Wait + Sync + Abort>(rt: &R, set: &HashSet<u64>) {
    make(rt, set, &[(InsertBelow(1024), Number(1024))]);
    join(rt, || make(rt, set, ROOMS), || make(rt, set, LOOKUPS));
    make(rt, set, &[(GetBelow(1025), Number(1024))]);
}

#[test]
fn a_reader_finds_all_keys_of_a_set_while_room_is_made(rt: HostRuntime) -> Result<(), Fail> {
    for mode in MODES {
        let hasher = BuildHasherDefault::new();
        let set = HashSet::with_parts(&rt, rt.alloc(), mode, 0, 4, hasher, None)?;
        finds_beside(&rt, &set);
    }
    Ok(())
}
