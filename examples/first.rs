#![tactic(auto)]

use papaya::{HashMap, Refused};
use std::alloc::Global;
use std::io;
use std::sync::Wait;
use std::thread::{Threads, join};

/// Counts a visit to page 7 by each of two threads, and returns the count.
fn visits(rt: &(impl Threads + Wait + Sync), alloc: Global) -> Result<u64, Refused> {
    let counts: HashMap<u64, u64> = HashMap::new(rt, alloc)?;
    let visit = || counts
        .pin()
        .update_or_insert(rt, 7, |n| n.saturating_add(1), 1)
        .copied();
    let (one, two) = join(rt, visit, visit);
    Ok(one?.max(two?))
}

fn main(rt: HostRuntime) -> io::Result<()> {
    println!(rt; "{:?}", visits(&rt, rt.alloc()))
}
