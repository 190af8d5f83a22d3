//! Maps that four threads keep at work, and what memory the process holds meanwhile.
use crate::maps::{Map, Mode};
use crate::plan::{Part, Soak, THREADS};
use crate::work::{fill, in_threads, step};
use crate::{print_line, Printed};
use std::time::Instant;
use std::{fs, io};

/// How many calls a thread makes between two looks at the clock. A guard is held for so many.
const BLOCK: u32 = 64;

/// How many calls all threads make between two looks at what the process holds.
const SLICE: u32 = 1_000_000;

const SHARE_OF_SLICE: u32 = SLICE / THREADS as u32;

/// Returns the bytes of the process that are in memory, as Linux counts them: whole pages of 4 KiB.
fn resident() -> io::Result<u64> {
    let text = fs::read_to_string("/proc/self/statm")?;
    let pages = text
        .split(' ')
        .nth(1)
        .and_then(|word| word.parse::<u64>().ok());
    pages
        .map(|pages| pages * 4096)
        .ok_or_else(|| io::Error::from(io::ErrorKind::InvalidData))
}

/// Makes one thread's calls of a slice. Returns their sum and the longest block's nanoseconds.
fn serve<M: Map>(map: &M, soak: Soak, part: Part) -> (u64, u128) {
    let (mut sum, mut longest) = (0u64, 0);
    for number in 0..part.blocks(BLOCK) {
        let block = part.block(BLOCK, number);
        let start = Instant::now();
        let pinned = map.pin();
        for turn in block.start..block.end {
            sum = sum.wrapping_add(step::<M>(&pinned, soak.action_at(turn)));
        }
        drop(pinned);
        longest = start.elapsed().as_nanos().max(longest);
    }
    (sum, longest)
}

/// Prints the line of a soak: calls, their nanoseconds, bytes more than before at most and at the
/// end, and the nanoseconds of the longest block. Two columns of `papaya-bench` are of a reclaim
/// that a caller asks for, and are 0 here.
pub fn soak<M: Map>(soak: Soak) -> Printed {
    let before = resident()?;
    let map = M::new(soak.keys as usize, Mode::Default);
    fill(&map, soak.keys);
    let mut most = resident()?;
    let mut longest = 0;
    let start = Instant::now();
    for slice in 0..Part::whole(soak.operations).blocks(SLICE) {
        let told = in_threads(&|thread| {
            let part = Part::of_thread(soak.operations, thread);
            serve(&map, soak, part.block(SHARE_OF_SLICE, slice))
        });
        longest = told.iter().map(|it| it.1).max().unwrap_or(0).max(longest);
        std::hint::black_box(told);
        most = most.max(resident()?);
    }
    let nanoseconds = start.elapsed().as_nanos();
    let end = resident()?;
    let most = most.max(end).saturating_sub(before);
    let end = end.saturating_sub(before);
    let numbers = [
        u128::from(soak.operations),
        nanoseconds,
        u128::from(most),
        u128::from(end),
        0,
        longest,
        0,
    ];
    print_line(soak.name(), M::NAME, soak.keys, &numbers)
}
