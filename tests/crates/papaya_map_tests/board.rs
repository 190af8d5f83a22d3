// The state that the threads of a test share beside the map.
use crate::crowd::{Crowd, Job};
use crate::threads::{EACH, KEYS};
use papaya_testing::crossing::Crossing;
use papaya_testing::heap::let_go;
use std::alloc::Global;
use std::sync::atomic::{AtomicBool, AtomicU64, Ordering};

/// The state that the threads of a test share beside the map.
#[derive(Drop)]
pub struct Board {
    /// Whether a thread is through.
    pub is_done: AtomicBool,
    /// The point where threads meet, and where the closure of a call waits.
    pub crossing: Crossing,
    /// How often each value was taken out.
    pub taken: Vec<AtomicU64>,
    /// The next value of each key.
    pub drawn: Vec<AtomicU64>,
    /// A thread was held up in a request for memory until the others had ended.
    pub was_held: AtomicBool,
    pub alloc: Global,
}

/// Returns this many counts of 0, if there is memory for them.
fn zeros(alloc: Global, many: u64) -> Option<Vec<AtomicU64>> {
    let mut counts = Vec::new(alloc);
    for _ in 0..many {
        counts.push(AtomicU64::new(0)).ok()?;
    }
    Some(counts)
}

impl Board {
    /// Returns a board for this many threads, of which a closure waits for `others`.
    pub fn new(alloc: Global, threads: u64, others: u64) -> Board {
        Board {
            is_done: AtomicBool::new(false),
            crossing: Crossing::new(threads, others),
            taken: Vec::new(alloc),
            drawn: Vec::new(alloc),
            was_held: AtomicBool::new(false),
            alloc,
        }
    }

    /// Returns a board for a crowd, if there is memory for it.
    pub fn of(alloc: Global, crowd: Crowd) -> Option<Board> {
        let (threads, others) = crowd.size();
        let mut board = Board::new(alloc, threads, others);
        if crowd.counts() {
            board.taken = zeros(alloc, KEYS.wrapping_mul(EACH))?;
            board.drawn = zeros(alloc, KEYS)?;
        }
        Some(board)
    }

    /// Records that a thread begins.
    pub fn begins(&self, job: Job) -> bool {
        self.crossing.begins(!matches!(job, Job::Stuck(_, _)))
    }

    /// Records that a thread has ended. After the last one that others wait for, a thread that is
    /// held up goes on.
    pub fn ends(&self) {
        self.is_done.store(true, Ordering::SeqCst);
        self.crossing.ends();
        if self.crossing.gate.open.load(Ordering::SeqCst) && let_go(self.alloc) {
            self.was_held.store(true, Ordering::SeqCst);
        }
    }
}
