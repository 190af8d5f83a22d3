//! The plans of `papaya-bench`: workloads, the order of the keys, and what each step does.

/// How many threads work at once, where there are several.
pub const THREADS: u64 = 4;

/// In a mixed round, one number in ten is inserted.
const MIXED: u64 = 10;

/// What the steps of a round do to a map.
#[derive(Clone, Copy, PartialEq)]
pub enum Workload {
    /// Looks up a key that the map has.
    GetHit,
    /// Looks up a key that it does not have.
    GetMiss,
    /// Inserts a key that it does not have.
    InsertFresh,
    /// Inserts a key that it has.
    InsertReplace,
    /// Removes a key that it has, and inserts it again.
    RemoveInsert,
    /// Inserts one in ten of the keys that it has, and looks the others up.
    Mixed,
    /// Adds one to the value of a key that it has, by `update_or_insert`.
    UpdateOrInsert,
    /// Does the same by `compute`.
    Compute,
    /// Iterates over all entries, once in each round.
    Iterate,
    /// Takes a guard and drops it, and makes no call.
    Enter,
    /// Looks up a key that the map has, in which each key was replaced once.
    WornHit,
    /// Looks up a key that such a map does not have.
    WornMiss,
    /// Looks up by `&str` a text that a map from texts to counters has.
    TextHit,
    /// Looks up a text that it does not have.
    TextMiss,
    /// Looks up a text that it has, and adds 1 to its counter.
    Registry,
    /// Looks up keys that the map has, or inserts them again, as they were drawn.
    Zipf,
}

impl Workload {
    /// All workloads, in the order in which they run.
    pub const ALL: [Workload; 16] = [
        Workload::GetHit,
        Workload::GetMiss,
        Workload::InsertFresh,
        Workload::InsertReplace,
        Workload::RemoveInsert,
        Workload::Mixed,
        Workload::UpdateOrInsert,
        Workload::Compute,
        Workload::Iterate,
        Workload::Enter,
        Workload::WornHit,
        Workload::WornMiss,
        Workload::TextHit,
        Workload::TextMiss,
        Workload::Registry,
        Workload::Zipf,
    ];

    /// Returns the name in the printed lines.
    pub fn name(self) -> &'static str {
        match self {
            Workload::GetHit => "get-hit",
            Workload::GetMiss => "get-miss",
            Workload::InsertFresh => "insert-fresh",
            Workload::InsertReplace => "insert-replace",
            Workload::RemoveInsert => "remove-insert",
            Workload::Mixed => "mixed",
            Workload::UpdateOrInsert => "update-or-insert",
            Workload::Compute => "compute",
            Workload::Iterate => "iterate",
            Workload::Enter => "enter",
            Workload::WornHit => "worn-hit",
            Workload::WornMiss => "worn-miss",
            Workload::TextHit => "text-hit",
            Workload::TextMiss => "text-miss",
            Workload::Registry => "registry",
            Workload::Zipf => "zipf",
        }
    }

    /// Returns whether its map has texts for keys, and counters for values.
    pub fn has_texts(self) -> bool {
        matches!(
            self,
            Workload::TextHit | Workload::TextMiss | Workload::Registry
        )
    }

    /// Returns whether four threads do it too.
    pub fn has_threads(self) -> bool {
        !matches!(
            self,
            Workload::Iterate
                | Workload::WornHit
                | Workload::WornMiss
                | Workload::TextHit
                | Workload::TextMiss
        )
    }
}

/// What one step does, at the key of a number.
#[derive(Clone, Copy)]
pub enum Action {
    /// Looks the key up.
    Get(u64),
    /// Inserts the key with this value.
    Insert(u64, u64),
    /// Removes the key, and inserts it again with its number.
    Renew(u64),
}

/// A workload, how many keys it has, and how many rounds. A round is one step at each key.
#[derive(Clone, Copy)]
pub struct Plan {
    pub workload: Workload,
    /// A power of two, so that `number_at` reaches each number once in a round.
    pub keys: u32,
    pub rounds: u32,
}

impl Plan {
    /// Returns how many maps are made, and how many rounds each of them has. If a round takes away
    /// what the next one needs, each round has a map of its own.
    pub fn maps(self) -> (u32, u32) {
        match self.workload {
            Workload::InsertFresh | Workload::RemoveInsert => (self.rounds, 1),
            _ => (1, self.rounds),
        }
    }

    /// Returns how many times all keys are inserted before the first round.
    pub fn fills(self) -> u32 {
        match self.workload {
            Workload::InsertFresh => 0,
            Workload::WornHit | Workload::WornMiss => 2,
            _ => 1,
        }
    }

    /// Returns the capacity that a map is made with, so that no table grows in a round.
    pub fn capacity(self) -> usize {
        match self.workload {
            Workload::RemoveInsert => self.keys as usize * 2,
            _ => self.keys as usize,
        }
    }

    /// Returns the number of steps of all rounds.
    pub fn steps(self) -> u64 {
        u64::from(self.keys) * u64::from(self.rounds)
    }

    /// Returns the number of the key at this turn of a round. Neighbouring turns have numbers that
    /// are far apart.
    #[inline(always)]
    pub fn number_at(self, turn: u64) -> u64 {
        turn.wrapping_mul(2_654_435_761) & u64::from(self.keys).wrapping_sub(1)
    }

    /// Returns what the step at this number does in this round.
    #[inline(always)]
    pub fn action_at(self, number: u64, round: u32) -> Action {
        match self.workload {
            Workload::GetHit
            | Workload::Iterate
            | Workload::Enter
            | Workload::WornHit
            | Workload::TextHit
            | Workload::Zipf => Action::Get(number),
            Workload::GetMiss | Workload::WornMiss | Workload::TextMiss => {
                Action::Get(number.wrapping_add(u64::from(self.keys)))
            }
            Workload::InsertFresh => Action::Insert(number, number),
            Workload::InsertReplace
            | Workload::UpdateOrInsert
            | Workload::Compute
            | Workload::Registry => Action::Insert(number, value_after(number, round)),
            Workload::RemoveInsert => Action::Renew(number),
            Workload::Mixed => {
                if number % MIXED == 0 {
                    Action::Insert(number, value_after(number, round))
                } else {
                    Action::Get(number)
                }
            }
        }
    }
}

/// Returns the value that this round gives to the key of a number.
#[inline(always)]
fn value_after(number: u64, round: u32) -> u64 {
    number.wrapping_add(u64::from(round) + 1)
}

/// Returns the key of a number. Different numbers have different keys.
#[inline(always)]
pub fn key_of(number: u64) -> u64 {
    number.wrapping_mul(3_787_392_781)
}

/// The turns of one thread, from `start` to below `end`.
#[derive(Clone, Copy)]
pub struct Part {
    pub start: u64,
    pub end: u64,
}

impl Part {
    /// Returns all of `turns` turns.
    pub fn whole(turns: u32) -> Part {
        Part {
            start: 0,
            end: u64::from(turns),
        }
    }

    /// Returns the quarter of `turns` that this thread makes.
    pub fn of_thread(turns: u32, thread: u64) -> Part {
        let turns = u64::from(turns);
        Part {
            start: turns * thread / THREADS,
            end: turns * (thread + 1) / THREADS,
        }
    }

    /// Returns how many blocks of `turns` turns it has. The last block may be shorter.
    pub fn blocks(self, turns: u32) -> u64 {
        self.end
            .saturating_sub(self.start)
            .div_ceil(u64::from(turns))
    }

    /// Returns its block of this number, of `turns` turns.
    pub fn block(self, turns: u32, number: u64) -> Part {
        let turns = u64::from(turns);
        let start = self.start.saturating_add(number.saturating_mul(turns));
        Part {
            start: start.min(self.end),
            end: start.saturating_add(turns).min(self.end),
        }
    }
}

/// How many of the calls of a soak write.
#[derive(Clone, Copy, PartialEq)]
pub enum Writes {
    OneInTen,
    All,
}

/// A soak: `operations` calls of all threads together, at `keys` keys.
#[derive(Clone, Copy)]
pub struct Soak {
    pub writes: Writes,
    pub keys: u32,
    pub operations: u32,
}

impl Soak {
    /// Returns the name in the printed lines.
    pub fn name(self) -> &'static str {
        match self.writes {
            Writes::OneInTen => "soak-mixed",
            Writes::All => "soak-replace",
        }
    }

    /// Returns what this turn does.
    #[inline(always)]
    pub fn action_at(self, turn: u64) -> Action {
        let spread = turn.wrapping_mul(2_654_435_761) % 0x1_0000_0000;
        let number = spread * u64::from(self.keys) / 0x1_0000_0000;
        match self.writes {
            Writes::OneInTen if turn % MIXED != 0 => Action::Get(number),
            Writes::OneInTen | Writes::All => Action::Insert(number, turn),
        }
    }
}

/// Returns the index of the percentile of `thousandths` in a sorted list of `count` times.
pub fn place_of(count: u32, thousandths: u16) -> usize {
    let parts = u64::from(count) * u64::from(thousandths);
    (parts.div_ceil(1000) as usize).saturating_sub(1)
}
