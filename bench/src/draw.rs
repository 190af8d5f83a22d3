//! Draws of keys, of which few come often: by Zipf's law, of exponent 0.99. They are those of
//! `papaya-bench`, worked out by the same whole numbers.
use crate::plan::{Action, Plan, Workload};

/// The weight of the number that comes most often.
const GREATEST: u64 = 0x0100_0000_0000_0000;

/// The share of draws that write: one in twenty.
const WRITES: u64 = 20;

/// A step that was drawn.
#[derive(Clone, Copy)]
pub struct Draw {
    /// The number of its key.
    number: u32,
    /// Whether it inserts the key. Otherwise it looks it up.
    writes: bool,
}

impl Draw {
    /// Returns the action of the step. Each insertion of a key has the same value, so that results
    /// do not depend on which thread is first.
    #[inline(always)]
    pub fn action(self) -> Action {
        let number = u64::from(self.number);
        if self.writes {
            Action::Insert(number, number)
        } else {
            Action::Get(number)
        }
    }
}

/// Returns a number for each turn, which looks as if it were drawn at random: SplitMix64.
fn random_at(turn: u64) -> u64 {
    let mixed = turn.wrapping_add(1).wrapping_mul(0x9e37_79b9_7f4a_7c15);
    let mixed = (mixed ^ (mixed >> 30)).wrapping_mul(0xbf58_476d_1ce4_e5b9);
    let mixed = (mixed ^ (mixed >> 27)).wrapping_mul(0x94d0_49bb_1331_11eb);
    mixed ^ (mixed >> 31)
}

/// Returns the weight of a rank from that of the rank before: `(1 - 1 / rank)^0.99` of it. That is
/// about `1 - 0.99 / rank - 1 / (202 * rank^2) - 1 / (600 * rank^3)`.
fn weight_after(weight: u64, rank: u64) -> u64 {
    let first = weight / rank;
    let second = first / rank;
    let third = second / rank;
    weight - (first - first / 100) - second / 202 - third / 600
}

/// Returns for each number below `keys` the sum of the weights of all numbers up to it.
fn weights(keys: u32) -> Vec<u64> {
    let (mut sum, mut weight) = (0, GREATEST);
    (0..u64::from(keys))
        .map(|number| {
            sum += weight;
            weight = weight_after(weight, number + 2);
            sum
        })
        .collect()
}

/// Returns the draw of a turn: each number is drawn as often as its weight says.
fn draw_at(sums: &[u64], turn: u64) -> Draw {
    let random = random_at(turn);
    let all = sums.last().copied().unwrap_or(0);
    let place = (u128::from(random) * u128::from(all)) >> 64;
    let number = sums.partition_point(|sum| u128::from(*sum) <= place);
    Draw {
        number: number as u32,
        writes: random % WRITES == 0,
    }
}

impl Plan {
    /// Returns a draw for each step, if the workload makes draws.
    pub fn draws(self) -> Vec<Draw> {
        if self.workload != Workload::Zipf {
            return Vec::new();
        }
        let sums = weights(self.keys);
        (0..self.steps()).map(|turn| draw_at(&sums, turn)).collect()
    }

    /// Returns the action of the step at this turn of a round, as it was drawn.
    #[inline(always)]
    pub fn drawn_at(self, draws: &[Draw], turn: u64, round: u32) -> Action {
        let before = u64::from(round) * u64::from(self.keys);
        draws[(before + turn) as usize].action()
    }
}
