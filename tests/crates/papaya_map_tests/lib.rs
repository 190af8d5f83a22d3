//! Tests of the map that threads share, and of its arena.
//! It uses `papaya_map` and the helpers of `papaya_testing`.
//! They are compiled and run, and not proved. No crate builds on it.
#![tactic(auto)]

#[cfg(test)]
mod additions;
#[cfg(test)]
mod answers;
#[cfg(test)]
mod arena;
#[cfg(test)]
mod board;
#[cfg(test)]
mod builders;
#[cfg(test)]
mod chunks;
#[cfg(test)]
mod computes;
#[cfg(test)]
mod crowd;
#[cfg(test)]
mod expect;
#[cfg(test)]
mod gates;
#[cfg(test)]
mod growth;
#[cfg(test)]
mod guarded;
#[cfg(test)]
mod guards;
#[cfg(test)]
mod held;
#[cfg(test)]
mod limits;
#[cfg(test)]
mod numbers;
#[cfg(test)]
mod passes;
#[cfg(test)]
mod plain;
#[cfg(test)]
mod printing;
#[cfg(test)]
mod read_only;
#[cfg(test)]
mod refused;
#[cfg(test)]
mod scans;
#[cfg(test)]
mod scarce;
#[cfg(test)]
mod seen;
#[cfg(test)]
mod session_entries;
#[cfg(test)]
mod shared;
#[cfg(test)]
mod sizes;
#[cfg(test)]
mod steps;
#[cfg(test)]
mod stopped;
#[cfg(test)]
mod stored_keys;
#[cfg(test)]
mod stuck;
#[cfg(test)]
mod texts;
#[cfg(test)]
mod threads;
