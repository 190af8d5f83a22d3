//! Tests of sets, and of maps and sets that are reclaimed while threads go on.
//! It uses `papaya_set`, `papaya_reclaiming` and the helpers of `papaya_testing`.
//! They are compiled and run, and not proved. No crate builds on it.
#![tactic(auto)]

#[cfg(test)]
mod cloning;
#[cfg(test)]
mod expect;
#[cfg(test)]
mod labels;
#[cfg(test)]
mod overlaps;
#[cfg(test)]
mod read_only;
#[cfg(test)]
mod reclaiming;
#[cfg(test)]
mod refused;
#[cfg(test)]
mod shared;
#[cfg(test)]
mod sizes;
#[cfg(test)]
mod threads;
#[cfg(test)]
mod together;
