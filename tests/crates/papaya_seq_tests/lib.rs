//! Tests of the map for one caller.
//! It uses `papaya_seq` and the helpers of `papaya_testing`.
//! They are compiled and run, and not proved. No crate builds on it.
#![tactic(auto)]

#[cfg(test)]
mod calls;
#[cfg(test)]
mod clones;
#[cfg(test)]
mod computes;
#[cfg(test)]
mod expect;
#[cfg(test)]
mod growth;
#[cfg(test)]
mod limits;
#[cfg(test)]
mod new;
#[cfg(test)]
mod numbers;
#[cfg(test)]
mod refused;
#[cfg(test)]
mod removals;
#[cfg(test)]
mod resizing;
#[cfg(test)]
mod sizes;
#[cfg(test)]
mod stored_keys;
#[cfg(test)]
mod texts;
#[cfg(test)]
mod walks;
