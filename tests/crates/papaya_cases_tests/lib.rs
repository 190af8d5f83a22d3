//! Tests that port those of 0.2.5, for both maps and both sets.
//! It uses `papaya_seq`, `papaya_map` and `papaya_set`.
//! They are compiled and run, and not proved. No crate builds on it.
#![tactic(auto)]

#[cfg(test)]
mod alone;
#[cfg(test)]
mod alone_sets;
#[cfg(test)]
mod answers;
#[cfg(test)]
mod dropped;
#[cfg(test)]
mod expect;
#[cfg(test)]
mod guarded_sets;
#[cfg(test)]
mod kept_keys;
#[cfg(test)]
mod kept_set_keys;
#[cfg(test)]
mod key_steps;
#[cfg(test)]
mod maps;
#[cfg(test)]
mod refused;
#[cfg(test)]
mod set_threads;
#[cfg(test)]
mod sets;
#[cfg(test)]
mod shared;
#[cfg(test)]
mod shared_sets;
#[cfg(test)]
mod steps;
#[cfg(test)]
mod threads;
#[cfg(test)]
mod together;
