//! Tests of calls that take or return collections, and of JSON.
//! It uses `papaya_json`, both maps and both sets.
//! They are compiled and run, and not proved. No crate builds on it.
#![tactic(auto)]

#[cfg(test)]
mod calls;
#[cfg(test)]
mod collection;
#[cfg(test)]
mod crowded;
#[cfg(test)]
mod crowds;
#[cfg(test)]
mod expect;
#[cfg(test)]
mod json;
#[cfg(test)]
mod keys;
#[cfg(test)]
mod maps;
#[cfg(test)]
mod rows;
#[cfg(test)]
mod sets;
#[cfg(test)]
mod shared_maps;
#[cfg(test)]
mod shared_sets;
