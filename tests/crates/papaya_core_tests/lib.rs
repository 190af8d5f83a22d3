//! Tests of words, of machines, and of `Core` under schedules.
//! It uses `papaya_core` and the helpers of `papaya_testing`.
//! They are compiled and run, and not proved. No crate builds on it.
#![tactic(auto)]

#[cfg(test)]
mod expect;
#[cfg(test)]
mod guards;
#[cfg(test)]
mod kept_keys;
#[cfg(test)]
mod limits;
#[cfg(test)]
mod machines;
#[cfg(test)]
mod plain;
#[cfg(test)]
mod plans;
#[cfg(test)]
mod refused;
#[cfg(test)]
mod resizing;
#[cfg(test)]
mod schedules;
#[cfg(test)]
mod stopped;
#[cfg(test)]
mod words;
