//! Tests of the callers in `papaya_uses`, of the names that `papaya` exports, of the examples in
//! the documentation, and of public calls at numbers.
//! It uses `papaya`, `papaya_uses` and `serde_json`.
//! They are compiled and run, and not proved. No crate builds on it.
#![tactic(auto)]

#[cfg(test)]
mod caches;
#[cfg(test)]
mod calls;
#[cfg(test)]
mod collections;
#[cfg(test)]
mod examples;
#[cfg(test)]
mod expect;
#[cfg(test)]
mod guide;
#[cfg(test)]
mod named;
#[cfg(test)]
mod plain;
#[cfg(test)]
mod prices;
#[cfg(test)]
mod servers;
#[cfg(test)]
mod sessions;
#[cfg(test)]
mod texts;
#[cfg(test)]
mod uses;
