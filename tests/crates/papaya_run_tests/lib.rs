//! Tests of the programs `papaya-run` and `papaya-bench`, over readers and writers in memory.
//! It uses `papaya_run_lines` and `papaya_bench_measure`.
//! They are compiled and run, and not proved. No crate builds on it.
#![tactic(auto)]

#[cfg(test)]
mod bench;
#[cfg(test)]
mod faults;
#[cfg(test)]
mod runs;
