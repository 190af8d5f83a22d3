// The tests of the arena of pairs.
#[cfg(test)]
mod pushes;
#[cfg(test)]
mod threads;
