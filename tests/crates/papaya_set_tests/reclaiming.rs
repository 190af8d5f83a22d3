// Maps and sets that are reclaimed while threads go on: each call once, threads that come and go,
// and refused memory.
mod calls;
mod numbers;
mod refused;
mod threads;
