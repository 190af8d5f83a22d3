// Maps and sets as JSON.
mod numbers;
mod reads;
mod refused;
mod sets;
mod shared;
mod shared_sets;
mod writes;
