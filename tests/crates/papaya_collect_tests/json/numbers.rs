// The maps of these tests, and their keys and values as JSON.
use papaya_seq::seq::HashMap;
use serde_json::Value;
use std::alloc::Global;

/// The maps of the tests.
pub type Numbers = HashMap<u64, u64>;

/// Returns a key as decimal digits.
pub fn digits(alloc: Global, key: &u64) -> Option<String> {
    key.to_string(alloc).ok()
}

/// Returns a value as a JSON number.
pub fn number(value: &u64) -> Option<Value> {
    Some(Value::from(*value))
}
