//! What is said where the two sides differ.

use std::fmt::Debug;

/// A difference in words, or nothing.
pub fn same<T: PartialEq + Debug>(what: &str, expected: T, told: T) -> Result<(), String> {
    match expected == told {
        true => Ok(()),
        false => Err(format!("{what}: expected {expected:?}, the library says {told:?}")),
    }
}

/// The same of bytes, of which only the first that differ are shown.
pub fn same_bytes(what: &str, expected: &[u8], told: &[u8]) -> Result<(), String> {
    same(&format!("{what}, its length"), expected.len(), told.len())?;
    match expected.iter().zip(told).position(|(one, other)| one != other) {
        None => Ok(()),
        Some(place) => same(&format!("{what}, byte {place}"), expected[place], told[place]),
    }
}
