//! The words of the text form. Each table is in the order of its ops.

use crate::tree::*;

const LOCKTIME: [&str; ops::LOCKTIME as usize] = ["cltv", "csv"];
const LOGICAL: [&str; ops::LOGICAL as usize] = ["or", "and"];
const COMPARE: [&str; ops::COMPARE as usize] = ["==", "!=", ">", ">=", "<", "<=", "num==", "num!="];
const UNARY: [&str; ops::UNARY as usize] = ["add1", "sub1", "negate", "abs", "not"];
const BINARY: [&str; ops::BINARY as usize] = ["+", "-", "max", "min"];
const HASH: [&str; ops::HASH as usize] = ["sha256", "ripemd160"];
const LENGTH: &str = "length";

/// The word of an op; one that no image has is a question mark, which is no word of the text form.
fn word(table: &[&'static str], op: u8) -> &'static str {
    table.get(usize::from(op)).copied().unwrap_or("?")
}

/// The op of a word.
fn op(table: &[&str], word: &str) -> Option<u8> {
    (0u8..).zip(table).find(|(_, entry)| **entry == word).map(|(op, _)| op)
}

/// The word of a locktime's op.
pub fn of_locktime(op: u8) -> &'static str {
    word(&LOCKTIME, op)
}

/// The word of an item with one operand.
pub fn of_one(one: One) -> &'static str {
    match one {
        One::Unary(op) => word(&UNARY, op),
        One::Hash(op) => word(&HASH, op),
        One::Length => LENGTH,
    }
}

/// The word of an item with two operands.
pub fn of_two(two: Two) -> &'static str {
    match two {
        Two::Logical(op) => word(&LOGICAL, op),
        Two::Compare(op) => word(&COMPARE, op),
        Two::Binary(op) => word(&BINARY, op),
    }
}

/// The locktime's op that a word names.
pub fn locktime(word: &str) -> Option<u8> {
    op(&LOCKTIME, word)
}

/// The item with one operand that a word names.
pub fn one(word: &str) -> Option<One> {
    let length = (word == LENGTH).then_some(One::Length);
    length.or(op(&UNARY, word).map(One::Unary)).or(op(&HASH, word).map(One::Hash))
}

/// The item with two operands that a word names.
pub fn two(word: &str) -> Option<Two> {
    let logical = op(&LOGICAL, word).map(Two::Logical);
    logical.or(op(&COMPARE, word).map(Two::Compare)).or(op(&BINARY, word).map(Two::Binary))
}
