//! What is wrong with an image, in one line of plain words.

use crate::reading::{read, Fault, Kind};
use crate::tree::*;

/// A fault of an image: number and place, what is wrong and in which field, and the line that the item would have in the text.
pub fn refusal(image: &[u8], fault: &Fault) -> String {
    let (number, place, line) = (fault.number(), fault.place(), fault.line);
    format!("refused {number} at {place}: {} (line {line} of the text)", meaning(image, fault))
}

/// What a fault of a kind means.
fn meaning(image: &[u8], fault: &Fault) -> String {
    let (place, field) = (fault.place(), fault.field);
    match fault.kind {
        Kind::TooLong => format!("the image is longer than {} bytes", most::BYTES),
        Kind::NotMarked => "the image does not begin with the bytes BVN".to_string(),
        Kind::OtherVersion => format!("the version is {}, not 1", version(image)),
        Kind::BadMode => format!("mode {} is unknown", byte(image, place)),
        Kind::LeftOver => format!("the contract ends here, but the image has {} more", bytes(image.len().saturating_sub(place))),
        Kind::TagMissing => "the image ends where the tag of an item is due".to_string(),
        Kind::TagUnknown => format!("tag {} is unknown where {} is due", byte(image, place), due(image, place)),
        Kind::TooDeep => too_deep(byte(image, place)),
        Kind::TooMany => too_many(byte(image, place)),
        Kind::CutShort if field == place => "the image ends in this field of the head".to_string(),
        Kind::CutShort => format!("the image ends in the field at byte {field}"),
        Kind::OpUnknown => format!("op {} is unknown, in the field at byte {field}", byte(image, field)),
        Kind::BadFlag => format!("else flag {} is neither 0 nor 1, in the field at byte {field}", byte(image, field)),
        Kind::BadBoolean => format!("boolean {} is neither 0 nor 1, in the field at byte {field}", byte(image, field)),
    }
}

/// The byte at an offset.
fn byte(image: &[u8], offset: usize) -> u8 {
    image.get(offset).copied().unwrap_or_default()
}

/// The version field's number.
fn version(image: &[u8]) -> u16 {
    u16::from_be_bytes([byte(image, 3), byte(image, 4)])
}

/// So many bytes, in words.
fn bytes(count: usize) -> String {
    if count == 1 {
        return "1 byte".to_string();
    }
    format!("{count} bytes")
}

/// What is due at the place of an unknown tag: where a return's tag is unknown too, an expression.
fn due(image: &[u8], place: usize) -> &'static str {
    let other: Vec<u8> = image.iter().copied().take(place).chain([tag::RETURN]).collect();
    match read(&other) {
        Err(Fault { kind: Kind::TagUnknown, item, .. }) if item == place => "an expression",
        _ => "a statement",
    }
}

/// Whether a known tag is a statement's.
fn is_statement(tag: u8) -> bool {
    tag < tag::VARIABLE
}

/// The level of an item that is too deep.
fn too_deep(tag: u8) -> String {
    if is_statement(tag) {
        return format!("a statement at level {}, the deepest is {}", most::STATEMENT_LEVEL + 1, most::STATEMENT_LEVEL);
    }
    format!("an expression at level {}, the deepest is {}", most::EXPRESSION_LEVEL + 1, most::EXPRESSION_LEVEL)
}

/// What there are too many of.
fn too_many(tag: u8) -> String {
    if is_statement(tag) {
        return format!("more than {} statements", most::STATEMENTS);
    }
    format!("more than {} expression nodes", most::NODES)
}
