//! Tokens that are values: numbers, locations and hex digits.

use super::tokens::Token;
use super::BadText;
use crate::tree::Location;

/// Whether a word is meant as a number.
pub fn begins_as_number(word: &str) -> bool {
    word.trim_start_matches(['-', '+']).starts_with(|c: char| c.is_ascii_digit())
}

/// A number of 64 bits.
pub fn number(token: &Token) -> Result<i64, BadText> {
    if !begins_as_number(token.text) {
        return Err(token.expected("a number"));
    }
    let digits = token.text.strip_prefix('-').unwrap_or(token.text);
    if !is_plain(digits) || token.text == "-0" {
        return Err(token.expected("a decimal number without plus sign and leading zeros"));
    }
    token.text.parse().map_err(|_| token.bad(format!("{} is outside the signed 64-bit numbers", token.shown())))
}

/// Whether these are decimal digits without leading zeros.
fn is_plain(digits: &str) -> bool {
    let all = !digits.is_empty() && digits.bytes().all(|byte| byte.is_ascii_digit());
    all && (digits == "0" || !digits.starts_with('0'))
}

/// The location that a token is.
pub fn location(token: &Token) -> Result<Location, BadText> {
    let parts = location_parts(token.text).filter(|parts| parts.iter().all(|part| is_plain(part)));
    let [start, end, line, column] = parts.ok_or_else(|| token.expected("a location @start-end:line:column"))?;
    let number = |digits: &str| digits.parse().map_err(|_| token.bad(format!("{} has a number of over 32 bits", token.shown())));
    Ok(Location { start: number(start)?, end: number(end)?, line: number(line)?, column: number(column)? })
}

/// The four parts of a location, whatever they are.
fn location_parts(text: &str) -> Option<[&str; 4]> {
    let (start, rest) = text.strip_prefix('@')?.split_once('-')?;
    let (end, rest) = rest.split_once(':')?;
    let (line, column) = rest.split_once(':')?;
    Some([start, end, line, column])
}

/// The bytes that hex digits are.
pub fn hex(token: &Token) -> Result<Vec<u8>, BadText> {
    let digits: Option<Vec<u8>> = token.text.chars().map(|c| c.to_digit(16).and_then(|digit| u8::try_from(digit).ok())).collect();
    let digits = digits.ok_or_else(|| token.expected("hex digits"))?;
    if digits.len() % 2 == 1 {
        return Err(token.bad(format!("{} has an odd number of hex digits", token.shown())));
    }
    Ok(digits.chunks(2).map(|pair| pair.iter().fold(0, |value, digit| value * 16 + digit)).collect())
}
