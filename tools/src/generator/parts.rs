//! Each part of what the limits and the rules look at as a whole: every bit of a byte of the head, of a tag, a code, a count, a length and a
//! location; every tag one level too deep; nodes in every part of an if.

use super::units::*;
use super::{grouped, Case};
use crate::tree::*;
use size::{HEAD, ITEM, OPERATION};
use std::collections::BTreeSet;
use std::ops::RangeInclusive;

/// The tags of statements, and those of expressions.
const STATEMENTS: RangeInclusive<u8> = tag::IF..=tag::RETURN;
const EXPRESSIONS: RangeInclusive<u8> = tag::VARIABLE..=tag::LENGTH;

/// The tags of expressions with a code, and the first code that is unknown.
const CODES: [(u8, u8); 6] = [(tag::LOGICAL, 2), (tag::COMPARE, 8), (tag::UNARY, 5), (tag::BINARY, 4), (tag::HASH, 2), (tag::BOOLEAN, 2)];

/// Every case about a part.
pub fn parts(mode: u8) -> Vec<Case> {
    let groups = [("part: head", head(mode)), ("part: tags", tags(mode)), ("part: codes", codes(mode)), ("part: counts", counts(mode))];
    let more = [("part: locations", locations(mode)), ("part: levels", levels(mode)), ("part: nodes", nodes(mode))];
    groups.into_iter().chain(more).flat_map(|(name, cases)| grouped(name, cases)).collect()
}

/// A draft that is refused.
fn refused(kind: impl Into<String>, draft: Draft, number: u32, place: usize) -> Case {
    Case::refused(kind, draft.bytes, number, place)
}

/// A statement that is refused with 4, from its tag and the byte behind its location.
fn statement(mode: u8, kind: &str, tag: u8, code: u8) -> Case {
    refused(kind, Draft::head(mode, 1).item(tag).byte(code), 4, HEAD)
}

/// The same of a returned expression.
fn expression(mode: u8, kind: &str, tag: u8, code: u8) -> Case {
    refused(kind, Draft::head(mode, 1).item(tag::RETURN).item(tag).byte(code), 4, HEAD + ITEM)
}

/// Mark, version and mode, each with one other bit.
fn head(mode: u8) -> Vec<Case> {
    let other = |place: usize, bit: u8| {
        let mut draft = Draft::head(mode, 0);
        draft.bytes[place] ^= 1 << bit;
        draft
    };
    let mut cases = vec![];
    for bit in 0..8 {
        cases.extend([0, 1, 2].map(|place| refused("one bit of the mark", other(place, bit), 1, 0)));
        cases.extend([3, 4].map(|place| refused("one bit of the version", other(place, bit), 2, 3)));
    }
    cases.extend((1..8).map(|bit| refused("one bit of the mode", other(5, bit), 4, 5)));
    cases
}

/// The bytes that are no such tag and differ from one in one bit.
fn others(tags: RangeInclusive<u8>) -> BTreeSet<u8> {
    let other = |bit: u8| tags.clone().map(move |tag| tag ^ (1 << bit));
    (0..8).flat_map(other).filter(|tag| !tags.contains(tag)).collect()
}

/// Tags with one other bit.
fn tags(mode: u8) -> Vec<Case> {
    let statements = others(STATEMENTS).into_iter().map(|tag| statement(mode, "one bit of a statement's", tag, 0));
    let expressions = others(EXPRESSIONS).into_iter().map(|tag| expression(mode, "one bit of an expression's", tag, 0));
    statements.chain(expressions).collect()
}

/// Unknown codes of one bit.
fn codes(mode: u8) -> Vec<Case> {
    let mut cases = vec![];
    for code in (1..8).map(|bit| 1 << bit) {
        cases.extend([tag::IF, tag::LOCKTIME].map(|tag| statement(mode, "one bit of a statement's", tag, code)));
        let unknown = CODES.into_iter().filter(|(_, first)| code >= *first);
        cases.extend(unknown.map(|(tag, _)| expression(mode, "one bit of an expression's", tag, code)));
    }
    cases
}

/// Counts and lengths of one bit, with nothing of what they count.
fn counts(mode: u8) -> Vec<Case> {
    let lone = |then: u16| Draft::head(mode, 1).item(tag::IF).byte(0).number16(then).expression(&c());
    let forked = |then: u16, otherwise: u16| {
        let counts = Draft::head(mode, 1).item(tag::IF).byte(1).number16(then).number16(otherwise);
        counts.expression(&c())
    };
    let string = |length: u16| Draft::head(mode, 1).item(tag::RETURN).item(tag::STRING).number16(length);
    let missing = |kind: &str, draft: Draft| Case::refused(kind, draft.bytes.clone(), 3, draft.place());
    let mut cases = vec![];
    for number in (0..16).map(|bit| 1 << bit) {
        cases.push(missing("one bit of the head's", Draft::head(mode, number)));
        cases.push(missing("one bit of an if block's", lone(number)));
        cases.push(missing("one bit of an if block's before an else", forked(number, 0)));
        cases.push(missing("one bit of an else block's", forked(0, number)));
        cases.push(refused("one bit of a string's length", string(number), 3, HEAD + ITEM));
    }
    cases
}

/// A return at the greatest location, and where one of its numbers is the greatest.
fn locations(mode: u8) -> Vec<Case> {
    let most = Location { start: u32::MAX, end: u32::MAX, line: u32::MAX, column: u32::MAX };
    let least = Location::default();
    let starts = [Location { start: u32::MAX, ..least }, Location { end: u32::MAX, ..least }];
    let lines = [Location { line: u32::MAX, ..least }, Location { column: u32::MAX, ..least }];
    let at = |location: Location| Case::accepted("the greatest number", image(mode, vec![ret(c()).at(location)]));
    [most].into_iter().chain(starts).chain(lines).map(at).collect()
}

/// Every tag of an expression at level 33.
fn levels(mode: u8) -> Vec<Case> {
    let deep = Draft::head(mode, 1).item(tag::RETURN).nots(32);
    EXPRESSIONS.map(|tag| refused("a tag at level 33", deep.clone().byte(tag), 5, deep.place())).collect()
}

/// An expression with every tag, of 12 nodes.
fn every_tag() -> Expr {
    and(equal(plus(lit(0), length(text(&[]))), hash(x())), or(not(yes()), c()))
}

/// 1,024 nodes and one more: before an if, in its condition, in both of its blocks and behind it.
fn nodes(mode: u8) -> Vec<Case> {
    let block = vec![verify(every_tag()), ret(c())];
    let before = [times(31, verify(around(30, One::Unary(op::NOT), yes()))), vec![verify(every_tag())]].concat();
    let list = [before, vec![ifelse(every_tag(), block.clone(), block), verify(every_tag())]].concat();
    let with = |last: Expr| image(mode, [list.clone(), vec![ret(last)]].concat());
    let last = with(x()).len() - ITEM + OPERATION;
    vec![Case::accepted("1024 everywhere", with(x())), Case::refused("1025 everywhere", with(not(x())), 6, last)]
}
