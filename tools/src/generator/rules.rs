//! Images in which faults compete, one group for each rule of document 01's order: "8, 1, 2, then reading order; at an item: tag
//! missing (3, place is the image length), tag unknown (4), level (5), count (6), fields one by one (3 before 4). Then 7, 9, 10."

use super::units::*;
use super::{grouped, Case};
use crate::tree::*;

/// A byte that is no op, flag, mode, boolean or tag.
const BAD: u8 = 200;

/// A group's name, and what makes its cases in a mode.
type Group = (&'static str, fn(u8) -> Vec<Case>);

/// The groups of cases about the order of faults in the bytes.
const GROUPS: [Group; 14] = [
    ("rule: places", places),
    ("rule: too long", too_long),
    ("rule: head", head),
    ("rule: tags missing", tags_missing),
    ("rule: tags of the other sort", tags_of_the_other_sort),
    ("rule: tags unknown", tags_unknown),
    ("rule: statement level and count", statement_level_and_count),
    ("rule: expression level and count", expression_level_and_count),
    ("rule: locations cut", locations_cut),
    ("rule: fields", fields),
    ("rule: flags", flags),
    ("rule: strings", strings),
    ("rule: item order", item_order),
    ("rule: after reading", after_reading),
];

/// Every case about the order of faults in the bytes.
pub fn rules(mode: u8) -> Vec<Case> {
    GROUPS.into_iter().flat_map(|(name, make)| grouped(name, make(mode))).collect()
}

/// A draft that is refused.
fn refused(rule: &str, draft: Draft, number: u32, place: usize) -> Case {
    Case::refused(rule, draft.bytes, number, place)
}

/// The draft is refused at its own end: what follows is the item at fault.
fn refused_next(rule: &str, draft: Draft, rest: &[u8], number: u32) -> Case {
    let place = draft.place();
    refused(rule, draft.raw(rest), number, place)
}

/// Bytes that need not be a head.
fn raw(bytes: &[u8]) -> Draft {
    Draft { bytes: bytes.to_vec() }
}

/// One return, up to its expression.
fn returned(mode: u8) -> Draft {
    Draft::head(mode, 1).item(tag::RETURN)
}

/// Document 01's place tests.
fn places(mode: u8) -> Vec<Case> {
    vec![
        refused("no bytes", raw(b""), 1, 0),
        refused("the mark alone", raw(b"BVN"), 3, 3),
        refused("mode 2", raw(b"BVN\x00\x01\x02\x00\x00"), 4, 5),
        Case::accepted("count 0", Draft::head(mode, 0).bytes),
        refused("count 0 and a byte", Draft::head(mode, 0).byte(0), 7, 8),
        refused("count 1 alone", Draft::head(mode, 1), 3, 8),
    ]
}

/// 8 comes before every other number.
fn too_long(mode: u8) -> Vec<Case> {
    let filled = |draft: Draft| {
        let rest = most::BYTES + 1 - draft.place();
        draft.raw(&vec![0; rest])
    };
    vec![
        refused("8 before 1", filled(raw(b"")), 8, 0),
        refused("8 before 2", filled(raw(b"BVN\x00\x02")), 8, 0),
        refused("8 before a bad mode", filled(raw(b"BVN\x00\x01\x02")), 8, 0),
        refused("8 before 4", filled(Draft::head(mode, 1)), 8, 0),
        refused("8 before 7", filled(Draft::head(mode, 0)), 8, 0),
    ]
}

/// The head's fields, one by one.
fn head(mode: u8) -> Vec<Case> {
    let version_one = raw(b"BVN\x00\x01");
    let mut cases = vec![
        refused("one byte of the mark", raw(b"B"), 1, 0),
        refused("two bytes of the mark", raw(b"BV"), 1, 0),
        refused("1 before 2", raw(b"BVM\x00\x02\x00\x00\x00"), 1, 0),
        refused("1 before a version that is cut", raw(b"bvn\x00"), 1, 0),
        refused("1 for a checkpoint's mark", raw(b"BVC\x00\x01\x00\x00\x00"), 1, 0),
        refused("2 before a bad mode", raw(b"BVN\x00\x02\x02\x00\x00"), 2, 3),
        refused("2 before the mode is missing", raw(b"BVN\x00\x00"), 2, 3),
        refused("2 by the high byte", raw(b"BVN\x01\x01\x00\x00\x00"), 2, 3),
        refused("2 by exchanged bytes", raw(b"BVN\x01\x00\x00\x00\x00"), 2, 3),
        refused("the mode is missing", version_one.clone(), 3, 5),
        refused("a bad mode before the missing count", version_one.clone().byte(2), 4, 5),
        refused("a bad mode before the cut count", version_one.clone().byte(255).byte(0), 4, 5),
        refused("the count is missing", version_one.clone().byte(mode), 3, 6),
        refused("the count is cut", version_one.byte(mode).byte(1), 3, 6),
    ];
    cases.extend([0, 1, 2, 255].map(|first| refused("the version is cut", raw(b"BVN").byte(first), 3, 3)));
    cases
}

/// Drafts that end where an expression is due.
fn before_expressions(mode: u8) -> Vec<(&'static str, Draft)> {
    vec![
        ("a verify's", Draft::head(mode, 1).item(tag::VERIFY)),
        ("a return's", returned(mode)),
        ("a condition's", Draft::head(mode, 1).item(tag::IF).byte(0).number16(0)),
        ("a condition's with else", Draft::head(mode, 1).item(tag::IF).byte(1).number16(0).number16(0)),
        ("a not's", returned(mode).nots(1)),
        ("a hash's", returned(mode).item(tag::HASH).byte(0)),
        ("a length's", returned(mode).item(tag::LENGTH)),
        ("a left", returned(mode).item(tag::LOGICAL).byte(0)),
        ("a right", returned(mode).item(tag::COMPARE).byte(0).expression(&c())),
        ("a second right", returned(mode).item(tag::BINARY).byte(0).expression(&plus(x(), x()))),
        ("one at level 33", returned(mode).nots(32)),
    ]
}

/// Drafts that end where a statement is due.
fn before_statements(mode: u8) -> Vec<(&'static str, Draft)> {
    let open = |flag: u8| Draft::head(mode, 1).item(tag::IF).byte(flag).number16(1);
    vec![
        ("the first", Draft::head(mode, 1)),
        ("the second", Draft::head(mode, 2).statements(&[ret(c())])),
        ("one of an if block", open(0).expression(&c())),
        ("one of an else block", open(1).number16(1).expression(&c()).statements(&[lock()])),
        ("one behind an if", Draft::head(mode, 2).statements(&[ifs(c(), vec![ret(c())])])),
        ("one at level 17", Draft::head(mode, 1).nest(16)),
        ("the 513th", Draft::head(mode, 513).statements(&times(512, lock()))),
    ]
}

/// The tag is missing: 3 at the image length, whatever the level and count.
fn tags_missing(mode: u8) -> Vec<Case> {
    let due = before_expressions(mode).into_iter().chain(before_statements(mode));
    due.map(|(due, draft)| refused_next(&format!("tag missing: {due}"), draft, &[], 3)).collect()
}

/// A statement's tag where an expression is due, or the reverse.
fn tags_of_the_other_sort(mode: u8) -> Vec<Case> {
    let mut cases = vec![];
    for (due, draft) in before_expressions(mode) {
        for tag in tag::IF..=tag::RETURN {
            cases.push(refused_next(&format!("a statement's tag for an expression: {due}"), draft.clone(), &[tag], 4));
        }
    }
    for (due, draft) in before_statements(mode) {
        for tag in [tag::VARIABLE, tag::NUMBER, tag::LOGICAL, tag::LENGTH] {
            cases.push(refused_next(&format!("an expression's tag for a statement: {due}"), draft.clone(), &[tag], 4));
        }
    }
    cases
}

/// An unknown tag: 4, before the level and the count.
fn tags_unknown(mode: u8) -> Vec<Case> {
    let mut cases = vec![];
    let due = before_expressions(mode).into_iter().chain(before_statements(mode));
    for (due, draft) in due {
        for tag in [0, 5, 15, 27, 128, 255] {
            cases.push(refused_next(&format!("tag unknown: {due}"), draft.clone(), &[tag], 4));
        }
    }
    let full = Draft::head(mode, 2).statements(&[verify(full(9))]).item(tag::VERIFY).nots(1);
    cases.push(refused_next("tag unknown: the 1025th node", full, &[BAD], 4));
    cases
}

/// Statements: level before count, count before fields.
fn statement_level_and_count(mode: u8) -> Vec<Case> {
    let full = Draft::head(mode, 513).statements(&times(512, lock()));
    let deep = Draft::head(mode, 1).nest(16);
    let both = Draft::head(mode, 497).statements(&times(496, lock())).nest(16);
    let bad = Draft { bytes: vec![] }.item(tag::LOCKTIME).byte(BAD).bytes;
    vec![
        refused_next("level before count: a statement", both.clone(), &[tag::RETURN], 5),
        refused_next("level before count: a whole statement", both, &bad, 5),
        refused_next("count before a cut location: a statement", full.clone(), &[tag::RETURN, 0, 0], 6),
        refused_next("count before a bad op: a statement", full, &bad, 6),
        refused_next("level before a cut location: a statement", deep.clone(), &[tag::IF], 5),
        refused_next("level before a bad op: a statement", deep, &bad, 5),
    ]
}

/// Expressions: level before count, count before fields.
fn expression_level_and_count(mode: u8) -> Vec<Case> {
    let full = Draft::head(mode, 2).statements(&[verify(full(9))]).item(tag::VERIFY).nots(1);
    let deep = returned(mode).nots(32);
    let after = |nodes: usize| Draft::head(mode, 100).statements(&verifies_of(nodes)).item(tag::VERIFY);
    let both = after(1024 - 32).nots(32);
    let last = after(1024 - 31).nots(31);
    let bad = Draft { bytes: vec![] }.item(tag::UNARY).byte(BAD).bytes;
    vec![
        refused_next("level before count: an expression", both.clone(), &[tag::VARIABLE], 5),
        refused_next("level before count: a whole expression", both, &bad, 5),
        refused_next("count at level 32: an expression", last, &[tag::VARIABLE], 6),
        refused_next("count before a cut location: an expression", full.clone(), &[tag::NUMBER, 0], 6),
        refused_next("count before a bad op: an expression", full, &bad, 6),
        refused_next("level before a cut location: an expression", deep.clone(), &[tag::BOOLEAN, 9], 5),
        refused_next("level before a bad op: an expression", deep, &bad, 5),
    ]
}

/// Each of a location's numbers cut, for every tag; the op and what follows it are not looked for.
fn locations_cut(mode: u8) -> Vec<Case> {
    let mut cases = vec![];
    for length in [0, 1, 4, 7, 8, 12, 15] {
        let location = vec![BAD; length];
        for tag in tag::IF..=tag::RETURN {
            cases.push(refused_next("a location is cut: a statement's", Draft::head(mode, 1), &[&[tag], &location[..]].concat(), 3));
        }
        for tag in tag::VARIABLE..=tag::LENGTH {
            cases.push(refused_next("a location is cut: an expression's", returned(mode), &[&[tag], &location[..]].concat(), 3));
        }
    }
    cases
}

/// Ops, booleans and numbers: 3 before 4 for each field, and a bad field before what follows it.
fn fields(mode: u8) -> Vec<Case> {
    let item = |tag: u8, rest: &[u8]| Draft { bytes: vec![] }.item(tag).raw(rest).bytes;
    let mut cases = vec![];
    for (tag, first) in [(tag::LOGICAL, 2), (tag::COMPARE, 8), (tag::UNARY, 5), (tag::BINARY, 4), (tag::HASH, 2), (tag::BOOLEAN, 2)] {
        cases.push(refused_next("a code is missing", returned(mode), &item(tag, &[]), 3));
        for code in [first, BAD, 255] {
            cases.push(refused_next("a bad code before a missing operand", returned(mode), &item(tag, &[code]), 4));
            cases.push(refused_next("a bad code before an unknown operand", returned(mode), &item(tag, &[code, BAD]), 4));
        }
    }
    let lock = |rest: &[u8]| item(tag::LOCKTIME, rest);
    cases.extend([
        refused_next("a locktime's op is missing", Draft::head(mode, 1), &lock(&[]), 3),
        refused_next("a locktime's bad op before its operand is missing", Draft::head(mode, 1), &lock(&[2]), 4),
        refused_next("a locktime's bad op before its operand is cut", Draft::head(mode, 1), &lock(&[255, 0, 0]), 4),
        refused_next("a locktime's operand is missing", Draft::head(mode, 1), &lock(&[1]), 3),
        refused_next("a locktime's operand is cut", Draft::head(mode, 1), &lock(&[1, 0, 0, 0, 0, 0, 0, 0]), 3),
        refused_next("a number is missing", returned(mode), &item(tag::NUMBER, &[]), 3),
        refused_next("a number is cut", returned(mode), &item(tag::NUMBER, &[0x80, 0, 0, 0, 0, 0, 0]), 3),
    ]);
    cases
}

/// An if: its flag, its counts, its condition, its blocks.
fn flags(mode: u8) -> Vec<Case> {
    let item = |rest: &[u8]| Draft { bytes: vec![] }.item(tag::IF).raw(rest).bytes;
    let next = |rule: &str, rest: &[u8], number: u32| refused_next(rule, Draft::head(mode, 1), &item(rest), number);
    let lone = Draft::head(mode, 1).item(tag::IF).byte(0).number16(1);
    let forked = Draft::head(mode, 1).item(tag::IF).byte(1).number16(1).number16(1);
    vec![
        next("the flag is missing", &[], 3),
        next("a bad flag before its count is missing", &[2], 4),
        next("a bad flag before its count is cut", &[255, 0], 4),
        next("the if block's count is missing", &[0], 3),
        next("the if block's count is cut", &[1, 0], 3),
        next("the else block's count is missing", &[1, 0, 0], 3),
        next("the else block's count is cut", &[1, 0, 0, 0], 3),
        refused_next("no else count without the flag", lone.clone(), &[0, 0], 4),
        refused_next("the condition before the if block", lone.clone(), &[BAD, BAD, BAD], 4),
        refused_next("the if block before the else block", forked.clone().expression(&c()), &[BAD, BAD], 4),
        refused_next("the else block after the if block", forked.expression(&c()).statements(&[lock()]), &[BAD], 4),
        refused_next("the if block before the next statement", lone.expression(&yes()), &[0, tag::RETURN], 4),
    ]
}

/// A string: its length, then its bytes.
fn strings(mode: u8) -> Vec<Case> {
    let string = |rest: &[u8]| Draft { bytes: vec![] }.item(tag::STRING).raw(rest).bytes;
    let next = |rule: &str, rest: &[u8], number: u32| refused_next(rule, returned(mode), &string(rest), number);
    let empty = returned(mode).raw(&string(&[0, 0]));
    vec![
        next("a string's length is missing", &[], 3),
        next("a string's length is cut", &[0], 3),
        next("a string's bytes are missing", &[0, 1], 3),
        next("a string's bytes are cut", &[1, 0, 9, 9, 9], 3),
        next("a string's bytes are cut by one", &[0, 3, 0, 0], 3),
        refused_next("bytes after an empty string", empty, &[0], 7),
        Case::accepted("a string of tags", returned(mode).raw(&string(&[0, 3, 16, BAD, 0])).bytes),
    ]
}

/// The first fault in reading order wins; an item's fault before bytes left over.
fn item_order(mode: u8) -> Vec<Case> {
    let pair = Draft::head(mode, 1).item(tag::VERIFY).item(tag::LOGICAL).byte(op::AND);
    let bad_lock = Draft { bytes: vec![] }.item(tag::LOCKTIME).byte(BAD).raw(&[0; 8]).bytes;
    let deep = Draft::head(mode, 2).item(tag::RETURN).nots(32);
    vec![
        refused_next("a bad item before bytes left over", Draft::head(mode, 1), &[&bad_lock[..], &[1, 2, 3]].concat(), 4),
        refused_next("the left side before the right", pair.clone(), &[BAD, BAD], 4),
        refused_next("the right side after the left", pair.expression(&x()), &[BAD], 4),
        refused_next("4 in an earlier item before 3 in a later", Draft::head(mode, 2), &[&bad_lock[..], &[tag::RETURN]].concat(), 4),
        refused_next("5 in an earlier item before 4 in a later", deep, &[&[tag::VARIABLE], &[0; 16][..], &[BAD]].concat(), 5),
        refused_next("3 in the last item though the count is too small", Draft::head(mode, 1), &[tag::RETURN, 0], 3),
    ]
}

/// 7 before 9, 7 before 10, 9 before 10.
fn after_reading(mode: u8) -> Vec<Case> {
    let raised = || unary(0, lit(i64::MAX));
    let wide = || Draft::head(mode, 1).statements(&too_many_paths());
    let overflowing = || Draft::head(mode, 1).statements(&[ret(raised())]);
    let both = || Draft::head(mode, 2).statements(&[verify(raised())]).statements(&too_many_paths());
    vec![
        refused_next("7 before 9", wide(), &[0], 7),
        refused_next("7 before 10", overflowing(), &[tag::RETURN], 7),
        refused_next("7 before 9 and 10", both(), &[0], 7),
        refused("9 before 10", both(), 9, 0),
    ]
}
