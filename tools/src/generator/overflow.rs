//! "A step outside signed 64 bits that folding reaches is refusal 10, the first in translation order", and steps that are not reached.
//! In each case the operation whose place comes back has the location `MARKED`.

use super::units::*;
use super::{grouped, Case};
use crate::tree::*;
use crate::writing::{write_fields, Field, FieldKind};

/// A group's name, and what makes its examples.
type Group = (&'static str, fn() -> Vec<Example>);

/// The groups of cases about literal arithmetic that leaves 64 bits.
const GROUPS: [Group; 9] = [
    ("overflow: ends", ends),
    ("overflow: statement order", statement_order),
    ("overflow: path order", path_order),
    ("overflow: operand order", operand_order),
    ("overflow: structure", structure),
    ("overflow: behind other items", behind_other_items),
    ("overflow: among atoms", among_atoms),
    ("overflow: unreached statements", unreached_statements),
    ("overflow: unreached operands", unreached_operands),
];

/// Every case about literal arithmetic that leaves 64 bits.
pub fn overflows(mode: u8) -> Vec<Case> {
    let cases = |make: fn() -> Vec<Example>| make().into_iter().map(|example| example.case(mode)).collect();
    GROUPS.into_iter().flat_map(|(name, make)| grouped(name, cases(make))).collect()
}

/// A contract, and whether it is refused at its marked operation.
struct Example {
    rule: &'static str,
    statements: Vec<Stmt>,
    refused: bool,
}

impl Example {
    /// Its image in a mode, with the marked place.
    fn case(self, mode: u8) -> Case {
        let (image, fields) = write_fields(&Contract { mode, statements: self.statements });
        match self.refused {
            true => {
                let place = marked_place(&image, &fields);
                Case::refused(self.rule, image, 10, place)
            }
            false => Case::accepted(self.rule, image),
        }
    }
}

/// The tag of the item whose location is `MARKED`.
fn marked_place(image: &[u8], fields: &[Field]) -> usize {
    let location: Vec<u8> = [MARKED.start, MARKED.end, MARKED.line, MARKED.column].into_iter().flat_map(u32::to_be_bytes).collect();
    let tags: Vec<usize> = fields.iter().filter(|field| field.kind == FieldKind::Tag).map(|field| field.start).collect();
    let mut places = tags.into_iter().filter(|tag| image[tag + 1..].starts_with(&location));
    let place = places.next().expect("an operation is marked");
    assert!(places.next().is_none(), "one operation is marked");
    place
}

/// The marked operation is refused.
fn refused(rule: &'static str, statements: Vec<Stmt>) -> Example {
    Example { rule, statements, refused: true }
}

/// Nothing is refused.
fn accepted(rule: &'static str, statements: Vec<Stmt>) -> Example {
    Example { rule, statements, refused: false }
}

/// 2^63-1 raised by unary Add: an overflow that another comes before.
fn late() -> Expr {
    unary(0, lit(i64::MAX))
}

/// An overflow that comes first.
fn first() -> Expr {
    late().at(MARKED)
}

/// Every operation at both ends of 64 bits: the last value that it gives, and one past it.
fn ends() -> Vec<Example> {
    let past = [
        unary(0, lit(i64::MAX)),
        unary(1, lit(i64::MIN)),
        unary(2, lit(i64::MIN)),
        unary(3, lit(i64::MIN)),
        binary(0, lit(i64::MAX), lit(1)),
        binary(0, lit(-1), lit(i64::MIN)),
        binary(0, lit(i64::MAX), yes()),
        binary(1, lit(i64::MIN), lit(1)),
        binary(1, lit(i64::MAX), lit(-1)),
        binary(1, lit(0), lit(i64::MIN)),
        binary(1, lit(-2), lit(i64::MAX)),
    ];
    let within = [
        unary(0, lit(i64::MAX - 1)),
        unary(1, lit(i64::MIN + 1)),
        unary(2, lit(i64::MAX)),
        unary(2, lit(i64::MIN + 1)),
        unary(3, lit(i64::MIN + 1)),
        unary(4, plus(lit(i64::MIN), lit(0))),
        binary(0, lit(i64::MAX), lit(i64::MIN)),
        binary(0, lit(i64::MAX), no()),
        binary(1, lit(-1), lit(i64::MIN)),
        binary(1, lit(-1), lit(i64::MAX)),
        binary(2, lit(i64::MIN), lit(i64::MAX)),
        binary(3, lit(i64::MIN), lit(i64::MAX)),
        compare(4, lit(i64::MIN), lit(i64::MAX)),
    ];
    let past = past.map(|expression| refused("an end of 64 bits is passed", vec![ret(expression.at(MARKED))]));
    let within = within.map(|expression| accepted("an end of 64 bits is not passed", vec![ret(expression)]));
    past.into_iter().chain(within).collect()
}

/// Conditions before verifies before the return, though they stand later in the image.
fn statement_order() -> Vec<Example> {
    vec![
        refused("a condition before an earlier verify", vec![verify(late()), ifs(first(), vec![ret(c())])]),
        refused("a condition before an earlier verify, else side", vec![verify(late()), ifelse(first(), vec![], vec![ret(c())])]),
        refused("an inner condition before an outer verify", vec![verify(late()), ifs(x(), vec![ifs(first(), vec![ret(c())])])]),
        refused("an outer condition before an inner one", vec![ifs(first(), vec![verify(late()), ifs(late(), vec![ret(late())])])]),
        refused("a verify before the return", vec![verify(first()), ret(late())]),
        refused("an earlier verify before a later", vec![verify(first()), lock(), verify(late()), ret(c())]),
        refused("an outer verify before an inner one", vec![verify(first()), ifs(c(), vec![verify(late()), ret(c())])]),
        refused("the return last", vec![verify(c()), ret(first())]),
        refused("a condition before a return", vec![ifs(first(), vec![ret(late())])]),
    ]
}

/// The earlier path first, whatever its verdict would be.
fn path_order() -> Vec<Example> {
    let crowd = || rightward(20, Two::Logical(op::AND), x());
    let deep = || vec![verify(late()), ifs(first(), vec![ret(c())])];
    vec![
        refused("an earlier path first", vec![ifelse(x(), vec![ret(first())], vec![ret(late())])]),
        refused("a later path's overflow", vec![ifelse(c(), vec![ret(c())], vec![ret(first())])]),
        refused("a later path though the first fails", vec![ifelse(yes(), vec![ret(yes())], vec![ret(first())])]),
        refused("behind a path over its bound", vec![ifelse(x(), vec![ret(crowd())], vec![ret(first())])]),
        refused("on a path over its bound", vec![verify(crowd()), verify(x()), ret(first())]),
        refused("an earlier path's inner condition", vec![ifelse(x(), deep(), vec![ret(late())])]),
        refused("an if block without a path is passed over", vec![ifelse(x(), vec![verify(late())], vec![ret(first())])]),
        refused("a verify shared by both paths", vec![verify(first()), ifelse(x(), vec![ret(late())], vec![ret(c())])]),
        refused("the last of 128 paths", vec![ifelse(yes(), forks(6), [vec![verify(first())], forks(6)].concat())]),
    ]
}

/// Folding: left before right, inner before outer, both sides of and, or too.
fn operand_order() -> Vec<Example> {
    let sum = |left: Expr, right: Expr| vec![ret(plus(left, right))];
    let end = || lit(i64::MAX);
    vec![
        refused("the left side before the right", sum(first(), late())),
        refused("the right side after a left with a value", sum(lit(0), first())),
        refused("the inner operation before the outer", vec![ret(unary(0, unary(0, plus(end(), lit(1)).at(MARKED))))]),
        refused("the outer operation after its operands", vec![ret(plus(plus(end(), lit(-1)), plus(lit(1), lit(1))).at(MARKED))]),
        refused("the right operand before the outer operation", sum(end(), plus(end(), end()).at(MARKED))),
        refused("both sides of and are folded", sum(and(lit(0), first()), lit(0))),
        refused("both sides of or are folded", sum(or(lit(1), first()), lit(0))),
        refused("a not is folded below an operation", sum(not(first()), lit(0))),
        refused("a comparison is folded", vec![ret(compare(2, first(), lit(0)))]),
        refused("Equal with a literal is folded below an operation", sum(equal(first(), yes()), lit(0))),
        refused("a left that overflows before a string", sum(first(), text(b""))),
        refused("a left that overflows before a hash", vec![ret(compare(5, first(), hash(text(b"a"))))]),
        refused("R6: 2^63-1 raised, and sha256(\"\")", sum(first(), hash(text(b"")))),
        refused("a right that overflows before a string further right", sum(plus(lit(1), first()), length(text(b"")))),
    ]
}

/// What is taken by structure hands on to its sides.
fn structure() -> Vec<Example> {
    let returns = |expression: Expr| vec![ret(expression)];
    vec![
        refused("and: the left side first", returns(and(first(), late()))),
        refused("and: the right side beside a variable", returns(and(x(), first()))),
        refused("and: the right side of a falsehood", returns(and(no(), first()))),
        refused("or: the right side of a truth", returns(or(yes(), first()))),
        refused("or: the left side beside a checksig", returns(or(first(), c()))),
        refused("not", returns(not(not(first())))),
        refused("Equal with a literal on the right", returns(equal(first(), yes()))),
        refused("Equal with a literal on the left", returns(equal(no(), first()))),
        refused("NotEqual with a literal", returns(compare(op::NOT_EQUAL, first(), yes()))),
        refused("NumEqual with a literal", returns(compare(6, yes(), first()))),
        refused("Equal with a literal, a variable beside", returns(equal(and(x(), first()), yes()))),
        refused("a string beside", returns(and(text(b""), first()))),
        refused("a hash beside", returns(or(hash(x()), first()))),
        refused("not, a variable beside", returns(not(and(x(), first())))),
        refused("Equal with a literal on the left, a variable beside", returns(equal(yes(), and(x(), first())))),
        refused("NotEqual with a literal on the right, a variable beside", returns(compare(op::NOT_EQUAL, and(x(), first()), yes()))),
        refused("NotEqual with a literal on the left, a variable beside", returns(compare(op::NOT_EQUAL, yes(), or(x(), first())))),
        refused("and in and, a variable beside", returns(and(and(x(), first()), c()))),
    ]
}

/// Statements and items of other sizes stand before the operation.
fn behind_other_items() -> Vec<Example> {
    let csv = || Stmt::new(StmtKind::Locktime { op: 1, operand: 1 });
    let pathless = || ifelse(c(), vec![lock()], vec![verify(late())]);
    vec![
        refused("a locktime", vec![csv(), ret(first())]),
        refused("a string in a verify", vec![verify(text(b"ab")), ret(first())]),
        refused("the length of a variable in a verify", vec![verify(length(x())), ret(first())]),
        refused("an if with else without a path, in the else block", vec![ifelse(x(), vec![pathless()], vec![ret(first())])]),
        refused("other statements, in the else block", vec![ifelse(x(), vec![ret(c())], vec![csv(), verify(text(b"ab")), ret(first())])]),
    ]
}

/// On paths with atoms, some more than a mask has bits, and on sides of ifs.
fn among_atoms() -> Vec<Example> {
    let sig = |line: u32| c().at(Location { line, ..Location::default() });
    let sigs = |count: u32| (1..=count).map(|line| verify(or(sig(line), x()))).collect::<Vec<Stmt>>();
    let inner = |last: Expr| vec![ifelse(not(sig(1)), vec![ret(x())], vec![ret(last)])];
    vec![
        refused("behind 33 Sig atoms", [sigs(33), vec![ret(and(sig(1), first()))]].concat()),
        refused("in the last of many verifies", [sigs(40), vec![verify(equal(first(), no())), ret(late())]].concat()),
        refused(
            "in an inner condition on the else side",
            vec![ifelse(x(), vec![ret(c())], vec![ifelse(first(), vec![], vec![ret(late())])])],
        ),
        refused("in the return of the last path", vec![ifelse(sig(1), inner(x()), inner(or(sig(2), not(first()))))]),
        refused("in a condition, beside a literal and below or", vec![ifelse(equal(no(), or(x(), first())), vec![], vec![ret(c())])]),
        refused("in a verify, below and, or and not", vec![verify(and(or(c(), x()), not(or(x(), first())))), ret(c())]),
        refused("beside what folds to a Free atom", vec![verify(hash(late())), ret(or(plus(x(), late()), first()))]),
    ]
}

/// Statements that no path reaches.
fn unreached_statements() -> Vec<Example> {
    vec![
        accepted("after a return", vec![ret(c()), verify(late()), ret(late())]),
        accepted("after an if", vec![ifs(c(), vec![ret(c())]), verify(late()), ret(late())]),
        accepted("after an if with empty blocks", vec![ifelse(late(), vec![], vec![]), ret(late())]),
        accepted("after a return in a block", vec![ifs(c(), vec![ret(c()), ret(late())])]),
        accepted("a list that runs out", vec![verify(late()), lock()]),
        accepted("a block that runs out", vec![ifelse(x(), vec![verify(late())], vec![ret(c())])]),
        accepted("the condition of an empty block", vec![ifs(late(), vec![])]),
        accepted("an inner condition without a path", vec![ifelse(x(), vec![ifs(late(), vec![lock()])], vec![ret(c())])]),
    ]
}

/// Operations that folding does not reach.
fn unreached_operands() -> Vec<Example> {
    let kept = |rule: &'static str, expression: Expr| accepted(rule, vec![ret(expression)]);
    vec![
        kept("R5: sha256(\"\"), and 2^63-1 raised", plus(hash(text(b"")), late())),
        kept("behind a string", plus(text(b"a"), late())),
        kept("behind a length", compare(2, length(text(b"")), late())),
        kept("behind a string in the left operand", plus(plus(lit(1), text(b"")), late())),
        kept("inside a hash", hash(late())),
        kept("inside a length", length(late())),
        kept("beside a variable", plus(late(), x())),
        kept("beside a checksig", compare(3, late(), c())),
        kept("below a variable's operation", unary(2, plus(plus(late(), lit(1)), x()))),
        kept("an and below an operation, with a variable", compare(2, and(late(), x()), lit(0))),
        kept("the outer operation behind a string", unary(0, binary(0, text(b""), lit(i64::MAX)))),
        kept("a literal at the end alone", lit(i64::MIN)),
    ]
}
