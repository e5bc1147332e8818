//! Each of the greatest sizes, and one past it: "At each size the next one up is refused."

use super::units::*;
use super::Case;
use crate::tree::*;
use size::{HEAD, IF, IF_ELSE, ITEM, LOCKTIME, NUMBER, OPERATION, STRING};

/// Every case about a size.
pub fn limits(mode: u8) -> Vec<Case> {
    [bytes(mode), statements(mode), nodes(mode), one_operand_levels(mode), two_operand_levels(mode)]
        .into_iter()
        .chain([statement_levels(mode), paths(mode), absent(mode)])
        .flatten()
        .collect()
}

/// 32,768 bytes and one more, by one string, by two, by many statements, and by bytes left over. Of the two strings one has bits of its
/// length that the other has not, and each has an item behind it.
fn bytes(mode: u8) -> Vec<Case> {
    let string = |length: usize| image(mode, vec![ret(text(&vec![0; length]))]);
    let two = |length: usize| image(mode, vec![verify(text(&[0; 0x1c0])), verify(text(&vec![0; length])), ret(c())]);
    let many = |length: usize| {
        let mut list = times(340, verify(plus(lit(0), lit(0))));
        list.push(ret(text(&vec![1; length])));
        image(mode, list)
    };
    let one_left = most::BYTES - HEAD - ITEM - STRING;
    let two_left = one_left - (ITEM + STRING + 0x1c0) - (ITEM + ITEM);
    let many_left = one_left - 340 * (ITEM + OPERATION + 2 * NUMBER);
    let mut cut = string(one_left + 1);
    cut.pop();
    let left_over = |length: usize| Draft::head(mode, 0).raw(&vec![0; length - HEAD]).bytes;
    vec![
        Case::accepted("limit: 32768 bytes, one string", string(one_left)),
        Case::refused("limit: 32769 bytes, one string", string(one_left + 1), 8, 0),
        Case::refused("limit: 32768 bytes, its string cut", cut, 3, HEAD + ITEM),
        Case::accepted("limit: 32768 bytes, two strings", two(two_left)),
        Case::refused("limit: 32769 bytes, two strings", two(two_left + 1), 8, 0),
        Case::accepted("limit: 32768 bytes, many statements", many(many_left)),
        Case::refused("limit: 32769 bytes, many statements", many(many_left + 1), 8, 0),
        Case::refused("limit: 32768 bytes, left over", left_over(most::BYTES), 7, HEAD),
        Case::refused("limit: 32769 bytes, left over", left_over(most::BYTES + 1), 8, 0),
    ]
}

/// 512 statements and one more, in the top list and in blocks: one block and two with counts of many bits, and statements before an if, in
/// both of its blocks and behind it.
fn statements(mode: u8) -> Vec<Case> {
    let top = |count: usize, statement: Stmt| image(mode, times(count, statement));
    let returning = |count: usize| [times(count - 1, lock()), vec![ret(c())]].concat();
    let block = |count: usize| image(mode, vec![ifs(c(), returning(count))]);
    let blocks = |count: usize| image(mode, vec![ifelse(c(), returning(1), returning(count))]);
    let both = ifelse(c(), returning(496), returning(8));
    let mixed = |count: usize| image(mode, [times(3, lock()), vec![both.clone()], times(count, lock())].concat());
    let empty = ifelse(yes(), vec![], vec![]);
    let returned = ITEM + ITEM;
    let behind = HEAD + 3 * LOCKTIME + both.size();
    vec![
        Case::accepted("limit: 512 statements, locktimes", top(512, lock())),
        Case::refused("limit: 513 statements, locktimes", top(513, lock()), 6, HEAD + 512 * LOCKTIME),
        Case::accepted("limit: 512 statements, verifies", top(512, verify(c()))),
        Case::refused("limit: 513 statements, verifies", top(513, verify(c())), 6, HEAD + 512 * (ITEM + ITEM)),
        Case::accepted("limit: 512 statements, returns", top(512, ret(c()))),
        Case::refused("limit: 513 statements, returns", top(513, ret(c())), 6, HEAD + 512 * (ITEM + ITEM)),
        Case::accepted("limit: 512 statements, ifs", top(512, empty.clone())),
        Case::refused("limit: 513 statements, ifs", top(513, empty), 6, HEAD + 512 * (IF_ELSE + size::BOOLEAN)),
        Case::accepted("limit: 512 statements, a block", block(511)),
        Case::refused("limit: 513 statements, a block", block(512), 6, HEAD + IF + ITEM + 511 * LOCKTIME),
        Case::accepted("limit: 512 statements, two blocks", blocks(510)),
        Case::refused("limit: 513 statements, two blocks", blocks(511), 6, HEAD + IF_ELSE + ITEM + returned + 510 * LOCKTIME),
        Case::accepted("limit: 512 statements, around two blocks", mixed(4)),
        Case::refused("limit: 513 statements, around two blocks", mixed(5), 6, behind + 4 * LOCKTIME),
    ]
}

/// 1,024 expression nodes and one more.
fn nodes(mode: u8) -> Vec<Case> {
    let tree = |first: Expr| image(mode, vec![verify(first), verify(full(9))]);
    let pairs = |last: Expr| image(mode, [times(511, verify(not(c()))), vec![ret(last)]].concat());
    let conditions = |last: Expr| image(mode, [times(511, ifs(not(c()), vec![])), vec![ifs(last, vec![])]].concat());
    let last_of_tree = HEAD + ITEM + not(x()).size() + ITEM + full(9).size() - ITEM;
    let last_pair = HEAD + 511 * (ITEM + OPERATION + ITEM) + ITEM;
    let last_condition = HEAD + 511 * (IF + OPERATION + ITEM) + IF;
    vec![
        Case::accepted("limit: 1024 nodes, a full tree", tree(x())),
        Case::refused("limit: 1025 nodes, a full tree", tree(not(x())), 6, last_of_tree),
        Case::accepted("limit: 1024 nodes, 512 statements", pairs(not(c()))),
        Case::refused("limit: 1025 nodes, 512 statements", pairs(and(c(), c())), 6, last_pair + OPERATION + ITEM),
        Case::accepted("limit: 1024 nodes, conditions", conditions(not(c()))),
        Case::refused("limit: 1025 nodes, conditions", conditions(not(not(c()))), 6, last_condition + 2 * OPERATION),
    ]
}

/// Expression level 32 and 33 by chains of each operation with one operand.
fn one_operand_levels(mode: u8) -> Vec<Case> {
    let unary = (0..ops::UNARY).map(One::Unary);
    let hash = (0..ops::HASH).map(One::Hash);
    let mut cases = vec![];
    for op in unary.chain(hash).chain([One::Length]) {
        let returned = |count: usize| image(mode, vec![ret(around(count, op, c()))]);
        let condition = |count: usize| image(mode, vec![ifs(around(count, op, x()), vec![ret(c())])]);
        cases.push(Case::accepted(format!("limit: level 32, {op:?} returned"), returned(31)));
        cases.push(Case::refused(format!("limit: level 33, {op:?} returned"), returned(32), 5, HEAD + ITEM + 32 * op.size()));
        cases.push(Case::accepted(format!("limit: level 32, {op:?} in a condition"), condition(31)));
        cases.push(Case::refused(format!("limit: level 33, {op:?} in a condition"), condition(32), 5, HEAD + IF + 32 * op.size()));
    }
    cases
}

/// Expression level 32 and 33 by chains of operations with two operands, leftward and rightward.
fn two_operand_levels(mode: u8) -> Vec<Case> {
    let logical = (0..ops::LOGICAL).map(Two::Logical);
    let compare = (0..ops::COMPARE).map(Two::Compare);
    let binary = (0..ops::BINARY).map(Two::Binary);
    let left_leaf = HEAD + ITEM + 32 * OPERATION;
    let right_leaf = HEAD + ITEM + 31 * (OPERATION + ITEM) + OPERATION;
    let mut cases = vec![];
    for op in logical.chain(compare).chain(binary) {
        let left = |count: usize| image(mode, vec![verify(leftward(count, op, c())), ret(c())]);
        let right = |count: usize| image(mode, vec![ret(rightward(count, op, x()))]);
        cases.push(Case::accepted(format!("limit: level 32, {op:?} leftward"), left(31)));
        cases.push(Case::refused(format!("limit: level 33, {op:?} leftward"), left(32), 5, left_leaf));
        cases.push(Case::accepted(format!("limit: level 32, {op:?} rightward"), right(31)));
        cases.push(Case::refused(format!("limit: level 33, {op:?} rightward"), right(32), 5, right_leaf));
    }
    cases
}

/// Ifs in each other's if block.
fn then_nest(count: usize, inner: Vec<Stmt>) -> Vec<Stmt> {
    (0..count).fold(inner, |block, _| vec![ifs(c(), block)])
}

/// Ifs in each other's else block.
fn else_nest(count: usize, inner: Vec<Stmt>) -> Vec<Stmt> {
    (0..count).fold(inner, |block, _| vec![ifelse(c(), vec![], block)])
}

/// Statement level 16 and 17.
fn statement_levels(mode: u8) -> Vec<Case> {
    let then_place = HEAD + 16 * (IF + ITEM);
    let else_place = HEAD + 16 * (IF_ELSE + ITEM);
    let behind = |inner: Vec<Stmt>| image(mode, then_nest(15, vec![lock(), ifelse(c(), vec![], inner)]));
    vec![
        Case::accepted("limit: level 16, return in the if block", image(mode, then_nest(15, vec![ret(c())]))),
        Case::refused("limit: level 17, return in the if block", image(mode, then_nest(16, vec![ret(c())])), 5, then_place),
        Case::accepted("limit: level 16, return in the else block", image(mode, else_nest(15, vec![ret(no())]))),
        Case::refused("limit: level 17, return in the else block", image(mode, else_nest(16, vec![ret(no())])), 5, else_place),
        Case::accepted("limit: an empty if block below level 16", image(mode, then_nest(16, vec![]))),
        Case::accepted("limit: an empty else block below level 16", image(mode, else_nest(16, vec![]))),
        Case::refused("limit: level 17, locktime", image(mode, then_nest(16, vec![lock()])), 5, then_place),
        Case::refused("limit: level 17, verify", image(mode, then_nest(16, vec![verify(c())])), 5, then_place),
        Case::refused("limit: level 17, if", image(mode, else_nest(17, vec![])), 5, else_place),
        Case::accepted("limit: level 16, behind a locktime", behind(vec![])),
        Case::refused("limit: level 17, behind a locktime", behind(vec![lock()]), 5, HEAD + 15 * (IF + ITEM) + LOCKTIME + IF_ELSE + ITEM),
    ]
}

/// 128 paths and one more, and what is no path.
fn paths(mode: u8) -> Vec<Case> {
    let beside = |left: Vec<Stmt>, right: Vec<Stmt>| image(mode, vec![ifelse(yes(), left, right)]);
    let lone = || vec![ret(c())];
    let after = |statement: Stmt| image(mode, [forks(7), vec![statement]].concat());
    vec![
        Case::accepted("limit: 128 paths", image(mode, forks(7))),
        Case::refused("limit: 129 paths, the last in the else block", image(mode, too_many_paths()), 9, 0),
        Case::refused("limit: 129 paths, the first in the if block", beside(lone(), forks(7)), 9, 0),
        Case::refused("limit: 256 paths", image(mode, forks(8)), 9, 0),
        Case::accepted("limit: 128 paths beside none", beside(vec![lock()], forks(7))),
        Case::accepted("limit: 128 paths before a return", after(ret(c()))),
        Case::accepted("limit: 128 paths before an if", after(ifs(yes(), lone()))),
        Case::accepted("limit: 129 returns, one path", image(mode, times(129, ret(c())))),
    ]
}

/// Lists and strings that are not there, though their count or length is the greatest.
fn absent(mode: u8) -> Vec<Case> {
    let open = || Draft::head(mode, 1).item(tag::IF).byte(0).number16(65535).expression(&c());
    let other = || Draft::head(mode, 1).item(tag::IF).byte(1).number16(0).number16(65535).expression(&c());
    let string = |bytes: &[u8]| Draft::head(mode, 1).item(tag::RETURN).item(tag::STRING).number16(65535).raw(bytes).bytes;
    let some = |draft: Draft| draft.statements(&times(3, lock()));
    let top = Draft::head(mode, 65535).statements(&times(512, lock()));
    vec![
        Case::refused("limit: count 65535, nothing", Draft::head(mode, 65535).bytes, 3, HEAD),
        Case::refused("limit: count 65535, 512 statements", top.clone().bytes, 3, top.place()),
        Case::refused("limit: count 65535, 513 statements", top.clone().statements(&[lock()]).bytes, 6, top.place()),
        Case::refused("limit: if block 65535, nothing", open().bytes, 3, open().place()),
        Case::refused("limit: if block 65535, some", some(open()).bytes, 3, some(open()).place()),
        Case::refused("limit: else block 65535, nothing", other().bytes, 3, other().place()),
        Case::refused("limit: else block 65535, some", some(other()).bytes, 3, some(other()).place()),
        Case::refused("limit: string 65535, nothing", string(&[]), 3, HEAD + ITEM),
        Case::refused("limit: string 65535, some", string(&[7; 32000]), 3, HEAD + ITEM),
    ]
}
