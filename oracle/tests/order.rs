//! The order of a path's pieces, which the probe writes out, against the one in which the original's translator takes them. Every expression
//! of a contract compares one variable with a literal, so the variable that the translator takes j-th is bit j of the mask; the literals let
//! one mask satisfy a path, with the bit of one piece alone, and the original says which bit that is.

use image::generator::{cases, Request};
use image::reading::read;
use image::tree::{op, size, tag, Contract, Expr, Node, Stmt, StmtKind, Two};
use image::writing::write;
use oracle::walk::{walk, Path, Walk};
use oracle::{answer, Answer};

/// How many pieces a path has at most, so that every mask of every path can be tried.
const MOST_PIECES: usize = 9;

/// A variable beside a literal; its truth, and whether a checksig stands in the variable's place, do not change the size.
fn compared() -> Expr {
    Expr::two(Two::Compare(op::EQUAL), Expr::new(Node::Variable), Expr::new(Node::Boolean(false)))
}

/// The statements of a list with such a comparison in the place of each expression.
fn plain(list: &[Stmt]) -> Vec<Stmt> {
    let kind = |statement: &Stmt| match &statement.kind {
        StmtKind::If { then, otherwise, .. } => {
            StmtKind::If { condition: compared(), then: plain(then), otherwise: otherwise.as_deref().map(plain) }
        }
        StmtKind::Locktime { op, operand } => StmtKind::Locktime { op: *op, operand: *operand },
        StmtKind::Verify(_) => StmtKind::Verify(compared()),
        StmtKind::Return(_) => StmtKind::Return(compared()),
    };
    list.iter().map(|statement| Stmt::new(kind(statement))).collect()
}

/// Sets the literal of the comparison at an offset.
fn set_literal(image: &mut [u8], offset: usize, truth: bool) {
    image[offset + size::OPERATION + size::ITEM + size::BOOLEAN - 1] = truth as u8;
}

/// The image in which path `number` has one satisfying mask, the bit of its piece `wanted`, and no path before it has any: each of the
/// others returns whether a checksig is true.
fn image_for(plain: &[u8], paths: &[Path], number: usize, wanted: usize) -> Vec<u8> {
    let mut image = plain.to_vec();
    for path in paths {
        let returned = path.pieces[path.pieces.len() - 1].offset;
        image[returned + size::OPERATION] = tag::CHECKSIG;
        set_literal(&mut image, returned, true);
    }
    for (place, piece) in paths[number].pieces.iter().enumerate() {
        image[piece.offset + size::OPERATION] = tag::VARIABLE;
        set_literal(&mut image, piece.offset, (place == wanted) == piece.holds);
    }
    image
}

/// The path that fails and its mask, by the original.
fn failing(image: &[u8]) -> (usize, u64) {
    match answer(image).unwrap().answer {
        Answer::Judged(judged) if (judged.verdict, judged.reason) == (1, 2) => (judged.path, judged.mask),
        other => panic!("{other}"),
    }
}

#[test]
fn pieces_stand_in_the_order_of_translation() {
    let (mut contracts, mut mixed) = (0, 0);
    for case in cases(1, &Request { random: 400, ..Request::default() }) {
        let plain = write(&Contract { mode: 0, statements: plain(&read(&case.image).unwrap().statements) });
        let Walk::Paths(_, paths) = walk(&plain).unwrap() else { panic!("{}", case.kind) };
        if paths.is_empty() || paths.len() > 12 || paths.iter().any(|path| path.pieces.len() > MOST_PIECES) {
            continue;
        }
        for (number, path) in paths.iter().enumerate() {
            for wanted in 0..path.pieces.len() {
                assert_eq!(failing(&image_for(&plain, &paths, number, wanted)), (number, 1 << wanted), "{}: {path:?}", case.kind);
            }
            mixed += !path.pieces.is_sorted_by_key(|piece| piece.offset) as usize;
        }
        contracts += 1;
    }
    assert!(contracts >= 300 && mixed >= 150, "{contracts} contracts, {mixed} paths on which a verify stands before a condition");
}
