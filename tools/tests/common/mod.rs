//! What the tests of the text form share: statements of every kind, and the program `contract`.

use std::io::Write;
use std::process::{Command, Output, Stdio};

use image::tree::*;

/// The extremes of a number, and some between.
pub const NUMBERS: [i64; 7] = [i64::MIN, i64::MIN + 1, -1, 0, 1, 255, i64::MAX];

/// An expression as deep as can be.
pub fn deepest() -> Expr {
    (1..most::EXPRESSION_LEVEL).fold(Expr::new(Node::Variable), |inner, _| Expr::one(One::Unary(op::NOT), inner))
}

/// So many ifs inside each other, all by their if blocks or all by their else blocks; the innermost has an empty one.
pub fn nested(levels: usize, by_else: bool) -> Stmt {
    let around = |block: Vec<Stmt>| if by_else { branch(vec![], Some(block)) } else { branch(block, None) };
    (1..levels).fold(around(vec![]), |inner, _| around(vec![inner]))
}

/// An if on a variable.
pub fn branch(then: Vec<Stmt>, otherwise: Option<Vec<Stmt>>) -> Stmt {
    Stmt::new(StmtKind::If { condition: Expr::new(Node::Variable), then, otherwise })
}

/// A return of a variable.
pub fn end() -> Stmt {
    Stmt::new(StmtKind::Return(Expr::new(Node::Variable)))
}

/// Every statement.
pub fn statements() -> Vec<Stmt> {
    let locktimes = (0..ops::LOCKTIME).flat_map(|op| NUMBERS.map(|operand| Stmt::new(StmtKind::Locktime { op, operand })));
    let blocks = [vec![], vec![end()], vec![end(), end(), branch(vec![], None)]];
    let ifs = blocks.iter().flat_map(|then| {
        let otherwise = blocks.iter().cloned().map(Some).chain([None]);
        otherwise.map(|block| branch(then.clone(), block))
    });
    let deep = [false, true].map(|by_else| nested(most::STATEMENT_LEVEL, by_else));
    let ends = [end(), Stmt::new(StmtKind::Verify(deepest())), Stmt::new(StmtKind::Return(deepest()))];
    locktimes.chain(ifs).chain(deep).chain(ends).collect()
}

/// The program on some input.
pub fn output(words: &[&str], input: &[u8]) -> Output {
    let mut command = Command::new(env!("CARGO_BIN_EXE_contract"));
    let piped = command.args(words).stdin(Stdio::piped()).stdout(Stdio::piped()).stderr(Stdio::piped());
    let mut child = piped.spawn().unwrap();
    let mut stdin = child.stdin.take().unwrap();
    let input = input.to_vec();
    // the program need not read all of it
    let writer = std::thread::spawn(move || stdin.write_all(&input).is_ok());
    let output = child.wait_with_output().unwrap();
    writer.join().unwrap();
    output
}

/// The program with one word: exit status, standard output and standard error.
pub fn run(word: &str, input: &[u8]) -> (i32, Vec<u8>, String) {
    let output = output(&[word], input);
    (output.status.code().unwrap(), output.stdout, String::from_utf8(output.stderr).unwrap())
}
