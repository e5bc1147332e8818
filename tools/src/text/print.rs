//! A contract to its text. The reader of images counts the same lines, so that a fault can name one.

use super::words;
use crate::tree::*;

/// The canonical text of a contract.
pub fn print(contract: &Contract) -> String {
    let mut out = format!("mode {}\n", contract.mode);
    list(&mut out, &contract.statements, 0);
    out
}

/// Statements, one after the other, each `depth` blocks in.
fn list(out: &mut String, statements: &[Stmt], depth: usize) {
    for item in statements {
        statement(out, item, depth);
    }
}

/// A line at its depth.
fn line(out: &mut String, depth: usize, text: &str) {
    out.push_str(&"    ".repeat(depth));
    out.push_str(text);
    out.push('\n');
}

/// A statement on its line, an if with the lines of its blocks.
fn statement(out: &mut String, statement: &Stmt, depth: usize) {
    let at = location(statement.location);
    match &statement.kind {
        StmtKind::If { condition, then, otherwise } => {
            line(out, depth, &format!("if{at} {} {{", expression(condition)));
            list(out, then, depth + 1);
            if let Some(block) = otherwise {
                line(out, depth, "} else {");
                list(out, block, depth + 1);
            }
            line(out, depth, "}");
        }
        StmtKind::Locktime { op, operand } => line(out, depth, &format!("{}{at} {operand}", words::of_locktime(*op))),
        StmtKind::Verify(operand) => line(out, depth, &format!("verify{at} {}", expression(operand))),
        StmtKind::Return(operand) => line(out, depth, &format!("return{at} {}", expression(operand))),
    }
}

/// A location behind its item; nothing if it is all zeros.
fn location(location: Location) -> String {
    let Location { start, end, line, column } = location;
    if location == Location::default() {
        return String::new();
    }
    format!("@{start}-{end}:{line}:{column}")
}

/// An expression, with every pair of operands in parentheses.
fn expression(expression: &Expr) -> String {
    let at = location(expression.location);
    match &expression.node {
        Node::Variable => format!("variable{at}"),
        Node::Checksig => format!("checksig{at}"),
        Node::Number(value) => format!("{value}{at}"),
        Node::Boolean(value) => format!("{value}{at}"),
        Node::Bytes(bytes) => format!("bytes({}){at}", hex(bytes)),
        Node::One(op, operand) => format!("{}{at}({})", words::of_one(*op), self::expression(operand)),
        Node::Two(op, left, right) => format!("({} {}{at} {})", self::expression(left), words::of_two(*op), self::expression(right)),
    }
}

/// Bytes as hex digits in lower case.
fn hex(bytes: &[u8]) -> String {
    bytes.iter().map(|byte| format!("{byte:02x}")).collect()
}
