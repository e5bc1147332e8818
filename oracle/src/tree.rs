//! The tree of an image as the original's tree. A variable gets a name of its own, a checksig a dummy factor, and of a string only its
//! truth is kept: the original asks nothing else of them.

use bithoven::ast::*;
use image::tree::{self, Contract, Expr, Node, One, Stmt, StmtKind, Two};
use image::writing::{write_fields, FieldKind};

/// What the original's locations hold.
#[derive(Clone, Copy)]
pub enum Locations {
    /// The image's own.
    Own,
    /// In `start` the offset of the item's tag in the image, so that a place can be told.
    Offsets,
}

/// The statements of a contract.
pub fn statements(contract: &Contract, locations: Locations) -> Vec<Statement> {
    let fields = write_fields(contract).1;
    let tags: Vec<usize> = fields.iter().filter(|field| field.kind == FieldKind::Tag).map(|field| field.start).collect();
    Maker { mode: contract.mode, locations, tags: tags.into_iter(), variables: 0 }.list(&contract.statements)
}

struct Maker {
    mode: u8,
    locations: Locations,
    /// The offsets of the tags of the items still to come.
    tags: std::vec::IntoIter<usize>,
    variables: usize,
}

/// A location with zeros but in its start.
fn starting(start: usize) -> Location {
    Location { start, end: 0, line: 0, column: 0 }
}

impl Maker {
    /// The location of the next item.
    fn begin(&mut self, location: tree::Location) -> Location {
        let tag = self.tags.next().expect("every item has a tag");
        match self.locations {
            Locations::Offsets => starting(tag),
            Locations::Own => Location {
                start: location.start as usize,
                end: location.end as usize,
                line: location.line as usize,
                column: location.column as usize,
            },
        }
    }

    fn list(&mut self, list: &[Stmt]) -> Vec<Statement> {
        list.iter().map(|statement| self.statement(statement)).collect()
    }

    fn statement(&mut self, statement: &Stmt) -> Statement {
        let location = statement.location;
        match &statement.kind {
            StmtKind::If { condition, then, otherwise } => Statement::IfStatement {
                loc: self.begin(location),
                condition_expr: self.expression(condition),
                if_block: self.list(then),
                else_block: otherwise.as_ref().map(|block| self.list(block)),
            },
            StmtKind::Locktime { op, operand } => Statement::LocktimeStatement {
                loc: self.begin(location),
                operand: *operand,
                op: [LocktimeOp::Cltv, LocktimeOp::Csv][*op as usize].clone(),
            },
            StmtKind::Verify(expression) => Statement::VerifyStatement(self.begin(location), self.expression(expression)),
            StmtKind::Return(expression) => Statement::ExpressionStatement(self.begin(location), self.expression(expression)),
        }
    }

    fn expression(&mut self, expression: &Expr) -> Expression {
        let location = expression.location;
        match &expression.node {
            Node::Variable => Expression::Variable(self.begin(location), self.name()),
            Node::Number(value) => Expression::NumberLiteral(self.begin(location), *value),
            Node::Boolean(value) => Expression::BooleanLiteral(self.begin(location), *value),
            Node::Bytes(bytes) => Expression::StringLiteral(self.begin(location), self.string(bytes)),
            Node::Checksig => {
                Expression::CheckSigExpression { loc: self.begin(location), operand: Box::new(factor()), op: CheckSigOp::CheckSig }
            }
            Node::One(op, operand) => self.one(location, *op, operand),
            Node::Two(op, left, right) => self.two(location, *op, left, right),
        }
    }

    fn one(&mut self, location: tree::Location, op: One, operand: &Expr) -> Expression {
        let loc = self.begin(location);
        let operand = Box::new(self.expression(operand));
        match op {
            One::Unary(op) => Expression::UnaryMathExpression { loc, operand, op: UNARY[op as usize].clone() },
            One::Hash(op) => Expression::UnaryCryptoExpression { loc, operand, op: HASH[op as usize].clone() },
            One::Length => Expression::ByteExpression { loc, operand, op: ByteOp::Size },
        }
    }

    fn two(&mut self, location: tree::Location, op: Two, left: &Expr, right: &Expr) -> Expression {
        let loc = self.begin(location);
        let lhs = Box::new(self.expression(left));
        let rhs = Box::new(self.expression(right));
        match op {
            Two::Logical(op) => Expression::LogicalExpression { loc, lhs, op: LOGICAL[op as usize].clone(), rhs },
            Two::Compare(op) => Expression::CompareExpression { loc, lhs, op: COMPARE[op as usize].clone(), rhs },
            Two::Binary(op) => Expression::BinaryMathExpression { loc, lhs, op: BINARY[op as usize].clone(), rhs },
        }
    }

    fn name(&mut self) -> Identifier {
        self.variables += 1;
        Identifier(format!("x{}", self.variables))
    }

    /// A string that the original counts as true exactly when document 01 counts the pushed bytes so. In mode 0 the rule is the
    /// original's own; the original has no mode 1, so for that mode this one rule is taken from document 01.
    fn string(&self, bytes: &[u8]) -> String {
        let truth = match self.mode {
            0 => !bytes.is_empty(),
            _ => bytes.iter().any(|byte| *byte != 0),
        };
        if truth {
            "x".to_string()
        } else {
            String::new()
        }
    }
}

fn factor() -> Factor {
    let nothing = || Box::new(Expression::BooleanLiteral(starting(0), false));
    Factor::SingleSigFactor { loc: starting(0), sig: nothing(), pubkey: nothing() }
}

// The ops in document 01's numbering.
const LOGICAL: [BinaryLogicalOp; 2] = [BinaryLogicalOp::BoolOr, BinaryLogicalOp::BoolAnd];
const COMPARE: [BinaryCompareOp; 8] = [
    BinaryCompareOp::Equal,
    BinaryCompareOp::NotEqual,
    BinaryCompareOp::Greater,
    BinaryCompareOp::GreaterOrEqual,
    BinaryCompareOp::Less,
    BinaryCompareOp::LessOrEqual,
    BinaryCompareOp::NumEqual,
    BinaryCompareOp::NumNotEqual,
];
const UNARY: [UnaryMathOp; 5] = [UnaryMathOp::Add, UnaryMathOp::Sub, UnaryMathOp::Negate, UnaryMathOp::Abs, UnaryMathOp::Not];
const BINARY: [BinaryMathOp; 4] = [BinaryMathOp::Add, BinaryMathOp::Sub, BinaryMathOp::Max, BinaryMathOp::Min];
const HASH: [UnaryCryptoOp; 2] = [UnaryCryptoOp::Sha256, UnaryCryptoOp::Ripemd160];
