//! A short notation for contracts in document 01's words, "c is a checksig, x a variable", and for images that no contract has.

use crate::tree::*;
use crate::writing::write;

/// The location of the item that a case is about, where every other location is another.
pub const MARKED: Location = Location { start: 1, end: 2, line: 3, column: 4 };

/// A checksig.
pub fn c() -> Expr {
    Expr::new(Node::Checksig)
}

/// A variable.
pub fn x() -> Expr {
    Expr::new(Node::Variable)
}

/// The literal true.
pub fn yes() -> Expr {
    Expr::new(Node::Boolean(true))
}

/// The literal false.
pub fn no() -> Expr {
    Expr::new(Node::Boolean(false))
}

/// A number.
pub fn lit(value: i64) -> Expr {
    Expr::new(Node::Number(value))
}

/// A string.
pub fn text(bytes: &[u8]) -> Expr {
    Expr::new(Node::Bytes(bytes.to_vec()))
}

/// `left or right`.
pub fn or(left: Expr, right: Expr) -> Expr {
    Expr::two(Two::Logical(op::OR), left, right)
}

/// `left and right`.
pub fn and(left: Expr, right: Expr) -> Expr {
    Expr::two(Two::Logical(op::AND), left, right)
}

/// A comparison with any op.
pub fn compare(op: u8, left: Expr, right: Expr) -> Expr {
    Expr::two(Two::Compare(op), left, right)
}

/// `left == right`.
pub fn equal(left: Expr, right: Expr) -> Expr {
    compare(op::EQUAL, left, right)
}

/// A unary operation with any op.
pub fn unary(op: u8, operand: Expr) -> Expr {
    Expr::one(One::Unary(op), operand)
}

/// `!operand`.
pub fn not(operand: Expr) -> Expr {
    unary(op::NOT, operand)
}

/// Arithmetic with any op.
pub fn binary(op: u8, left: Expr, right: Expr) -> Expr {
    Expr::two(Two::Binary(op), left, right)
}

/// `left + right`.
pub fn plus(left: Expr, right: Expr) -> Expr {
    binary(0, left, right)
}

/// `sha256(operand)`.
pub fn hash(operand: Expr) -> Expr {
    Expr::one(One::Hash(0), operand)
}

/// The length of its operand.
pub fn length(operand: Expr) -> Expr {
    Expr::one(One::Length, operand)
}

/// A locktime.
pub fn lock() -> Stmt {
    Stmt::new(StmtKind::Locktime { op: 0, operand: 0 })
}

/// A verify.
pub fn verify(expression: Expr) -> Stmt {
    Stmt::new(StmtKind::Verify(expression))
}

/// A return.
pub fn ret(expression: Expr) -> Stmt {
    Stmt::new(StmtKind::Return(expression))
}

/// An if without an else block.
pub fn ifs(condition: Expr, then: Vec<Stmt>) -> Stmt {
    Stmt::new(StmtKind::If { condition, then, otherwise: None })
}

/// An if with both blocks.
pub fn ifelse(condition: Expr, then: Vec<Stmt>, otherwise: Vec<Stmt>) -> Stmt {
    Stmt::new(StmtKind::If { condition, then, otherwise: Some(otherwise) })
}

/// The image of a contract.
pub fn image(mode: u8, statements: Vec<Stmt>) -> Vec<u8> {
    write(&Contract { mode, statements })
}

/// `count` times the same statement.
pub fn times(count: usize, statement: Stmt) -> Vec<Stmt> {
    vec![statement; count]
}

/// `count` times an operation around its operand.
pub fn around(count: usize, op: One, operand: Expr) -> Expr {
    (0..count).fold(operand, |inner, _| Expr::one(op, inner))
}

/// `count` operations, each the left operand of the one before.
pub fn leftward(count: usize, op: Two, leaf: Expr) -> Expr {
    (0..count).fold(leaf.clone(), |inner, _| Expr::two(op, inner, leaf.clone()))
}

/// `count` operations, each the right operand of the one before.
pub fn rightward(count: usize, op: Two, leaf: Expr) -> Expr {
    (0..count).fold(leaf.clone(), |inner, _| Expr::two(op, leaf.clone(), inner))
}

/// So many variables, joined by and to the left.
pub fn variables(count: usize) -> Expr {
    leftward(count - 1, Two::Logical(op::AND), x())
}

/// A full tree of 2^n variables, which has 2^(n+1) - 1 nodes.
pub fn full(n: usize) -> Expr {
    match n {
        0 => x(),
        _ => or(full(n - 1), full(n - 1)),
    }
}

/// Verifies of full trees with so many nodes in all, as few as can be.
pub fn verifies_of(nodes: usize) -> Vec<Stmt> {
    let mut left = nodes;
    let mut list = vec![];
    while left > 0 {
        let tree = full((left + 1).ilog2() as usize - 1);
        left -= tree.nodes();
        list.push(verify(tree));
    }
    list
}

/// So many paths, by an if with the condition at each fork; each path ends in a return of the same.
pub fn forking(paths: usize, condition: &Expr, returned: &Expr) -> Vec<Stmt> {
    let part = |paths: usize| forking(paths, condition, returned);
    match paths {
        1 => vec![ret(returned.clone())],
        _ => vec![ifelse(condition.clone(), part(paths / 2), part(paths - paths / 2))],
    }
}

/// 2^n paths.
pub fn forks(n: usize) -> Vec<Stmt> {
    forking(1 << n, &yes(), &c())
}

/// 129 paths.
pub fn too_many_paths() -> Vec<Stmt> {
    vec![ifelse(yes(), forks(7), forks(0))]
}

/// An image made piece by piece; its length so far is the place of the item that follows.
#[derive(Clone)]
pub struct Draft {
    pub bytes: Vec<u8>,
}

impl Draft {
    /// A head with a count of top statements.
    pub fn head(mode: u8, count: u16) -> Draft {
        let draft = Draft { bytes: b"BVN\x00\x01".to_vec() };
        draft.byte(mode).number16(count)
    }

    /// Where the next item stands.
    pub fn place(&self) -> usize {
        self.bytes.len()
    }

    /// Any bytes.
    pub fn raw(mut self, bytes: &[u8]) -> Draft {
        self.bytes.extend(bytes);
        self
    }

    /// One byte.
    pub fn byte(self, byte: u8) -> Draft {
        self.raw(&[byte])
    }

    /// A 16-bit number.
    pub fn number16(self, number: u16) -> Draft {
        self.raw(&number.to_be_bytes())
    }

    /// An item's tag and a location of zeros.
    pub fn item(self, tag: u8) -> Draft {
        self.byte(tag).raw(&[0; size::ITEM - 1])
    }

    /// A whole expression.
    pub fn expression(self, expression: &Expr) -> Draft {
        let image = image(0, vec![ret(expression.clone())]);
        self.raw(&image[size::HEAD + size::ITEM..])
    }

    /// Whole statements.
    pub fn statements(self, statements: &[Stmt]) -> Draft {
        let image = image(0, statements.to_vec());
        self.raw(&image[size::HEAD..])
    }

    /// So many ifs, each the only statement of the block before; their condition is a checksig.
    pub fn nest(self, count: usize) -> Draft {
        (0..count).fold(self, |draft, _| draft.item(tag::IF).byte(0).number16(1).expression(&c()))
    }

    /// So many operations `!`, up to the innermost operand.
    pub fn nots(self, count: usize) -> Draft {
        (0..count).fold(self, |draft, _| draft.item(tag::UNARY).byte(op::NOT))
    }
}
