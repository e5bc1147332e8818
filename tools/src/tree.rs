//! A contract as a tree: the shapes of document 01's table of tags.

/// The number of each item in the column "Tag".
pub mod tag {
    pub const IF: u8 = 1;
    pub const LOCKTIME: u8 = 2;
    pub const VERIFY: u8 = 3;
    pub const RETURN: u8 = 4;
    pub const VARIABLE: u8 = 16;
    pub const NUMBER: u8 = 17;
    pub const BOOLEAN: u8 = 18;
    pub const STRING: u8 = 19;
    pub const LOGICAL: u8 = 20;
    pub const COMPARE: u8 = 21;
    pub const UNARY: u8 = 22;
    pub const BINARY: u8 = 23;
    pub const HASH: u8 = 24;
    pub const CHECKSIG: u8 = 25;
    pub const LENGTH: u8 = 26;
}

/// The greatest sizes; at each the next one up is refused.
pub mod most {
    pub const BYTES: usize = 32_768;
    pub const STATEMENTS: usize = 512;
    pub const NODES: usize = 1_024;
    pub const EXPRESSION_LEVEL: usize = 32;
    pub const STATEMENT_LEVEL: usize = 16;
    pub const PATHS: usize = 128;
}

/// How many bytes things take in an image.
pub mod size {
    pub const HEAD: usize = 8;
    /// What every item begins with, its tag and location: all of a variable and of a checksig, and all that a verify, a return and a
    /// length have before their operand.
    pub const ITEM: usize = 1 + 4 * 4;
    /// The count of an else block.
    pub const ELSE: usize = 2;
    /// An if without an else block, before its condition.
    pub const IF: usize = ITEM + 1 + 2;
    /// An if with an else block, before its condition.
    pub const IF_ELSE: usize = IF + ELSE;
    pub const LOCKTIME: usize = ITEM + 1 + 8;
    pub const NUMBER: usize = ITEM + 8;
    pub const BOOLEAN: usize = ITEM + 1;
    /// An empty string.
    pub const STRING: usize = ITEM + 2;
    /// An item with an op, before its operands.
    pub const OPERATION: usize = ITEM + 1;
}

/// Where an item stands in the source.
#[derive(Clone, Copy, Debug, Default, PartialEq, Eq, Hash)]
pub struct Location {
    pub start: u32,
    pub end: u32,
    pub line: u32,
    pub column: u32,
}

/// What an image carries.
#[derive(Clone, Debug, PartialEq)]
pub struct Contract {
    pub mode: u8,
    pub statements: Vec<Stmt>,
}

/// A statement.
#[derive(Clone, Debug, PartialEq)]
pub struct Stmt {
    pub location: Location,
    pub kind: StmtKind,
}

/// What a statement is; an op is as the image has it.
#[derive(Clone, Debug, PartialEq)]
pub enum StmtKind {
    If { condition: Expr, then: Vec<Stmt>, otherwise: Option<Vec<Stmt>> },
    Locktime { op: u8, operand: i64 },
    Verify(Expr),
    Return(Expr),
}

/// An expression.
#[derive(Clone, Debug, PartialEq)]
pub struct Expr {
    pub location: Location,
    pub node: Node,
}

/// What an expression is.
#[derive(Clone, Debug, PartialEq)]
pub enum Node {
    Variable,
    Number(i64),
    Boolean(bool),
    Bytes(Vec<u8>),
    Checksig,
    One(One, Box<Expr>),
    Two(Two, Box<Expr>, Box<Expr>),
}

/// An item with one operand, and its op as the image has it.
#[derive(Clone, Copy, Debug, PartialEq, Eq)]
pub enum One {
    Unary(u8),
    Hash(u8),
    Length,
}

/// An item with two operands, and its op as the image has it.
#[derive(Clone, Copy, Debug, PartialEq, Eq)]
pub enum Two {
    Logical(u8),
    Compare(u8),
    Binary(u8),
}

/// Ops that document 01's rules name: or, and, `!e`, and the two that compare with a boolean literal. Each counts within its own tag.
pub mod op {
    pub const OR: u8 = 0;
    pub const AND: u8 = 1;
    pub const EQUAL: u8 = 0;
    pub const NOT_EQUAL: u8 = 1;
    pub const NOT: u8 = 4;
}

/// How many ops each tag has: the first unknown one.
pub mod ops {
    pub const LOCKTIME: u8 = 2;
    pub const LOGICAL: u8 = 2;
    pub const COMPARE: u8 = 8;
    pub const UNARY: u8 = 5;
    pub const BINARY: u8 = 4;
    pub const HASH: u8 = 2;
}

impl One {
    /// How many bytes its item takes before its operand.
    pub fn size(self) -> usize {
        match self {
            One::Length => size::ITEM,
            One::Unary(_) | One::Hash(_) => size::OPERATION,
        }
    }
}

impl Node {
    /// How many bytes its item takes without its operands.
    pub fn size(&self) -> usize {
        match self {
            Node::Variable | Node::Checksig => size::ITEM,
            Node::Number(_) => size::NUMBER,
            Node::Boolean(_) => size::BOOLEAN,
            Node::Bytes(bytes) => size::STRING + bytes.len(),
            Node::One(op, _) => op.size(),
            Node::Two(..) => size::OPERATION,
        }
    }
}

impl Expr {
    /// An expression whose location is all zeros.
    pub fn new(node: Node) -> Expr {
        Expr { location: Location::default(), node }
    }

    /// An operation with one operand.
    pub fn one(op: One, operand: Expr) -> Expr {
        Expr::new(Node::One(op, Box::new(operand)))
    }

    /// An operation with two operands.
    pub fn two(op: Two, left: Expr, right: Expr) -> Expr {
        Expr::new(Node::Two(op, Box::new(left), Box::new(right)))
    }

    /// The same at another location.
    pub fn at(mut self, location: Location) -> Expr {
        self.location = location;
        self
    }

    /// Its operands, left before right.
    pub fn operands(&self) -> Vec<&Expr> {
        match &self.node {
            Node::One(_, operand) => vec![operand],
            Node::Two(_, left, right) => vec![left, right],
            _ => vec![],
        }
    }

    /// How many bytes it takes in the image.
    pub fn size(&self) -> usize {
        self.node.size() + self.operands().into_iter().map(Expr::size).sum::<usize>()
    }

    /// How many expression nodes it has.
    pub fn nodes(&self) -> usize {
        1 + self.operands().into_iter().map(Expr::nodes).sum::<usize>()
    }
}

impl Stmt {
    /// A statement whose location is all zeros.
    pub fn new(kind: StmtKind) -> Stmt {
        Stmt { location: Location::default(), kind }
    }

    /// The same at another location.
    pub fn at(mut self, location: Location) -> Stmt {
        self.location = location;
        self
    }

    /// How many bytes it takes in the image.
    pub fn size(&self) -> usize {
        match &self.kind {
            StmtKind::If { condition, then, otherwise: None } => size::IF + condition.size() + list_size(then),
            StmtKind::If { condition, then, otherwise: Some(block) } => {
                size::IF_ELSE + condition.size() + list_size(then) + list_size(block)
            }
            StmtKind::Locktime { .. } => size::LOCKTIME,
            StmtKind::Verify(expression) | StmtKind::Return(expression) => size::ITEM + expression.size(),
        }
    }
}

/// How many bytes a list takes in the image.
pub fn list_size(list: &[Stmt]) -> usize {
    list.iter().map(Stmt::size).sum()
}
