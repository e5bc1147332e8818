//! A contract to its image, and where each field of the image stands.

use crate::tree::*;

/// What a field of an image holds.
#[derive(Clone, Copy, Debug, PartialEq, Eq)]
pub enum FieldKind {
    Mark,
    Version,
    Mode,
    Tag,
    /// One of a location's four numbers.
    Location,
    /// The count of the top list, or of a block.
    Count,
    Flag,
    Op,
    Number,
    Boolean,
    Length,
    Bytes,
}

/// A field: the offset of its item's tag (of a head field: its own), its first byte, and its length.
#[derive(Clone, Copy, Debug, PartialEq, Eq)]
pub struct Field {
    pub kind: FieldKind,
    pub item: usize,
    pub start: usize,
    pub length: usize,
}

/// The image of a contract.
///
/// # Panics
///
/// If a list has over 65,535 statements or a string over 65,535 bytes: their fields have 16 bits.
pub fn write(contract: &Contract) -> Vec<u8> {
    write_fields(contract).0
}

/// The image with its fields in order.
///
/// # Panics
///
/// Where `write` does.
pub fn write_fields(contract: &Contract) -> (Vec<u8>, Vec<Field>) {
    let mut out = Writer { bytes: vec![], fields: vec![], item: 0 };
    out.head(FieldKind::Mark, b"BVN");
    out.head(FieldKind::Version, &1u16.to_be_bytes());
    out.head(FieldKind::Mode, &[contract.mode]);
    out.head(FieldKind::Count, &count(&contract.statements));
    out.statements(&contract.statements);
    (out.bytes, out.fields)
}

/// The count field of a list.
fn count(list: &[Stmt]) -> [u8; 2] {
    u16::try_from(list.len()).expect("a list's count has 16 bits").to_be_bytes()
}

/// The image so far with its fields, and where the item begins that is being written.
struct Writer {
    bytes: Vec<u8>,
    fields: Vec<Field>,
    item: usize,
}

impl Writer {
    /// A field of the item.
    fn field(&mut self, kind: FieldKind, bytes: &[u8]) {
        self.fields.push(Field { kind, item: self.item, start: self.bytes.len(), length: bytes.len() });
        self.bytes.extend(bytes);
    }

    /// A field of the head, or a tag: it is its own item's first.
    fn head(&mut self, kind: FieldKind, bytes: &[u8]) {
        self.item = self.bytes.len();
        self.field(kind, bytes);
    }

    /// What every item begins with.
    fn begin(&mut self, tag: u8, location: Location) {
        self.head(FieldKind::Tag, &[tag]);
        for number in [location.start, location.end, location.line, location.column] {
            self.field(FieldKind::Location, &number.to_be_bytes());
        }
    }

    /// A list.
    fn statements(&mut self, list: &[Stmt]) {
        for statement in list {
            self.statement(statement);
        }
    }

    /// A statement with all that is in it.
    fn statement(&mut self, statement: &Stmt) {
        match &statement.kind {
            StmtKind::If { condition, then, otherwise } => {
                self.begin(tag::IF, statement.location);
                self.field(FieldKind::Flag, &[otherwise.is_some() as u8]);
                self.field(FieldKind::Count, &count(then));
                if let Some(block) = otherwise {
                    self.field(FieldKind::Count, &count(block));
                }
                self.expression(condition);
                self.statements(then);
                self.statements(otherwise.as_deref().unwrap_or(&[]));
            }
            StmtKind::Locktime { op, operand } => {
                self.begin(tag::LOCKTIME, statement.location);
                self.field(FieldKind::Op, &[*op]);
                self.field(FieldKind::Number, &operand.to_be_bytes());
            }
            StmtKind::Verify(expression) => {
                self.begin(tag::VERIFY, statement.location);
                self.expression(expression);
            }
            StmtKind::Return(expression) => {
                self.begin(tag::RETURN, statement.location);
                self.expression(expression);
            }
        }
    }

    /// An expression with its operands.
    fn expression(&mut self, expression: &Expr) {
        let (tag, op) = tag_and_op(&expression.node);
        self.begin(tag, expression.location);
        if let Some(op) = op {
            self.field(FieldKind::Op, &[op]);
        }
        match &expression.node {
            Node::Number(value) => self.field(FieldKind::Number, &value.to_be_bytes()),
            Node::Boolean(value) => self.field(FieldKind::Boolean, &[*value as u8]),
            Node::Bytes(bytes) => {
                let length = u16::try_from(bytes.len()).expect("a string's length has 16 bits");
                self.field(FieldKind::Length, &length.to_be_bytes());
                self.field(FieldKind::Bytes, bytes);
            }
            _ => {}
        }
        for operand in expression.operands() {
            self.expression(operand);
        }
    }
}

/// An item's tag, and its op if it has one.
pub fn tag_and_op(node: &Node) -> (u8, Option<u8>) {
    match node {
        Node::Variable => (tag::VARIABLE, None),
        Node::Number(_) => (tag::NUMBER, None),
        Node::Boolean(_) => (tag::BOOLEAN, None),
        Node::Bytes(_) => (tag::STRING, None),
        Node::Checksig => (tag::CHECKSIG, None),
        Node::One(One::Unary(op), _) => (tag::UNARY, Some(*op)),
        Node::One(One::Hash(op), _) => (tag::HASH, Some(*op)),
        Node::One(One::Length, _) => (tag::LENGTH, None),
        Node::Two(Two::Logical(op), ..) => (tag::LOGICAL, Some(*op)),
        Node::Two(Two::Compare(op), ..) => (tag::COMPARE, Some(*op)),
        Node::Two(Two::Binary(op), ..) => (tag::BINARY, Some(*op)),
    }
}
