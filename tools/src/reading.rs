//! Any bytes to a contract, or to the first fault in document 01's order: "8, 1, 2, then reading order; at an item: tag missing
//! (3, place is the image length), tag unknown (4), level (5), count (6), fields one by one (3 before 4). Then 7".

use crate::tree::*;
use std::ops::RangeInclusive;

/// What can be wrong with the bytes of an image.
#[derive(Clone, Copy, Debug, PartialEq, Eq)]
pub enum Kind {
    TooLong,
    NotMarked,
    OtherVersion,
    BadMode,
    LeftOver,
    TagMissing,
    TagUnknown,
    TooDeep,
    TooMany,
    CutShort,
    OpUnknown,
    BadFlag,
    BadBoolean,
}

/// A fault: the offset of the item that has it, the first byte of the field, and the line that the item would have in the text form.
#[derive(Clone, Copy, Debug, PartialEq, Eq)]
pub struct Fault {
    pub kind: Kind,
    pub item: usize,
    pub field: usize,
    pub line: usize,
}

impl Fault {
    /// The column "No." of document 01's table.
    pub fn number(&self) -> u32 {
        match self.kind {
            Kind::NotMarked => 1,
            Kind::OtherVersion => 2,
            Kind::TagMissing | Kind::CutShort => 3,
            Kind::TagUnknown | Kind::OpUnknown | Kind::BadFlag | Kind::BadMode | Kind::BadBoolean => 4,
            Kind::TooDeep => 5,
            Kind::TooMany => 6,
            Kind::LeftOver => 7,
            Kind::TooLong => 8,
        }
    }

    /// The column "Place".
    pub fn place(&self) -> usize {
        self.item
    }
}

/// What was read, or the first fault.
type Read<T> = Result<T, Fault>;

/// The contract that the bytes are, or the first fault.
pub fn read(bytes: &[u8]) -> Read<Contract> {
    let mut input = Reader { bytes, at: 0, statements: 0, nodes: 0, line: 1 };
    input.refuse_if(bytes.len() > most::BYTES, Kind::TooLong, 0, 0)?;
    input.refuse_if(!bytes.starts_with(b"BVN"), Kind::NotMarked, 0, 0)?;
    input.at = 3;
    let version = input.number16(3)?;
    input.refuse_if(version != 1, Kind::OtherVersion, 3, 3)?;
    let mode = input.code(Kind::BadMode, 5, 2)?;
    let count = input.number16(6)?;
    let statements = input.list(count, most::STATEMENT_LEVEL)?;
    input.refuse_if(input.at < bytes.len(), Kind::LeftOver, input.at, input.at)?;
    Ok(Contract { mode, statements })
}

/// The bytes, where the next field stands, what has been counted, and the line that the item has in the text form.
struct Reader<'a> {
    bytes: &'a [u8],
    at: usize,
    statements: usize,
    nodes: usize,
    line: usize,
}

impl<'a> Reader<'a> {
    /// A fault if a test holds.
    fn refuse_if(&self, test: bool, kind: Kind, item: usize, field: usize) -> Read<()> {
        if test {
            return Err(Fault { kind, item, field, line: self.line });
        }
        Ok(())
    }

    /// The next field of an item.
    fn field(&mut self, item: usize, length: usize) -> Read<&'a [u8]> {
        self.refuse_if(self.bytes.len() - self.at < length, Kind::CutShort, item, self.at)?;
        let field = &self.bytes[self.at..self.at + length];
        self.at += length;
        Ok(field)
    }

    /// A 16-bit number.
    fn number16(&mut self, item: usize) -> Read<usize> {
        let field = self.field(item, 2)?;
        Ok(u16::from_be_bytes(field.try_into().unwrap()) as usize)
    }

    /// A 32-bit number.
    fn number32(&mut self, item: usize) -> Read<u32> {
        let field = self.field(item, 4)?;
        Ok(u32::from_be_bytes(field.try_into().unwrap()))
    }

    /// A 64-bit number.
    fn number64(&mut self, item: usize) -> Read<i64> {
        let field = self.field(item, 8)?;
        Ok(i64::from_be_bytes(field.try_into().unwrap()))
    }

    /// An op, flag, mode or boolean: a byte below `below`.
    fn code(&mut self, kind: Kind, item: usize, below: u8) -> Read<u8> {
        let field = self.at;
        let code = self.field(item, 1)?[0];
        self.refuse_if(code >= below, kind, item, field)?;
        Ok(code)
    }

    /// What every item begins with: tag missing, tag unknown, level, count, location. Gives where it stands, its tag and its location.
    fn begin(&mut self, known: RangeInclusive<u8>, level_left: usize, full: bool) -> Read<(usize, u8, Location)> {
        let item = self.at;
        self.refuse_if(item == self.bytes.len(), Kind::TagMissing, item, item)?;
        let tag = self.bytes[item];
        self.refuse_if(!known.contains(&tag), Kind::TagUnknown, item, item)?;
        self.refuse_if(level_left == 0, Kind::TooDeep, item, item)?;
        self.refuse_if(full, Kind::TooMany, item, item)?;
        self.at += 1;
        Ok((item, tag, self.location(item)?))
    }

    /// The location, behind the tag at `item`.
    fn location(&mut self, item: usize) -> Read<Location> {
        Ok(Location { start: self.number32(item)?, end: self.number32(item)?, line: self.number32(item)?, column: self.number32(item)? })
    }

    /// A list of so many statements.
    fn list(&mut self, count: usize, level_left: usize) -> Read<Vec<Stmt>> {
        (0..count).map(|_| self.statement(level_left)).collect()
    }

    /// A statement at its level.
    fn statement(&mut self, level_left: usize) -> Read<Stmt> {
        self.line += 1;
        let full = self.statements == most::STATEMENTS;
        let (item, tag, location) = self.begin(tag::IF..=tag::RETURN, level_left, full)?;
        self.statements += 1;
        let kind = match tag {
            tag::IF => self.branches(item, level_left)?,
            tag::LOCKTIME => StmtKind::Locktime { op: self.op(item, ops::LOCKTIME)?, operand: self.number64(item)? },
            tag::VERIFY => StmtKind::Verify(self.root()?),
            _ => StmtKind::Return(self.root()?),
        };
        Ok(Stmt { location, kind })
    }

    /// The fields, condition and blocks of an if.
    fn branches(&mut self, item: usize, level_left: usize) -> Read<StmtKind> {
        let flag = self.code(Kind::BadFlag, item, 2)?;
        let then_count = self.number16(item)?;
        let else_count = if flag == 1 { Some(self.number16(item)?) } else { None };
        let condition = self.root()?;
        let then = self.list(then_count, level_left - 1)?;
        self.line += 1;
        let otherwise = match else_count {
            Some(count) => {
                let block = self.list(count, level_left - 1)?;
                self.line += 1;
                Some(block)
            }
            None => None,
        };
        Ok(StmtKind::If { condition, then, otherwise })
    }

    /// The expression of a statement.
    fn root(&mut self) -> Read<Expr> {
        self.expression(most::EXPRESSION_LEVEL)
    }

    /// An expression at its level.
    fn expression(&mut self, level_left: usize) -> Read<Expr> {
        let full = self.nodes == most::NODES;
        let (item, tag, location) = self.begin(tag::VARIABLE..=tag::LENGTH, level_left, full)?;
        self.nodes += 1;
        let node = match tag {
            tag::UNARY | tag::HASH | tag::LENGTH => {
                let op = self.one_op(tag, item)?;
                self.one(op, level_left)?
            }
            tag::LOGICAL | tag::COMPARE | tag::BINARY => {
                let op = self.two_op(tag, item)?;
                self.two(op, level_left)?
            }
            _ => self.leaf(tag, item)?,
        };
        Ok(Expr { location, node })
    }

    /// The fields of an item without operands.
    fn leaf(&mut self, tag: u8, item: usize) -> Read<Node> {
        Ok(match tag {
            tag::VARIABLE => Node::Variable,
            tag::NUMBER => Node::Number(self.number64(item)?),
            tag::BOOLEAN => Node::Boolean(self.code(Kind::BadBoolean, item, 2)? == 1),
            tag::STRING => {
                let length = self.number16(item)?;
                Node::Bytes(self.field(item, length)?.to_vec())
            }
            _ => Node::Checksig,
        })
    }

    /// An op, of which there are so many.
    fn op(&mut self, item: usize, below: u8) -> Read<u8> {
        self.code(Kind::OpUnknown, item, below)
    }

    /// The op of an item with one operand.
    fn one_op(&mut self, tag: u8, item: usize) -> Read<One> {
        Ok(match tag {
            tag::UNARY => One::Unary(self.op(item, ops::UNARY)?),
            tag::HASH => One::Hash(self.op(item, ops::HASH)?),
            _ => One::Length,
        })
    }

    /// The op of an item with two operands.
    fn two_op(&mut self, tag: u8, item: usize) -> Read<Two> {
        Ok(match tag {
            tag::LOGICAL => Two::Logical(self.op(item, ops::LOGICAL)?),
            tag::COMPARE => Two::Compare(self.op(item, ops::COMPARE)?),
            _ => Two::Binary(self.op(item, ops::BINARY)?),
        })
    }

    /// One operand, a level deeper.
    fn one(&mut self, op: One, level_left: usize) -> Read<Node> {
        let operand = self.expression(level_left - 1)?;
        Ok(Node::One(op, Box::new(operand)))
    }

    /// Two operands, a level deeper.
    fn two(&mut self, op: Two, level_left: usize) -> Read<Node> {
        let left = self.expression(level_left - 1)?;
        let right = self.expression(level_left - 1)?;
        Ok(Node::Two(op, Box::new(left), Box::new(right)))
    }
}
