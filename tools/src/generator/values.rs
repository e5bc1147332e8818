//! Random expressions whose value matters, not their structure: a constant by folding, an overflow, or a Free atom.

use super::expressions::{Maker, Part};
use crate::tree::*;

/// The bytes of an operation on two numbers, the longest overflow.
pub const TWO_NUMBERS: usize = size::OPERATION + 2 * size::NUMBER;
/// Room for an overflow that folding does not reach; the longest stands beside an empty string.
const UNREACHED: usize = 110;

/// What the subtree of an expression that is not taken by structure may hold.
#[derive(Clone, Copy, PartialEq)]
pub enum Stock {
    /// Numbers and booleans: it folds, or overflows.
    Numbers,
    /// Strings, hashes and lengths too.
    Strings,
    /// Variables and checksigs too.
    All,
}

impl Maker<'_> {
    /// An expression that is not taken by structure.
    pub fn abstracted(&mut self, part: Part) -> Expr {
        if part.atoms > 0 && part.room >= UNREACHED && part.levels > 3 && self.rng.percent(12) {
            return self.unreached(part);
        }
        if self.overflowing && part.room >= TWO_NUMBERS && self.rng.percent(40) {
            return self.overflow();
        }
        let stock = match part.atoms {
            0 => Stock::Numbers,
            _ => self.rng.weighted(&[(4, Stock::Numbers), (2, Stock::Strings), (4, Stock::All)]),
        };
        let expression = match self.rng.below(3) {
            0 => self.value_of_one(part, stock),
            _ if part.holds_two() => self.value_of_two(part, stock),
            _ => self.value_of_one(part, stock),
        };
        self.within(part, expression)
    }

    /// Any expression whose value matters, not its structure.
    pub fn value(&mut self, part: Part, stock: Stock) -> Expr {
        if !part.holds_one() || self.rng.percent(self.habit.stop) {
            return self.value_leaf(part, stock);
        }
        if !part.holds_two() || self.rng.percent(self.habit.ones) {
            return self.value_of_one(part, stock);
        }
        self.value_of_two(part, stock)
    }

    /// An operation with one operand, of any kind in stock.
    fn value_of_one(&mut self, part: Part, stock: Stock) -> Expr {
        let strings = (stock != Stock::Numbers) as usize;
        let unary = self.rng.below(ops::UNARY as usize) as u8;
        let hash = self.rng.below(ops::HASH as usize) as u8;
        let op = self.rng.weighted(&[(6, One::Unary(unary)), (2 * strings, One::Hash(hash)), (strings, One::Length)]);
        let operand = self.value(part.inner(), stock);
        self.one(op, operand)
    }

    /// An operation with two operands, of any kind.
    fn value_of_two(&mut self, part: Part, stock: Stock) -> Expr {
        let inner = part.inner();
        let share = Part { room: self.left_room(inner.room), ..inner };
        let left = self.value(share, stock);
        let right = self.value(Part { room: inner.room - left.size(), ..inner }, stock);
        let op = match self.rng.below(6) {
            0 => Two::Logical(self.rng.below(ops::LOGICAL as usize) as u8),
            1 | 2 => Two::Compare(self.rng.below(ops::COMPARE as usize) as u8),
            _ => Two::Binary(self.rng.below(ops::BINARY as usize) as u8),
        };
        self.two(op, left, right)
    }

    /// A leaf of any kind in stock.
    fn value_leaf(&mut self, part: Part, stock: Stock) -> Expr {
        let number = (part.room >= size::NUMBER) as usize;
        let string = (part.room >= size::STRING && stock != Stock::Numbers) as usize;
        let variable = (stock == Stock::All) as usize;
        let sig = (stock == Stock::All && part.sigs) as usize;
        match self.rng.weighted(&[(50 * number, 0), (12, 1), (18 * string, 2), (15 * variable, 3), (15 * sig, 4)]) {
            0 => self.number(),
            1 => self.boolean(),
            2 => self.string(part.room),
            3 => self.put(Node::Variable),
            _ => self.put(Node::Checksig),
        }
    }

    /// An operation on literals that leaves 64 bits, in at most `TWO_NUMBERS` bytes and 2 levels.
    pub fn overflow(&mut self) -> Expr {
        const ONES: [(u8, i64); 4] = [(0, i64::MAX), (1, i64::MIN), (2, i64::MIN), (3, i64::MIN)];
        const TWOS: [(u8, i64, i64); 5] = [(0, i64::MAX, 1), (0, i64::MIN, -1), (1, i64::MIN, 1), (1, i64::MAX, -1), (1, 0, i64::MIN)];
        if self.rng.percent(50) {
            let (op, value) = self.rng.pick(&ONES);
            let operand = self.put(Node::Number(value));
            return self.one(One::Unary(op), operand);
        }
        let (op, left, right) = self.rng.pick(&TWOS);
        let (left, right) = (self.put(Node::Number(left)), self.put(Node::Number(right)));
        self.two(Two::Binary(op), left, right)
    }

    /// A Free atom with an overflow that folding does not reach, in at most `UNREACHED` bytes and 3 levels.
    fn unreached(&mut self, part: Part) -> Expr {
        let inner = self.overflow();
        let op = match self.rng.percent(50) {
            true => Two::Compare(self.rng.between(2, 7) as u8),
            false => Two::Binary(self.rng.below(ops::BINARY as usize) as u8),
        };
        let beside = match self.rng.below(4) {
            0 => return self.one(One::Hash(1), inner),
            1 => return self.one(One::Length, inner),
            2 => {
                let string = self.string(size::STRING);
                return self.two(op, string, inner);
            }
            _ if part.sigs => self.put(Node::Checksig),
            _ => self.put(Node::Variable),
        };
        self.either(op, inner, beside)
    }

    /// True a little more often than false.
    pub fn boolean(&mut self) -> Expr {
        let value = self.rng.percent(60);
        self.put(Node::Boolean(value))
    }

    /// 0, 1, -1, a small number, or one near the ends of 64 bits.
    pub fn number(&mut self) -> Expr {
        const ENDS: [i64; 10] =
            [i64::MAX, i64::MIN, i64::MAX - 1, i64::MIN + 1, -i64::MAX, 1 << 62, -1 << 62, u32::MAX as i64, i32::MIN as i64, i64::MAX - 2];
        let value = match self.rng.below(10) {
            0..=4 if self.overflowing => self.rng.pick(&ENDS),
            5..=7 => self.rng.pick(&[0, 1, -1]),
            _ => self.rng.below(300) as i64 - 150,
        };
        self.put(Node::Number(value))
    }

    /// Empty, zeros only, 80 hex, 00 80, or other bytes, within the room of its item.
    pub fn string(&mut self, room: usize) -> Expr {
        const SHORT: [&[u8]; 8] = [&[], &[], &[0], &[0, 0], &[0; 9], &[0x80], &[0, 0x80], &[0, 0, 1]];
        let room = room - size::STRING;
        let bytes = match self.rng.below(4) {
            0 => {
                let length = self.rng.below(room.min(40) + 1);
                self.rng.bytes(length)
            }
            _ => self.rng.pick(&SHORT).to_vec(),
        };
        self.put(Node::Bytes(if bytes.len() <= room { bytes } else { vec![] }))
    }
}
