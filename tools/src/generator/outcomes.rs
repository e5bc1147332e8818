//! Random expressions that decide a path: gates, falsehoods, checksigs that are not needed, and more atoms than are searched.

use super::expressions::{Maker, Part};
use super::values::{Stock, TWO_NUMBERS};
use crate::tree::*;

/// The bytes of `c and not c`.
const CONTRADICTION: usize = 2 * (size::OPERATION + size::ITEM);

impl<'a> Maker<'a> {
    /// False whenever every Sig is false: a checksig or what is equal to one, alone or joined with others.
    pub fn gate(&mut self, part: Part) -> Expr {
        if part.atoms == 0 || !part.sigs {
            return self.falsehood(part);
        }
        if part.levels < 6 || part.room < 120 || self.rng.percent(35) {
            return self.disguised(part, Maker::checksig);
        }
        let inner = part.inner();
        let share = Part { room: inner.room / 2, atoms: self.rng.between(1, inner.atoms), ..inner };
        let gate = self.gate(share);
        let rest = inner.beside(&gate);
        if rest.atoms > 0 && self.rng.percent(30) {
            let other = self.gate(rest);
            return self.either(Two::Logical(op::OR), gate, other);
        }
        let other = self.formula(rest);
        self.either(Two::Logical(op::AND), gate, other)
    }

    /// A checksig, for `disguised`.
    fn checksig(&mut self, _: Part) -> Expr {
        self.put(Node::Checksig)
    }

    /// What `core` makes, behind doubled negations and comparisons with a boolean literal.
    fn disguised(&mut self, part: Part, core: fn(&mut Maker<'a>, Part) -> Expr) -> Expr {
        if part.levels < 6 || part.room < 150 || self.rng.percent(60) {
            return core(self, part);
        }
        if self.rng.percent(40) {
            let twice = self.disguised(part.inner().inner(), core);
            let once = self.one(One::Unary(op::NOT), twice);
            return self.one(One::Unary(op::NOT), once);
        }
        let value = self.rng.percent(50);
        let literal = self.put(Node::Boolean(value));
        let other = self.disguised(part.inner().beside(&literal), core);
        let op = if value { op::EQUAL } else { op::NOT_EQUAL };
        self.either(Two::Compare(op), literal, other)
    }

    /// False whatever the atoms are.
    pub fn falsehood(&mut self, part: Part) -> Expr {
        self.disguised(part, Maker::false_core)
    }

    /// Never true: a falsehood, alone or joined with any formula.
    pub fn dead(&mut self, part: Part) -> Expr {
        if !part.holds_two() || part.levels < 6 || part.room < 120 || self.rng.percent(40) {
            return self.falsehood(part);
        }
        let inner = part.inner();
        let falsehood = self.falsehood(Part { room: inner.room / 2, ..inner });
        let other = self.formula(inner.beside(&falsehood));
        self.either(Two::Logical(op::AND), falsehood, other)
    }

    /// False: c and not c, arithmetic that gives 0, or a literal.
    fn false_core(&mut self, part: Part) -> Expr {
        let sigs = (part.sigs && part.atoms > 1 && part.levels > 2 && part.room >= CONTRADICTION) as usize;
        let folded = (part.levels > 1 && part.room >= TWO_NUMBERS) as usize;
        let number = (part.room >= size::NUMBER) as usize;
        let string = (part.room >= size::STRING) as usize;
        match self.rng.weighted(&[(5 * sigs, 0), (2 * folded, 1), (number, 2), (string, 3), (2, 4)]) {
            0 => self.contradiction(),
            1 => self.folded_zero(),
            2 => self.put(Node::Number(0)),
            3 => {
                let zeros = if self.mode == 1 { 2.min(part.room - size::STRING) } else { 0 };
                self.put(Node::Bytes(vec![0; zeros]))
            }
            _ => self.put(Node::Boolean(false)),
        }
    }

    /// c and not c at one location.
    fn contradiction(&mut self) -> Expr {
        let sig = self.put(Node::Checksig);
        let negated = self.one(One::Unary(op::NOT), sig.clone());
        self.either(Two::Logical(op::AND), sig, negated)
    }

    /// Literal arithmetic whose value is 0.
    fn folded_zero(&mut self) -> Expr {
        let value = self.rng.pick(&[0, 1, -1, 7, i64::MAX, i64::MIN]);
        let (left, right) = (self.put(Node::Number(value)), self.put(Node::Number(value)));
        let op = self.rng.pick(&[Two::Binary(1), Two::Compare(1), Two::Compare(2), Two::Compare(4), Two::Compare(7)]);
        self.two(op, left, right)
    }

    /// Holds a checksig, and most often does not need it.
    pub fn ungated(&mut self, part: Part) -> Expr {
        if part.atoms < 2 || part.room < 80 {
            return self.leaf(part);
        }
        let sig = self.put(Node::Checksig);
        let inner = part.inner();
        match self.rng.below(4) {
            0 => self.one(One::Unary(op::NOT), sig),
            1 => {
                let right = self.value(inner.beside(&sig), Stock::All);
                self.two(Two::Compare(3), sig, right)
            }
            _ => {
                let other = self.formula(inner.beside(&sig));
                self.either(Two::Logical(op::OR), sig, other)
            }
        }
    }

    /// So many Free atoms joined in a chain, each of at most 37 bytes.
    pub fn many_frees(&mut self, count: usize, op: u8) -> Expr {
        let atoms = (0..count).map(|_| self.free()).collect();
        self.chain(op, atoms)
    }

    /// So many checksigs joined in a chain, each at a location of its own.
    pub fn many_sigs(&mut self, count: usize, op: u8) -> Expr {
        let atoms = (0..count).map(|_| Expr { location: self.locations.fresh(), node: Node::Checksig }).collect();
        self.chain(op, atoms)
    }

    /// A variable, or a hash or length of a string.
    fn free(&mut self) -> Expr {
        if self.rng.percent(80) {
            return self.put(Node::Variable);
        }
        let string = self.put(Node::Bytes(vec![]));
        let op = self.rng.pick(&[One::Hash(0), One::Hash(1), One::Length]);
        self.one(op, string)
    }

    /// Atoms joined by one op, each the operand of the next join.
    fn chain(&mut self, op: u8, atoms: Vec<Expr>) -> Expr {
        let leftward = self.rng.percent(50);
        let mut atoms = atoms.into_iter();
        let first = atoms.next().expect("a chain has a first atom");
        atoms.fold(first, |chain, atom| match leftward {
            true => self.two(Two::Logical(op), chain, atom),
            false => self.two(Two::Logical(op), atom, chain),
        })
    }
}
