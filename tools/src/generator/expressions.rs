//! Random expressions within a number of bytes, levels and atoms: the maker, and what is taken by structure. `values` has what is not, and
//! `outcomes` what decides a path.

use super::locations::Locations;
use super::rng::Rng;
use super::values::Stock;
use crate::tree::*;

/// The fewest bytes in which an expression can always be made.
pub const LEAST: usize = size::BOOLEAN;

/// What an expression may take, and whether checksigs may stand in it.
#[derive(Clone, Copy)]
pub struct Part {
    pub room: usize,
    pub levels: usize,
    pub atoms: usize,
    pub sigs: bool,
}

impl Part {
    /// What is left for the operands of an operation.
    pub fn inner(self) -> Part {
        Part { room: self.room - size::OPERATION, levels: self.levels - 1, ..self }
    }

    /// What is left beside an operand.
    pub fn beside(self, operand: &Expr) -> Part {
        Part { room: self.room - operand.size(), atoms: self.atoms - atoms(operand), ..self }
    }

    /// Whether an operation with one operand has room.
    pub fn holds_one(self) -> bool {
        self.levels > 1 && self.room >= size::OPERATION + LEAST
    }

    /// Whether an operation with two operands has room.
    pub fn holds_two(self) -> bool {
        self.levels > 1 && self.room >= size::OPERATION + 2 * LEAST
    }
}

/// How an expression's operands share its room.
#[derive(Clone, Copy)]
enum Split {
    Left,
    Right,
    Even,
    Uneven,
}

/// The form of a root: chains and combs as well as bushy trees.
#[derive(Clone, Copy)]
pub struct Habit {
    /// How many of a hundred nodes are leaves though there is room.
    pub stop: usize,
    /// How many of a hundred operations have one operand.
    pub ones: usize,
    split: Split,
}

impl Habit {
    /// Any form.
    fn draw(rng: &mut Rng) -> Habit {
        let split = rng.pick(&[Split::Left, Split::Right, Split::Even, Split::Uneven]);
        Habit { stop: rng.pick(&[0, 0, 5, 10, 30]), ones: rng.weighted(&[(5, 15), (2, 50), (1, 100)]), split }
    }
}

/// Makes expressions; one for each contract.
pub struct Maker<'a> {
    pub rng: &'a mut Rng,
    pub locations: Locations,
    pub mode: u8,
    /// Whether arithmetic that is folded may leave 64 bits.
    pub overflowing: bool,
    pub habit: Habit,
}

impl<'a> Maker<'a> {
    /// A maker with locations and a habit from the stream.
    pub fn new(rng: &'a mut Rng, mode: u8) -> Maker<'a> {
        let locations = Locations::draw(rng);
        let overflowing = rng.percent(25);
        let habit = Habit::draw(rng);
        Maker { rng, locations, mode, overflowing, habit }
    }

    /// The next root has a form of its own.
    pub fn change_habit(&mut self) {
        self.habit = Habit::draw(self.rng);
    }

    /// A node at the next location.
    pub fn put(&mut self, node: Node) -> Expr {
        let location = self.locations.next(self.rng);
        Expr { location, node }
    }

    /// An operation with one operand.
    pub fn one(&mut self, op: One, operand: Expr) -> Expr {
        self.put(Node::One(op, Box::new(operand)))
    }

    /// An operation with two operands.
    pub fn two(&mut self, op: Two, left: Expr, right: Expr) -> Expr {
        self.put(Node::Two(op, Box::new(left), Box::new(right)))
    }

    /// An operation whose sides change places in half of the draws.
    pub fn either(&mut self, op: Two, one: Expr, other: Expr) -> Expr {
        match self.rng.percent(50) {
            true => self.two(op, one, other),
            false => self.two(op, other, one),
        }
    }

    /// Any expression, most often one that is taken by structure.
    pub fn formula(&mut self, part: Part) -> Expr {
        if !part.holds_one() || self.rng.percent(self.habit.stop) {
            return self.leaf(part);
        }
        if !part.holds_two() || self.rng.percent(self.habit.ones) {
            return self.formula_of_one(part);
        }
        match self.rng.below(10) {
            0..=5 => self.logical(part),
            6 | 7 => self.literal_compared(part),
            _ => self.abstracted(part),
        }
    }

    /// `!e`, or an operation that is not taken by structure.
    fn formula_of_one(&mut self, part: Part) -> Expr {
        if self.rng.percent(25) {
            return self.abstracted(part);
        }
        let operand = self.formula(part.inner());
        self.one(One::Unary(op::NOT), operand)
    }

    /// And, or.
    fn logical(&mut self, part: Part) -> Expr {
        let inner = part.inner();
        let room = self.left_room(inner.room);
        let atoms = match self.rng.percent(50) {
            true => (inner.atoms * room).div_ceil(inner.room),
            false => self.rng.between(0, inner.atoms),
        };
        let left = self.formula(Part { room, atoms, ..inner });
        let right = self.formula(inner.beside(&left));
        let op = self.rng.below(2) as u8;
        self.two(Two::Logical(op), left, right)
    }

    /// Equal or NotEqual with a boolean literal on a side or on both; now and then another comparison with one.
    fn literal_compared(&mut self, part: Part) -> Expr {
        let inner = part.inner();
        let value = self.rng.percent(50);
        let literal = self.put(Node::Boolean(value));
        if part.atoms > 0 && self.rng.percent(20) {
            let op = self.rng.below(ops::COMPARE as usize) as u8;
            let other = self.value(inner.beside(&literal), Stock::All);
            let compared = self.either(Two::Compare(op), literal, other);
            return self.within(part, compared);
        }
        let other = match self.rng.percent(10) {
            true => self.put(Node::Boolean(!value)),
            false => self.formula(inner.beside(&literal)),
        };
        let op = self.rng.below(2) as u8;
        self.either(Two::Compare(op), literal, other)
    }

    /// The expression itself if its atoms are not too many, else a leaf.
    pub fn within(&mut self, part: Part, expression: Expr) -> Expr {
        match atoms(&expression) <= part.atoms {
            true => expression,
            false => self.leaf(part),
        }
    }

    /// A leaf at a place that is taken by structure.
    pub fn leaf(&mut self, part: Part) -> Expr {
        let free = (part.atoms > 0) as usize;
        let sig = (part.atoms > 0 && part.sigs) as usize;
        let number = (part.room >= size::NUMBER) as usize;
        let string = (part.room >= size::STRING) as usize;
        match self.rng.weighted(&[(40 * sig, 0), (40 * free, 1), (8, 2), (6 * number, 3), (6 * string, 4)]) {
            0 => self.put(Node::Checksig),
            1 => self.put(Node::Variable),
            2 => self.boolean(),
            3 => self.number(),
            _ => self.string(part.room),
        }
    }

    /// The room of the left operand, where `room` is that of both.
    pub fn left_room(&mut self, room: usize) -> usize {
        let spare = room - 2 * LEAST;
        LEAST
            + match self.habit.split {
                Split::Left => spare - spare.min(8),
                Split::Right => spare.min(8),
                Split::Even => spare / 2,
                Split::Uneven => self.rng.between(0, spare),
            }
    }
}

/// An upper bound of the atoms of an expression at a place that is taken by structure.
pub fn atoms(expression: &Expr) -> usize {
    match &expression.node {
        Node::Variable | Node::Checksig => 1,
        Node::Number(_) | Node::Boolean(_) | Node::Bytes(_) => 0,
        Node::One(One::Unary(op::NOT), operand) => atoms(operand),
        Node::Two(Two::Logical(_), left, right) => atoms(left) + atoms(right),
        Node::Two(Two::Compare(op::EQUAL | op::NOT_EQUAL), left, right) if is_boolean(left) || is_boolean(right) => {
            atoms(left) + atoms(right)
        }
        _ => !folds(expression) as usize,
    }
}

/// Whether it is a boolean literal.
fn is_boolean(expression: &Expr) -> bool {
    matches!(expression.node, Node::Boolean(_))
}

/// Whether a subtree has numbers and booleans only.
fn folds(expression: &Expr) -> bool {
    match &expression.node {
        Node::Number(_) | Node::Boolean(_) => true,
        Node::One(One::Unary(_), operand) => folds(operand),
        Node::Two(_, left, right) => folds(left) && folds(right),
        _ => false,
    }
}
