//! Placed behind a copy of the original's necessity.rs by build.rs: what the original's own functions find, and at which assignment.

use super::*;
use std::panic::{catch_unwind, AssertUnwindSafe};

/// The end of a search by document 01: its numbers, and the failing path's return location (zeros if none fails).
pub struct Found {
    pub verdict: u32,
    pub reason: u32,
    pub path: usize,
    pub location: Location,
    pub mask: u64,
    pub tried: u64,
}

/// A path by the original's own enumeration: the pieces of its formula in order, each as the `start` of its expression and whether it has
/// to hold, and the return's location.
pub struct Walked {
    pub pieces: Vec<(usize, bool)>,
    pub location: Location,
}

/// Every path, first to last.
pub fn walk(ast: &Vec<Statement>) -> Vec<Walked> {
    enumerate(ast, Vec::new(), Vec::new()).into_iter().map(walked).collect()
}

fn walked(path: Path) -> Walked {
    let hold = path.verifies.into_iter().chain([path.ret]).map(|piece| (piece, true));
    let pieces = path.conditions.into_iter().chain(hold).map(|(piece, side)| (piece.loc().start, side)).collect();
    Walked { pieces, location: path.ret_loc }
}

/// The Sig and Free atoms of each path.
pub fn atoms(ast: &Vec<Statement>) -> Vec<(usize, usize)> {
    formulas(ast).iter().map(|path| (path.sigs, path.frees)).collect()
}

/// What may be asked of a path's formula: its atoms, whether a checksig stands on the path, and its truth at an assignment.
pub struct Formed {
    formula: Formula,
    pub sigs: usize,
    pub frees: usize,
    pub checksig: bool,
}

/// The formula of each path.
pub fn formulas(ast: &Vec<Statement>) -> Vec<Formed> {
    enumerate(ast, Vec::new(), Vec::new()).iter().map(formed).collect()
}

fn formed(path: &Path) -> Formed {
    let mut translator = Translator::new();
    let formula = translator.path_formula(path);
    Formed { formula, sigs: translator.sig_counter, frees: translator.free_counter, checksig: path_has_checksig(path) }
}

impl Formed {
    /// The bit of Free 0: in liveness the Free atoms stand above the Sig atoms.
    fn below(&self, liveness: bool) -> usize {
        if liveness {
            self.sigs
        } else {
            0
        }
    }

    /// Its truth at a mask. In security every Sig is false and Free j is bit j; in liveness Sig i is bit i and the Free atoms are above them.
    /// A mask has 32 bits: an atom above them is false.
    pub fn holds(&self, liveness: bool, mask: u32) -> bool {
        self.holds_by(liveness, mask, &mut vec![false; self.sigs], &mut vec![false; self.frees])
    }

    /// Its truth at a mask, whose bits the values of its atoms become.
    fn holds_by(&self, liveness: bool, mask: u32, sigs: &mut [bool], frees: &mut [bool]) -> bool {
        let bit = |place: usize| place < 32 && mask >> place & 1 == 1;
        sigs.iter_mut().enumerate().for_each(|(i, value)| *value = liveness && bit(i));
        frees.iter_mut().enumerate().for_each(|(j, value)| *value = bit(self.below(liveness) + j));
        eval_formula(&self.formula, sigs, frees)
    }

    /// Whether it has more atoms than are searched.
    pub fn over_bound(&self, liveness: bool) -> bool {
        if liveness {
            self.sigs + self.frees > MAX_TOTAL_ATOMS
        } else {
            self.frees > MAX_FREE_ATOMS
        }
    }

    /// How many assignments are searched, if it is not over its bound.
    pub fn assignments(&self, liveness: bool) -> u64 {
        1 << (self.below(liveness) + self.frees)
    }

    /// The first mask that satisfies it, if it is not over its bound.
    pub fn first(&self, liveness: bool, tried: &mut u64) -> Option<u64> {
        let (mut sigs, mut frees) = (vec![false; self.sigs], vec![false; self.frees]);
        (0..self.assignments(liveness)).find(|mask| {
            *tried += 1;
            self.holds_by(liveness, *mask as u32, &mut sigs, &mut frees)
        })
    }

    /// The original's own search for an assignment that satisfies it without a signature.
    pub fn without_signatures(&self) -> bool {
        satisfiable_without_signatures(&self.formula, self.sigs, self.frees)
    }

    /// The original's own search for an assignment that satisfies it.
    pub fn at_all(&self) -> bool {
        satisfiable_at_all(&self.formula, self.sigs, self.frees)
    }

    /// A mask with those bits changed that the formula needs for a truth, so far as they do not stand in each other's way; where one side of
    /// a join is enough, the draw says which.
    pub fn toward(&self, liveness: bool, truth: bool, mut mask: u32, draw: &mut dyn FnMut() -> bool) -> u32 {
        let mut set = |place: usize, value: bool| {
            if place < 32 {
                mask = mask & !(1 << place) | (value as u32) << place;
            }
        };
        let below = self.below(liveness);
        needed(&self.formula, truth, draw, &mut |atom, value| match atom {
            Formula::Sig(i) if liveness => set(*i, value),
            Formula::Free(j) => set(below + j, value),
            _ => {}
        });
        mask
    }
}

/// Tells each atom that a truth of the formula needs, and its value.
fn needed(f: &Formula, truth: bool, draw: &mut dyn FnMut() -> bool, tell: &mut dyn FnMut(&Formula, bool)) {
    match f {
        Formula::Const(_) => {}
        Formula::Sig(_) | Formula::Free(_) => tell(f, truth),
        Formula::Not(a) => needed(a, !truth, draw, tell),
        Formula::And(a, b) | Formula::Or(a, b) if matches!(f, Formula::And(..)) == truth => {
            needed(a, truth, draw, tell);
            needed(b, truth, draw, tell);
        }
        Formula::And(a, b) | Formula::Or(a, b) => needed(if draw() { a } else { b }, truth, draw, tell),
    }
}

/// The search in document 01's order: security path by path, then liveness.
pub fn search(ast: &Vec<Statement>) -> Found {
    let paths = enumerate(ast, Vec::new(), Vec::new());
    let formulas: Vec<Formed> = paths.iter().map(formed).collect();
    let mut tried = 0;
    for (number, (path, formula)) in paths.iter().zip(&formulas).enumerate() {
        if formula.over_bound(false) {
            return Found { verdict: 1, reason: 1, path: number, location: path.ret_loc.clone(), mask: 0, tried };
        }
        if let Some(mask) = formula.first(false, &mut tried) {
            let verdict = if formula.checksig { 2 } else { 1 };
            return Found { verdict, reason: 2, path: number, location: path.ret_loc.clone(), mask, tried };
        }
    }
    let live = formulas.iter().any(|path| path.over_bound(true) || path.first(true, &mut tried).is_some());
    match paths.first() {
        Some(path) if !live => Found { verdict: 3, reason: 0, path: 0, location: path.ret_loc.clone(), mask: 0, tried },
        _ => Found { verdict: 0, reason: 0, path: 0, location: Location { start: 0, end: 0, line: 0, column: 0 }, mask: 0, tried },
    }
}

// ---- where literal arithmetic leaves 64 bits; only a build with overflow checks tells

fn panics<T>(work: impl FnOnce() -> T) -> bool {
    catch_unwind(AssertUnwindSafe(work)).is_err()
}

fn translation_panics(e: &Expression) -> bool {
    panics(|| Translator::new().translate(e))
}

/// The `start` of the operation that leaves 64 bits first in translation order: path by path, conditions, verifies, return.
pub fn overflow(ast: &Vec<Statement>) -> Option<usize> {
    enumerate(ast, Vec::new(), Vec::new()).iter().find_map(|path| {
        let conditions = path.conditions.iter().map(|(condition, _)| condition);
        let mut pieces = conditions.chain(&path.verifies).chain([&path.ret]);
        pieces.find(|piece| translation_panics(piece)).map(in_translation)
    })
}

/// Within an expression whose translation panics.
fn in_translation(e: &Expression) -> usize {
    if !by_structure(e) {
        return in_folding(e);
    }
    let inner = operands(e).into_iter().find(|operand| translation_panics(operand));
    in_translation(inner.expect("an operand of what is taken by structure panics"))
}

/// Within an expression whose folding panics: an operand's, or its own.
fn in_folding(e: &Expression) -> usize {
    match operands(e).into_iter().find(|operand| panics(|| eval_int(operand))) {
        Some(operand) => in_folding(operand),
        None => e.clone().loc().start,
    }
}

/// Is it translated by way of its operands' translations?
fn by_structure(e: &Expression) -> bool {
    match e {
        Expression::UnaryMathExpression { op, .. } => *op == UnaryMathOp::Not,
        Expression::LogicalExpression { .. } => true,
        Expression::CompareExpression { lhs, op, rhs, .. } => {
            let literal = is_bool_literal(lhs).is_some() || is_bool_literal(rhs).is_some();
            literal && matches!(op, BinaryCompareOp::Equal | BinaryCompareOp::NotEqual)
        }
        _ => false,
    }
}

fn operands(e: &Expression) -> Vec<&Expression> {
    match e {
        Expression::LogicalExpression { lhs, rhs, .. }
        | Expression::CompareExpression { lhs, rhs, .. }
        | Expression::BinaryMathExpression { lhs, rhs, .. } => vec![lhs, rhs],
        Expression::UnaryMathExpression { operand, .. }
        | Expression::UnaryCryptoExpression { operand, .. }
        | Expression::ByteExpression { operand, .. } => vec![operand],
        _ => vec![],
    }
}
