//! The formulas that are measured: one path each, whose return is one expression over 20 variables, which no assignment satisfies without
//! a signature.

use image::generator::rng::Rng;
use image::generator::units::*;
use image::tree::*;

use crate::images::Sample;

/// How many variables an expression has. Each is a Free atom of its own, and 20 are the most that are searched.
const VARIABLES: usize = 20;

/// How many assignments there are without a signature.
pub const MASKS: u32 = 1 << VARIABLES;

/// The formulas of the table, R1 first.
pub fn formulas() -> Vec<Sample> {
    vec![
        Sample::new("R1 (and, nested to the left)", vec![ret(and(variables(VARIABLES), c()))]),
        Sample::new("or, nested to the left", vec![ret(and(leftward(VARIABLES - 1, Two::Logical(op::OR), x()), c()))]),
        Sample::new("250 words of and, or, not", vec![ret(and(mixed(&mut Rng::new(SEED)), c()))]),
        Sample::new("and, nested to the right", vec![ret(and_rightward())]),
    ]
}

/// The seed of the mixed expression.
const SEED: u64 = 1;

/// An expression of 250 words, put together by chance: 20 variables, 60 checksigs and literals, 79 joins and 91 negations.
fn mixed(rng: &mut Rng) -> Expr {
    let mut parts = [vec![x(); VARIABLES], vec![c(); 30], vec![yes(); 15], vec![no(); 15]].concat();
    for steps in (1..=79 + 91).rev() {
        let part = drawn(rng, &mut parts);
        let joins = parts.len();
        let made = if rng.below(steps) < joins {
            let other = drawn(rng, &mut parts);
            Expr::two(Two::Logical(rng.pick(&[op::AND, op::OR])), part, other)
        } else {
            not(part)
        };
        parts.push(made);
    }
    drawn(rng, &mut parts)
}

/// One of the parts, which is no longer among them.
fn drawn(rng: &mut Rng, parts: &mut Vec<Expr>) -> Expr {
    let at = rng.below(parts.len());
    parts.swap_remove(at)
}

/// 20 variables and a checksig, each joined to all behind it.
fn and_rightward() -> Expr {
    (0..VARIABLES).fold(c(), |inner, _| and(x(), inner))
}
