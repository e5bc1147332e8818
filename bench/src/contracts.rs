//! The contracts whose verdicts are measured, beside R1 of formulas.rs: document 01's R3, and two of 128 paths.

use image::generator::units::*;
use image::tree::*;

use crate::images::{forking, keys, Sample};

/// The contracts of the table.
pub fn contracts() -> Vec<Sample> {
    vec![
        Sample::new("R3", vec![ret(and(and(and(variables(20), c()), c().at(MARKED)), no()))]),
        Sample::new("128 paths, 8 variables on each", hash_locks()),
        Sample::new("128 paths, checksigs alone", checksigs_alone()),
    ]
}

/// A variable at each if; at the end of each path a checksig of its own, and the preimage of a hash.
fn hash_locks() -> Vec<Stmt> {
    let key = keys();
    forking(most::PATHS, &x, &|| and(key(), equal(hash(x()), text(&[7; 32]))))
}

/// A checksig at each if, and two at the end of each path, all at different locations: one assignment for each path shows that it is safe.
fn checksigs_alone() -> Vec<Stmt> {
    let key = keys();
    forking(most::PATHS, &key, &|| and(key(), key()))
}
