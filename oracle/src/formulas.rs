//! The formulas of an image's paths, by the original's own translation, or where that leaves 64 bits; and whether one can be satisfied. That there
//! are too many paths is not asked here.

use bithoven::necessity;
use bithoven::probed::probe::{self, Formed};
use image::tree::Contract;

use crate::tree::{statements, Locations};
use crate::{caught, overflow, same_counts};

/// The place of refusal 10, or the formula of each path.
pub enum Formulas {
    Overflow(usize),
    Are(Vec<Formed>),
}

/// What is said of a contract that was read. An error is a fault of the oracle itself.
pub fn formulas(contract: &Contract) -> Result<Formulas, String> {
    let ast = statements(contract, Locations::Own);
    let made = match caught(|| probe::formulas(&ast)) {
        Ok(made) => made,
        Err(message) => return overflow(contract, &message).map(Formulas::Overflow),
    };
    let atoms: Vec<(usize, usize)> = made.iter().map(|path| (path.sigs, path.frees)).collect();
    same_counts(&atoms, necessity::count_paths(&ast), &necessity::path_free_atoms(&ast))?;
    Ok(Formulas::Are(made))
}

/// Whether a path can be satisfied, and by which mask first.
#[derive(Clone, Copy, Debug, PartialEq, Eq)]
pub enum Query {
    OverBound,
    Never,
    Mask(u64),
}

/// What the original's own search says of a path, in security or in liveness, with the mask that the probe finds. An error is a fault of the oracle
/// itself.
pub fn query(path: &Formed, liveness: bool) -> Result<Query, String> {
    if path.over_bound(liveness) {
        return Ok(Query::OverBound);
    }
    let searched = if liveness { path.at_all() } else { path.without_signatures() };
    match path.first(liveness, &mut 0) {
        first if first.is_some() != searched => Err(format!("the probe finds {first:?}, the original's search says {searched}")),
        first => Ok(first.map_or(Query::Never, Query::Mask)),
    }
}
