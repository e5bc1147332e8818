//! What is said of an image before any verdict: the reader's refusal, or the original's paths. That there are too many paths, or that
//! arithmetic leaves 64 bits, is not asked here.

use bithoven::ast::Location;
use bithoven::necessity;
use bithoven::probed::probe;
use image::reading;
use image::tree::Contract;

use crate::tree::{statements, Locations};

/// The reader's refusal (numbers 1 to 8), or the contract with its paths.
#[derive(Clone, Debug, PartialEq)]
pub enum Walk {
    Refused { number: u32, place: usize },
    Paths(Contract, Vec<Path>),
}

/// A path: the pieces of its formula, conditions before verifies before the return, and the location of the return statement.
#[derive(Clone, Debug, PartialEq)]
pub struct Path {
    pub pieces: Vec<Piece>,
    pub location: Location,
}

/// A piece: the offset of its expression's tag in the image, and whether it has to hold; a condition on the else side has not.
#[derive(Clone, Copy, Debug, PartialEq, Eq)]
pub struct Piece {
    pub offset: usize,
    pub holds: bool,
}

/// What is said of any bytes. An error is a fault of the oracle itself.
pub fn walk(bytes: &[u8]) -> Result<Walk, String> {
    let contract = match reading::read(bytes) {
        Ok(contract) => contract,
        Err(fault) => return Ok(Walk::Refused { number: fault.number(), place: fault.place() }),
    };
    let own = statements(&contract, Locations::Own);
    let locations = probe::walk(&own).into_iter().map(|path| path.location);
    let offsets = probe::walk(&statements(&contract, Locations::Offsets));
    let paths: Vec<Path> = offsets.into_iter().zip(locations).map(|(path, location)| joined(path.pieces, location)).collect();
    same_count(paths.len(), necessity::count_paths(&own))?;
    Ok(Walk::Paths(contract, paths))
}

/// A path from its two walks, one with offsets in the place of locations and one with the locations.
fn joined(pieces: Vec<(usize, bool)>, location: Location) -> Path {
    Path { pieces: pieces.into_iter().map(|(offset, holds)| Piece { offset, holds }).collect(), location }
}

/// The probe has as many paths as the untouched module counts.
fn same_count(walked: usize, counted: usize) -> Result<(), String> {
    if walked != counted {
        return Err(format!("the probe has {walked} paths, the original counts {counted}"));
    }
    Ok(())
}

#[cfg(test)]
mod tests {
    use super::*;

    #[test]
    fn a_probe_that_counts_otherwise_is_noticed() {
        assert!(same_count(2, 2).is_ok());
        assert!(same_count(2, 3).is_err());
    }
}
