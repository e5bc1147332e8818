//! Both queries of each path, and path numbers that no path has.

use bayekosh::{Refusal, Satisfiable};
use bithoven::probed::probe::Formed;
use image::generator::rng::Rng;
use oracle::formulas::{query, Query};

use crate::differences::same;
use crate::library::Library;
use crate::tally::Tally;

/// Compares the queries of the paths that have at most so many atoms, or more than are searched.
pub fn compare(library: &Library, image: &[u8], paths: &[Formed], most_atoms: usize, tally: &mut Tally) -> Result<(), String> {
    let asked = |liveness: bool, path: &Formed| path.over_bound(liveness) || path.assignments(liveness) <= 1 << most_atoms;
    for (number, path) in paths.iter().enumerate() {
        let (some, left): (Vec<bool>, Vec<bool>) = [false, true].into_iter().partition(|liveness| asked(*liveness, path));
        some.iter().try_for_each(|liveness| one(library, image, number, path, *liveness))?;
        tally.calls.add("queries", some.len() as u64);
        tally.calls.add("queries of paths with too many atoms, not asked", left.len() as u64);
    }
    Ok(())
}

/// Compares one query of a path.
fn one(library: &Library, image: &[u8], number: usize, path: &Formed, liveness: bool) -> Result<(), String> {
    let expected = match query(path, liveness)? {
        Query::OverBound => Satisfiable::OverBound,
        Query::Never => Satisfiable::Never,
        Query::Mask(mask) => Satisfiable::Mask(mask as u32),
    };
    same(&format!("the query of path {number}, liveness {liveness}"), Ok(expected), library.satisfiable(liveness, image, number))
}

/// Compares what the entries that are lent a path number say of one that no path has.
pub fn beyond(library: &Library, image: &[u8], paths: usize, rng: &mut Rng, tally: &mut Tally) -> Result<(), String> {
    let refusal = Refusal { number: 13, place: 0 };
    for path in [paths, rng.pick(&[paths + 1, 128, 65_536, (1 << 32) + paths / 2, usize::MAX]).max(paths)] {
        same("path_free_atoms beyond the paths", Err(refusal), library.path_free_atoms(image, path))?;
        same("satisfiable_without_signatures beyond the paths", Err(refusal), library.satisfiable(false, image, path))?;
        same("satisfiable_at_all beyond the paths", Err(refusal), library.satisfiable(true, image, path))?;
        tally.calls.add("refused 13", 3);
    }
    Ok(())
}
