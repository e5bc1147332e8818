//! That a difference is noticed: each wrong copy of the library shows one on some of a few images.

use image::generator::Case;

use crate::groups::{groups, Size};
use crate::library::Library;
use crate::tally::Tally;
use crate::workers::one;
use crate::wrong::{every, Wrong};

/// How many of the few images are random.
const FEW: usize = 500;

/// The most atoms of a path whose queries are asked.
const MOST_ATOMS: usize = 10;

/// The few images, some of which are damaged.
pub fn few(seed: u64) -> Result<Vec<Case>, String> {
    let groups = groups(Size::long(seed, FEW))?.into_iter().filter(|group| ["usual", "damaged"].contains(&group.name));
    Ok(groups.flat_map(|group| group.cases).collect())
}

/// The wrong copies of the library that show no difference.
pub fn unnoticed(cases: &[Case], seed: u64) -> Vec<Wrong> {
    every().into_iter().filter(|wrong| !differs(&Library { wrong: Some(*wrong) }, cases, seed)).collect()
}

/// Whether a library shows a difference.
fn differs(library: &Library, cases: &[Case], seed: u64) -> bool {
    let mut tally = Tally::default();
    cases.iter().enumerate().any(|(index, case)| {
        one(library, index, case.clone(), MOST_ATOMS, seed, &mut tally);
        tally.differences > 0
    })
}

#[cfg(test)]
mod tests {
    use super::*;

    /// The right one.
    #[test]
    fn the_library_shows_no_difference() {
        assert!(!differs(&Library::default(), &few(3).unwrap(), 3));
    }

    /// Each wrong copy shows one.
    #[test]
    fn every_wrong_number_is_noticed() {
        assert_eq!(unnoticed(&few(2).unwrap(), 2), []);
    }
}
