//! The original's side of the table, and that both sides agree. It has a tree at hand; ours begins with the bytes.

use std::hint::black_box;

use bayekosh::{Location, Outcome};
use bithoven::necessity::{check_necessity, count_paths, path_free_atoms};
use bithoven::probed::probe;
use oracle::tree::{statements, Locations};
use oracle::{Answer, Judged};

use crate::formulas::MASKS;
use crate::images::Sample;
use crate::ours::{self, Told};
use crate::timing::{work, Work};

/// The count of paths and the Free atoms of each, for which each path's formula is made.
pub fn surveying(sample: &Sample) -> Option<Work<'_>> {
    let image = sample.image.as_slice();
    let tree = statements(&sample.contract, Locations::Own);
    assert_eq!(ours::survey(image), Told::is(count_paths(&tree)));
    for (path, frees) in path_free_atoms(&tree).into_iter().enumerate() {
        assert_eq!(bayekosh::path_free_atoms(image, path).map(|atoms| atoms.frees), Ok(frees));
    }
    Some(work(move || (count_paths(black_box(&tree)), path_free_atoms(black_box(&tree)))))
}

/// The search of a path for an assignment that satisfies it without a signature. There is none, so all are tried; that both sides agree
/// is seen from the assignments with signatures too.
pub fn evaluation(sample: &Sample) -> Option<Work<'_>> {
    let path = probe::formulas(&statements(&sample.contract, Locations::Own)).swap_remove(0);
    assert_eq!(1 << path.frees, MASKS);
    for (phase, masks) in [(0, MASKS), (1, MASKS << path.sigs)] {
        let satisfying = (0..masks).filter(|mask| path.holds(phase == 1, *mask)).count();
        assert_eq!(ours::assignments(&sample.image, phase, masks - 1), Told::is(satisfying));
    }
    assert!(!path.without_signatures());
    Some(work(move || black_box(&path).without_signatures()))
}

/// The whole verdict.
pub fn verdict(sample: &Sample) -> Option<Work<'_>> {
    let tree = statements(&sample.contract, Locations::Own);
    assert_eq!(bayekosh::check_necessity(&sample.image), Ok(outcome(&sample.image)));
    Some(work(move || check_necessity(black_box(&tree)).is_ok()))
}

/// What the original says of an image; the path, the mask and the total are the oracle's, by the original's own functions.
fn outcome(image: &[u8]) -> Outcome {
    match oracle::answer(image).map(|said| said.answer) {
        Ok(Answer::Judged(Judged { verdict, reason, path, location, mask, tried, .. })) => {
            let [start, end, line, column] = [location.start, location.end, location.line, location.column].map(|number| number as u32);
            let location = Location { start, end, line, column };
            Outcome { verdict, reason, path: path as u32, location, mask: mask as u32, total: tried }
        }
        other => panic!("{other:?}"),
    }
}
