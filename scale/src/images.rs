//! One image through both sides.

use bayekosh::{Outcome, Refusal};
use bithoven::probed::probe::Formed;
use image::generator::rng::Rng;
use image::generator::Case;
use image::reading;
use oracle::formulas::{formulas, Formulas};
use oracle::{Answer, Judged, Location};

use crate::course::Course;
use crate::library::Library;
use crate::tally::Tally;
use crate::{queries, refused, runs};

/// Compares everything that is said of an image. The error is the first difference, or what is wrong with the oracle.
pub fn compare(library: &Library, case: &Case, most_atoms: usize, rng: &mut Rng, tally: &mut Tally) -> Result<(), String> {
    let answer = oracle::answer(&case.image)?.answer;
    tally.images += 1;
    tally.answers.add(answer.name(), 1);
    if !answer.agrees(case.known) {
        return Err(format!("made for {:?}, the original says {answer}", case.known));
    }
    match &answer {
        Answer::Refused { number, place } => refused::compare(library, &case.image, Refusal { number: *number, place: *place }, rng, tally),
        Answer::Judged(judged) => {
            same_answer(&answer, &told(library, &case.image))?;
            tally.calls.add("paths", judged.atoms.len() as u64);
            accepted(library, &case.image, judged, most_atoms, rng, tally)
        }
    }
}

/// The library's answer is the original's.
fn same_answer(expected: &Answer, told: &Answer) -> Result<(), String> {
    match expected == told {
        true => Ok(()),
        false => Err(format!("the original says\n{expected}the library says\n{told}")),
    }
}

/// What the library says of an image.
pub fn told(library: &Library, image: &[u8]) -> Answer {
    match judged(library, image) {
        Ok(judged) => Answer::Judged(judged),
        Err(Refusal { number, place }) => Answer::Refused { number, place },
    }
}

/// The path count, each path's atoms, and the unstopped run, by the library.
fn judged(library: &Library, image: &[u8]) -> Result<Judged, Refusal> {
    let paths = library.count_paths(image)?;
    let atoms = (0..paths).map(|path| library.path_free_atoms(image, path).map(|atoms| (atoms.sigs, atoms.frees)));
    let atoms = atoms.collect::<Result<_, _>>()?;
    let Outcome { verdict, reason, path, location, mask, total } = library.check_necessity(image)?;
    let location = Location {
        start: location.start as usize,
        end: location.end as usize,
        line: location.line as usize,
        column: location.column as usize,
    };
    Ok(Judged { atoms, verdict, reason, path: path as usize, location, mask: u64::from(mask), tried: total })
}

/// What is asked of an accepted image beyond its answer.
fn accepted(library: &Library, image: &[u8], judged: &Judged, most_atoms: usize, rng: &mut Rng, tally: &mut Tally) -> Result<(), String> {
    let paths = translated(image)?;
    queries::compare(library, image, &paths, most_atoms, tally)?;
    queries::beyond(library, image, paths.len(), rng, tally)?;
    tally.total(judged.tried);
    runs::compare(library, image, &Course::new(&paths, judged)?, rng, tally)
}

/// The formulas of an accepted image, by the original.
pub fn translated(image: &[u8]) -> Result<Vec<Formed>, String> {
    let contract = reading::read(image).map_err(|fault| format!("the reader says {fault:?} of what it accepted"))?;
    match formulas(&contract)? {
        Formulas::Are(paths) => Ok(paths),
        Formulas::Overflow(place) => Err(format!("an overflow at {place} in what was judged")),
    }
}
