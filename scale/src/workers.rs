//! A group's images, compared by several workers. What comes back does not depend on how many there are, nor on which is faster.

use std::sync::{Mutex, PoisonError};
use std::thread::{Builder, ScopedJoinHandle};
use std::{io, thread};

use image::generator::rng::Rng;
use image::generator::Case;

use crate::groups::Group;
use crate::images::compare;
use crate::library::Library;
use crate::tally::{Difference, Tally};

/// The room that a worker has for its calls: as much as a program usually has.
const STACK: usize = 8 << 20;

/// The part of a seed's random numbers that the runs have; the generator of images has others.
const RUNS: u64 = 100;

/// Compares a group.
pub fn compare_group(library: &Library, group: Group, workers: usize) -> Result<Tally, String> {
    let Group { cases, most_atoms, seed, .. } = group;
    let cases = Mutex::new(cases.enumerate());
    let next = || cases.lock().unwrap_or_else(PoisonError::into_inner).next();
    let work = || worker(library, next, most_atoms, seed);
    thread::scope(|scope| {
        let started: io::Result<Vec<ScopedJoinHandle<Tally>>> =
            (0..workers).map(|_| Builder::new().stack_size(STACK).spawn_scoped(scope, work)).collect();
        let mut all = Tally::default();
        for worker in started.map_err(|error| error.to_string())? {
            all.join(worker.join().map_err(|_| "a worker panics".to_string())?);
        }
        Ok(all)
    })
}

/// Compares one image after the other, until there is none left.
fn worker(library: &Library, next: impl Fn() -> Option<(usize, Case)>, most_atoms: usize, seed: u64) -> Tally {
    let mut tally = Tally::default();
    while let Some((index, case)) = next() {
        one(library, index, case, most_atoms, seed, &mut tally);
    }
    tally
}

/// Compares one image, whose random numbers are its own.
pub fn one(library: &Library, index: usize, case: Case, most_atoms: usize, seed: u64, tally: &mut Tally) {
    let mut rng = Rng::member(seed, RUNS, index as u64);
    if let Err(told) = compare(library, &case, most_atoms, &mut rng, tally) {
        tally.differs(Difference { index, kind: case.kind, image: case.image, told });
    }
}

#[cfg(test)]
mod tests {
    use super::*;
    use crate::groups::{groups, Size};
    use crate::wrong::{Entry, Wrong};

    /// The tallies of a few images.
    fn tallies(library: &Library, workers: usize) -> Vec<Tally> {
        let few = groups(Size::long(4, 200)).unwrap().into_iter().filter(|group| ["usual", "damaged"].contains(&group.name));
        few.map(|group| compare_group(library, group, workers).unwrap()).collect()
    }

    /// One worker and three count the same.
    #[test]
    fn the_counts_do_not_depend_on_the_workers() {
        assert_eq!(tallies(&Library::default(), 1), tallies(&Library::default(), 3));
    }

    /// They are kept in the images' order, whichever worker finds them.
    #[test]
    fn neither_do_the_first_differences() {
        let wrong = Wrong { entry: Entry::CheckNecessity, number: 8 };
        let library = Library { wrong: Some(wrong) };
        assert_eq!(tallies(&library, 1), tallies(&library, 3));
        assert!(tallies(&library, 2)[0].first.iter().map(|difference| difference.index).is_sorted());
    }
}
