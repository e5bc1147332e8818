//! `record` reads a stream of images and writes them with the original's answers as the recorded list, which crates/recorded runs the
//! proved code on; crates/recorded/README.md says what stands in the list. On standard error it tells how often each answer came.

use std::process::ExitCode;

use bithoven::probed::probe::Formed;
use image::tree::{most, Contract};
use oracle::answering::{each, row, Counts};
use oracle::formulas::{formulas, Formulas};
use oracle::masks::masks;
use oracle::program;
use oracle::walk::{walk, Path, Walk};

/// How many paths of an image are written out: two more than an image may have and not be refused.
const MOST_PATHS: usize = 130;

fn main() -> ExitCode {
    program::run("record", "record < STREAM", |words| words.is_empty().then(|| each(|_, image, counts| recorded(image, counts))))
}

/// The row of an image.
fn recorded(image: &[u8], counts: &mut Counts) -> Result<Vec<u8>, String> {
    row(image, &bytes(&answer(image, counts)?).ok_or("a number over 32 bits")?)
}

/// The numbers of an answer.
fn answer(image: &[u8], counts: &mut Counts) -> Result<Vec<usize>, String> {
    match walk(image)? {
        Walk::Refused { number, place } => {
            counts.add(format!("refused {number}"), 1);
            Ok(vec![number as usize, place])
        }
        Walk::Paths(contract, paths) => {
            let mut numbers = walked(&contract, &paths);
            if paths.len() > most::PATHS {
                counts.add(format!("accepted, over {} paths", most::PATHS), 1);
                return Ok(numbers);
            }
            numbers.extend(translated(image, &formulas(&contract)?, counts));
            Ok(numbers)
        }
    }
}

/// The head and the paths.
fn walked(contract: &Contract, paths: &[Path]) -> Vec<usize> {
    let written = &paths[..paths.len().min(MOST_PATHS)];
    let head = [0, contract.mode as usize, contract.statements.len(), paths.len(), written.len()];
    head.into_iter().chain(written.iter().flat_map(path)).collect()
}

fn path(path: &Path) -> Vec<usize> {
    let pieces = path.pieces.iter().map(|piece| 2 * piece.offset + piece.holds as usize);
    let location = [path.location.start, path.location.end, path.location.line, path.location.column];
    [path.pieces.len()].into_iter().chain(pieces).chain(location).collect()
}

/// The formulas, or where literal arithmetic leaves 64 bits.
fn translated(image: &[u8], formulas: &Formulas, counts: &mut Counts) -> Vec<usize> {
    match formulas {
        Formulas::Overflow(place) => {
            counts.add("accepted, then refused 10", 1);
            vec![10, *place]
        }
        Formulas::Are(paths) => {
            counts.add("accepted, with formulas", 1);
            let numbered = paths.iter().enumerate();
            [0].into_iter().chain(numbered.flat_map(|(number, path)| formula(path, seed(image, number), counts))).collect()
        }
    }
}

/// A seed for each path of each image.
fn seed(image: &[u8], path: usize) -> u64 {
    image.iter().fold(path as u64, |seed, byte| seed.wrapping_mul(0x100_0000_01b3) ^ u64::from(*byte))
}

/// The atoms of a path, whether a checksig stands on it, the masks, and the truths at them in security and in liveness.
fn formula(path: &Formed, seed: u64, counts: &mut Counts) -> Vec<usize> {
    let masks = masks(path, seed);
    let [security, liveness] = [false, true].map(|liveness| truths(path, liveness, &masks));
    counts.add("paths with a formula", 1);
    for (phase, truths) in [("security", security), ("liveness", liveness)] {
        counts.add(format!("{phase}, true"), u64::from(truths.count_ones()));
        counts.add(format!("{phase}, false"), u64::from(truths.count_zeros()));
    }
    let atoms = [path.sigs, path.frees, path.checksig as usize];
    let words = [security, liveness].into_iter().flat_map(|truths| [(truths >> 32) as usize, truths as u32 as usize]);
    atoms.into_iter().chain(masks.into_iter().map(|mask| mask as usize)).chain(words).collect()
}

/// The truths in a phase: bit k at mask k.
fn truths(path: &Formed, liveness: bool, masks: &[u32]) -> u64 {
    masks.iter().enumerate().fold(0, |truths, (k, mask)| truths | (path.holds(liveness, *mask) as u64) << k)
}

/// The numbers as 32 bits each.
fn bytes(numbers: &[usize]) -> Option<Vec<u8>> {
    let words: Option<Vec<[u8; 4]>> = numbers.iter().map(|number| u32::try_from(*number).ok().map(u32::to_be_bytes)).collect();
    Some(words?.concat())
}
