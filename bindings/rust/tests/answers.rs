//! What is answered of an image: document 01's table, the lines beside each sample, and the queries.

mod common;

use bayekosh::*;
use common::{sample, samples};

/// Document 01: case; verdict, reason, mask, total.
const CASES: [(&str, [u64; 4]); 18] = [
    ("P1", [0, 0, 0, 0]),
    ("P2", [0, 0, 0, 3]),
    ("P3", [1, 2, 1, 2]),
    ("P4", [2, 2, 1, 2]),
    ("P5", [0, 0, 0, 6]),
    ("P6", [3, 0, 0, 2]),
    ("P7", [3, 0, 0, 3]),
    ("P8", [0, 0, 0, 3]),
    ("P9", [0, 0, 0, 4]),
    ("P10", [0, 0, 0, 8]),
    ("P11", [1, 2, 0, 1]),
    ("P12", [3, 0, 0, 2]),
    ("P13", [2, 2, 1, 2]),
    ("R1", [0, 0, 0, 3_145_728]),
    ("R2", [1, 1, 0, 0]),
    ("R3", [3, 0, 0, 5_242_880]),
    ("R4", [0, 0, 0, 1_048_576]),
    ("R5", [1, 2, 1, 2]),
];

/// All locations of these images are zeros, and the failing path is path 0.
#[test]
fn the_table_holds() {
    let nowhere = Location { start: 0, end: 0, line: 0, column: 0 };
    for (name, [verdict, reason, mask, total]) in CASES {
        let (verdict, reason, mask) = (verdict as u32, reason as u32, mask as u32);
        let expected = Outcome { verdict, reason, path: 0, location: nowhere, mask, total };
        assert_eq!(check_necessity(&sample(name)), Ok(expected), "{name}");
    }
}

/// The desk program's lines about an image.
fn lines(image: &[u8]) -> String {
    let outcome = match check_necessity(image) {
        Ok(outcome) => outcome,
        Err(Refusal { number, place }) => return format!("refused {number} at {place}\n"),
    };
    let mut told = String::new();
    for path in 0..count_paths(image).expect("an image that is judged is accepted") {
        let atoms = path_free_atoms(image, path).expect("the path is there");
        told += &format!("path {path} sigs {} free {}\n", atoms.sigs, atoms.frees);
    }
    let Outcome { verdict, reason, path, location, mask, total } = outcome;
    let Location { start, end, line, column } = location;
    told += &format!(
        "verdict {verdict} reason {reason} path {path} start {start} end {end} line {line} column {column} mask {mask} tried {total}\n"
    );
    told
}

/// The lines that stand beside each sample.
#[test]
fn every_sample_has_its_answer() {
    for sample in samples() {
        assert_eq!(lines(&sample.image), sample.answer, "{}", sample.name);
    }
}

/// Equal locations share a Sig atom; each variable is a Free atom of its own.
#[test]
fn paths_and_atoms_are_counted() {
    assert_eq!(count_paths(&sample("P1")), Ok(0));
    assert_eq!(count_paths(&sample("P9")), Ok(1));
    assert_eq!(count_paths(&sample("P10")), Ok(2));
    assert_eq!(path_free_atoms(&sample("P10"), 0), Ok(Atoms { sigs: 1, frees: 1 }));
    assert_eq!(path_free_atoms(&sample("P10"), 1), Ok(Atoms { sigs: 0, frees: 1 }));
    assert_eq!(path_free_atoms(&sample("P7"), 0), Ok(Atoms { sigs: 1, frees: 0 }));
    assert_eq!(path_free_atoms(&sample("P8"), 0), Ok(Atoms { sigs: 2, frees: 0 }));
    assert_eq!(path_free_atoms(&sample("R4"), 0), Ok(Atoms { sigs: 3, frees: 20 }));
}

/// The first mask, in either query's order; and paths at and over the bounds.
#[test]
fn queries_tell_the_first_mask() {
    use Satisfiable::*;
    let asked = [("P2", Never, Mask(1)), ("P3", Mask(1), Mask(1)), ("P4", Mask(1), Mask(1)), ("P5", Never, Mask(3)), ("P6", Never, Never)];
    for (name, without, at_all) in asked {
        let image = sample(name);
        assert_eq!(satisfiable_without_signatures(&image, 0), Ok(without), "{name}");
        assert_eq!(satisfiable_at_all(&image, 0), Ok(at_all), "{name}");
    }
    // 20 Free atoms and 1, 2, 3 Sig atoms; 21 Free atoms and 1 Sig atom
    assert_eq!(satisfiable_at_all(&sample("R1"), 0), Ok(Mask((1 << 21) - 1)));
    assert_eq!(satisfiable_without_signatures(&sample("R4"), 0), Ok(Never));
    assert_eq!(satisfiable_at_all(&sample("R4"), 0), Ok(OverBound));
    assert_eq!(satisfiable_without_signatures(&sample("R2"), 0), Ok(OverBound));
    assert_eq!(satisfiable_at_all(&sample("R2"), 0), Ok(Mask((1 << 22) - 1)));
}

/// Four different numbers, each in its own field.
#[test]
fn a_location_comes_back_number_by_number() {
    use image::generator::units::*;
    let mut spend = ret(x());
    spend.location = MARKED;
    let outcome = check_necessity(&image(0, vec![spend])).expect("it is accepted");
    assert_eq!(outcome.location, Location { start: 1, end: 2, line: 3, column: 4 });
    assert_eq!((outcome.verdict, outcome.reason, outcome.path), (1, 2, 0));
}
