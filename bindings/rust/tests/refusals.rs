//! Each number of document 01's table with its place, by each call that can refuse so; and that a refusal leaves what was lent as it was.

mod common;

use bayekosh::*;
use common::{checkpoint, refused, sample, unfit};
use image::generator::units::*;
use image::tree::{most, One};

/// All ten calls, with any path number, examination, budget and buffer.
#[test]
fn every_entry_refuses_a_bad_image_alike() {
    let lent = Examination { phase: 9, path: 9, mask: 9, count: 9 };
    for (number, place, image) in refused() {
        let refusal = Refusal { number, place };
        assert_eq!(count_paths(&image), Err(refusal));
        assert_eq!(path_free_atoms(&image, 999), Err(refusal));
        assert_eq!(satisfiable_without_signatures(&image, 999), Err(refusal));
        assert_eq!(satisfiable_at_all(&image, 999), Err(refusal));
        assert_eq!(start(&image), Err(refusal));
        assert_eq!(check_necessity(&image), Err(refusal));
        assert_eq!(lent.slice(&image, 1), (lent, Err(refusal)));
        assert_eq!(lent.write_checkpoint(&image, &mut []), Err(refusal));
        let checkpoint = checkpoint(lent, &image);
        assert_eq!(read_checkpoint(&checkpoint), Err(refusal));
        assert!(checkpoint_image(&checkpoint).is_empty());
    }
}

/// 128 paths, 512 statements, and an expression down to level 32.
#[test]
fn the_sizes_themselves_are_accepted() {
    assert_eq!(count_paths(&image(0, forking(most::PATHS, &x(), &c()))), Ok(128));
    assert_eq!(count_paths(&image(0, times(most::STATEMENTS, lock()))), Ok(0));
    assert_eq!(count_paths(&image(0, vec![ret(around(most::EXPRESSION_LEVEL - 1, One::Unary(4), x()))])), Ok(1));
}

/// 13 at 0, from the path count on.
#[test]
fn a_path_number_is_below_the_path_count() {
    let high = Err(Refusal { number: 13, place: 0 });
    let asked = [("P1", 0), ("P2", 1), ("P10", 2)].into_iter();
    for (name, path) in asked.flat_map(|(name, paths)| [paths, paths + 1, usize::MAX].map(|path| (name, path))) {
        let image = sample(name);
        assert_eq!(path_free_atoms(&image, path).map(|_| ()), high, "{name} {path}");
        assert_eq!(satisfiable_without_signatures(&image, path).map(|_| ()), high, "{name} {path}");
        assert_eq!(satisfiable_at_all(&image, path).map(|_| ()), high, "{name} {path}");
    }
}

/// 11 at 5, before the buffer is looked at.
#[test]
fn a_place_that_does_not_fit_is_refused() {
    let image = sample("P5");
    let refusal = Refusal { number: 11, place: 5 };
    for lent in unfit() {
        assert_eq!(lent.slice(&image, 5), (lent, Err(refusal)), "{lent:?}");
        assert_eq!(lent.write_checkpoint(&image, &mut []), Err(refusal), "{lent:?}");
    }
}
