//! The C answers as whole structs: what a refusal, a "not yet" and an Ok leave in every field that says nothing, and that a lent examination and a
//! buffer come back as they were.

mod calls;
mod common;

use bayekosh::raw::*;
use bayekosh::{Examination, CHECKPOINT_HEAD};
use calls::*;
use common::{checkpoint, refused, sample, unfit};
use image::generator::units::*;

/// A place of zeros.
const NOWHERE: Standing = Standing { phase: 0, path: 0, mask: 0, count: 0 };

/// A verdict of zeros.
const NOTHING: CheckedAnswer =
    CheckedAnswer { number: 0, place: 0, verdict: 0, reason: 0, path: 0, start: 0, end: 0, line: 0, column: 0, mask: 0, total: 0 };

/// No part.
const NO_PART: ImagePart = ImagePart { offset: 0, length: 0 };

/// A place with another number in every byte, which fits no image.
const LENT: Standing = Standing { phase: 0x11, path: 0x2232, mask: 0x4353_6373, count: 0x0102_0304_0506_0708 };

/// The second place of P5, whose one path has one Sig and one Free atom.
const SECOND: Standing = Standing { phase: 0, path: 0, mask: 1, count: 1 };

// ---- refusals

/// The three calls with a path number refuse: number, place and zeros.
fn queries_refuse(image: &[u8], path: usize, number: u32, place: usize) {
    assert_eq!(path_free_atoms(image, path), NumberedAnswer { number, place, sigs: 0, frees: 0 });
    assert_eq!(satisfiable_without_signatures(image, path), SatisfiableAnswer { number, place, found: 0, mask: 0 });
    assert_eq!(satisfiable_at_all(image, path), SatisfiableAnswer { number, place, found: 0, mask: 0 });
}

/// A slice refuses with each of some budgets, and hands the examination back as it was.
fn slices_refuse(lent: Standing, image: &[u8], number: u32, place: usize) {
    let expected = SlicedAnswer { ended: 0, said: CheckedAnswer { number, place, ..NOTHING }, examination: lent };
    assert_eq!([0, 1, 1000, u64::MAX].map(|budget| slice(lent, image, budget)), [expected; 4]);
}

/// A writing refuses, hands the examination back as it was, and leaves the buffer as it was.
fn writing_refuses(lent: Standing, image: &[u8], room: usize, number: u32, place: usize) {
    let before: Vec<u8> = (0..room).map(|at| at as u8 ^ 0xa5).collect();
    let mut buffer = before.clone();
    assert_eq!(write_checkpoint(lent, image, &mut buffer), WrittenAnswer { number, place, length: 0, examination: lent });
    assert_eq!(buffer, before);
}

/// Both calls about a checkpoint refuse: zeros in the place, and no part.
fn reading_refuses(bytes: &[u8], number: u32, place: usize) {
    assert_eq!(read_checkpoint(bytes), OpenedAnswer { number, place, examination: NOWHERE });
    assert_eq!(checkpoint_image(bytes), NO_PART);
}

/// 1 to 10, by all ten calls.
#[test]
fn a_refused_image_has_number_and_place_alone() {
    for (number, place, image) in refused() {
        assert_eq!(count_paths(&image), CountedAnswer { number, place, paths: 0 });
        [0, 1, usize::MAX].into_iter().for_each(|path| queries_refuse(&image, path, number, place));
        assert_eq!(start(&image), OpenedAnswer { number, place, examination: NOWHERE });
        assert_eq!(check_necessity(&image), CheckedAnswer { number, place, ..NOTHING });
        [LENT, NOWHERE].into_iter().for_each(|lent| slices_refuse(lent, &image, number, place));
        let rooms = [0, CHECKPOINT_HEAD, CHECKPOINT_HEAD + image.len(), CHECKPOINT_HEAD + image.len() + 50];
        rooms.into_iter().for_each(|room| writing_refuses(LENT, &image, room, number, place));
        let other = Examination { phase: 7, path: 7, mask: 7, count: 7 };
        reading_refuses(&checkpoint(other, &image), number, place);
    }
}

/// 11 at 5, by the calls that are lent an examination, and by those about a checkpoint.
#[test]
fn a_place_that_does_not_fit_comes_back() {
    let image = sample("P5");
    for lent in unfit().map(Standing::from).into_iter().chain([LENT]) {
        slices_refuse(lent, &image, 11, 5);
        [0, CHECKPOINT_HEAD + image.len()].into_iter().for_each(|room| writing_refuses(lent, &image, room, 11, 5));
        if u32::try_from(lent.count).is_ok() {
            reading_refuses(&checkpoint(lent.into(), &image), 11, 5);
        }
    }
}

/// 11 at 0 and at 3.
#[test]
fn a_head_that_is_none_has_number_and_place_alone() {
    let good = checkpoint(SECOND.into(), &sample("P5"));
    assert_eq!(read_checkpoint(&good), OpenedAnswer { number: 0, place: 0, examination: SECOND });
    reading_refuses(&[], 11, 0);
    reading_refuses(&good[..CHECKPOINT_HEAD - 1], 11, 0);
    reading_refuses(&[b"BVN", &good[3..]].concat(), 11, 0);
    reading_refuses(&[b"BVC\x00\x02", &good[5..]].concat(), 11, 3);
}

/// 12 at 0, with any room below what the checkpoint has.
#[test]
fn a_short_buffer_stays_as_it_is() {
    let image = sample("P5");
    (0..CHECKPOINT_HEAD + image.len()).for_each(|room| writing_refuses(SECOND, &image, room, 12, 0));
}

/// 13 at 0, from the path count on.
#[test]
fn a_path_number_that_is_too_high_has_number_and_place_alone() {
    let image = sample("P10");
    [2, 3, 128, usize::MAX].into_iter().for_each(|path| queries_refuse(&image, path, 13, 0));
    queries_refuse(&sample("P1"), 0, 13, 0);
}

// ---- what is not refused

/// Every "not yet" of P5, by slices of budget 1, and of budget 0 where they begin.
#[test]
fn a_not_yet_has_zeros_in_every_field_but_the_examination() {
    let image = sample("P5");
    let at = |(phase, mask, count)| Standing { phase, path: 0, mask, count };
    let places = [(0, 0, 0), (0, 1, 1), (1, 0, 2), (1, 1, 3), (1, 2, 4), (1, 3, 5)].map(at);
    assert_eq!(start(&image), OpenedAnswer { number: 0, place: 0, examination: places[0] });
    for (before, after) in places.into_iter().zip(&places[1..]) {
        assert_eq!(slice(before, &image, 1), SlicedAnswer { ended: 0, said: NOTHING, examination: *after });
        assert_eq!(slice(before, &image, 0), SlicedAnswer { ended: 0, said: NOTHING, examination: before });
    }
    // before the trial that ends it
    assert_eq!(slice(places[5], &image, 0), SlicedAnswer { ended: 0, said: NOTHING, examination: places[5] });
    assert_eq!(slice(places[5], &image, 1), SlicedAnswer { ended: 1, said: CheckedAnswer { total: 6, ..NOTHING }, examination: places[5] });
}

/// Two paths, whose returns have a location other than zeros.
fn located(first: image::tree::Expr, second: image::tree::Expr) -> Vec<u8> {
    let marked = |returned| {
        let mut end = ret(returned);
        end.location = MARKED;
        vec![end]
    };
    image(0, vec![ifelse(x(), marked(first), marked(second))])
}

/// Ok, by a trial of the second path, has its total alone; DeadPath has its location too, and NoSigRequired all of it.
#[test]
fn an_end_has_zeros_where_it_says_nothing() {
    let ends = [
        (located(no(), c()), CheckedAnswer { total: 8, ..NOTHING }),
        (located(no(), no()), CheckedAnswer { verdict: 3, start: 1, end: 2, line: 3, column: 4, total: 8, ..NOTHING }),
        (
            located(c(), x()),
            CheckedAnswer { verdict: 1, reason: 2, path: 1, start: 1, end: 2, line: 3, column: 4, mask: 2, total: 5, ..NOTHING },
        ),
        // nothing is tried: no path, and 21 Free atoms
        (image(0, vec![]), NOTHING),
        (image(0, vec![ret(variables(21))]), CheckedAnswer { verdict: 1, reason: 1, ..NOTHING }),
    ];
    for (image, end) in ends {
        assert_eq!(check_necessity(&image), end);
        let sliced = slice(start(&image).examination, &image, u64::MAX);
        assert_eq!((sliced.ended, sliced.said), (1, end));
        assert_eq!(slice(sliced.examination, &image, 1), sliced);
    }
}

/// Counts, and queries of each kind: no mask where there is none.
#[test]
fn queries_have_zeros_where_they_say_nothing() {
    let found = |found, mask| SatisfiableAnswer { number: 0, place: 0, found, mask };
    assert_eq!(count_paths(&sample("P10")), CountedAnswer { number: 0, place: 0, paths: 2 });
    assert_eq!(path_free_atoms(&sample("P10"), 0), NumberedAnswer { number: 0, place: 0, sigs: 1, frees: 1 });
    assert_eq!(satisfiable_without_signatures(&sample("P5"), 0), found(0, 0));
    assert_eq!(satisfiable_at_all(&sample("P5"), 0), found(1, 3));
    assert_eq!(satisfiable_at_all(&sample("P6"), 0), found(0, 0));
    assert_eq!(satisfiable_without_signatures(&sample("R2"), 0), found(2, 0));
    assert_eq!(satisfiable_at_all(&sample("R4"), 0), found(2, 0));
}

/// A checkpoint that is written: its length, the examination as it was, and the rest of the buffer as it was.
#[test]
fn a_writing_hands_the_examination_back() {
    let image = sample("P5");
    let length = CHECKPOINT_HEAD + image.len();
    let mut buffer = vec![0xa5; length + 9];
    assert_eq!(write_checkpoint(SECOND, &image, &mut buffer), WrittenAnswer { number: 0, place: 0, length, examination: SECOND });
    assert_eq!(buffer, [checkpoint(SECOND.into(), &image), vec![0xa5; 9]].concat());
    assert_eq!(checkpoint_image(&buffer[..length]), ImagePart { offset: CHECKPOINT_HEAD, length: image.len() });
}
