//! Slices and checkpoints: an examination that is cut anywhere, written down and taken up again comes to the same end.

mod common;

use bayekosh::*;
use common::{checkpoint, sample, samples};
use image::generator::rng::Rng;

/// Slices of budgets from `draw` up to the end, at most so many of them.
fn run(image: &[u8], slices: usize, mut draw: impl FnMut() -> u64) -> (Examination, Outcome) {
    let mut examination = start(image).expect("it is accepted");
    for _ in 0..slices {
        let (next, said) = examination.slice(image, draw());
        match said.expect("the examination is its image's own") {
            Said::Done(outcome) => return (next, outcome),
            Said::NotYet => examination = next,
        }
    }
    panic!("{slices} slices do not come to the end");
}

/// One slice of all there is, and five runs of random budgets.
#[test]
fn slices_of_any_budgets_end_the_same() {
    let rng = &mut Rng::new(2026);
    for sample in samples() {
        let Ok(whole) = check_necessity(&sample.image) else { continue };
        let most = 1 + whole.total as usize / 20;
        let mut cut = || run(&sample.image, 10_000, || 1 + rng.below(most) as u64).1;
        assert_eq!(run(&sample.image, 1, || u64::MAX).1, whole, "{}", sample.name);
        assert_eq!([cut(), cut(), cut(), cut(), cut()], [whole; 5], "{}", sample.name);
    }
}

/// The place before that trial is left, from which budget 1 tells the end and budget 0 does not.
#[test]
fn an_end_by_a_trial_can_be_had_again() {
    let image = sample("P5");
    let (at_end, whole) = run(&image, 100, || 1);
    assert_eq!(at_end, Examination { phase: 1, path: 0, mask: 3, count: 5 });
    assert_eq!(at_end.slice(&image, 0), (at_end, Ok(Said::NotYet)));
    assert_eq!(at_end.slice(&image, 1), (at_end, Ok(Said::Done(whole))));
    // an end that needs no trial costs no budget
    let empty = sample("P1");
    let first = Examination { phase: 1, path: 0, mask: 0, count: 0 };
    assert_eq!(start(&empty), Ok(first));
    assert_eq!(first.slice(&empty, 0), (first, Ok(Said::Done(check_necessity(&empty).expect("it is accepted")))));
}

/// Every place of some runs in slices of budget 1.
#[test]
fn checkpoints_come_back_at_every_place() {
    for name in ["P1", "P2", "P5", "P10", "P12", "two-of-three", "inheritance"] {
        come_back_on_the_way(&sample(name));
    }
}

/// The checkpoint at each place of a run, of at most 1000 of them.
fn come_back_on_the_way(image: &[u8]) {
    let mut examination = start(image).expect("it is accepted");
    for _ in 0..1000 {
        comes_back(examination, image);
        let (next, said) = examination.slice(image, 1);
        examination = next;
        if said != Ok(Said::NotYet) {
            break;
        }
    }
    comes_back(examination, image);
}

/// The checkpoint fills a buffer that is as long as it; one byte less is refused and left unchanged; of a longer one the rest is unchanged.
fn comes_back(examination: Examination, image: &[u8]) {
    let long = CHECKPOINT_HEAD + image.len();
    [0, 1, CHECKPOINT_HEAD, long - 1].into_iter().for_each(|room| too_short(examination, image, room));
    [long, long + 1, long + 100].into_iter().for_each(|room| long_enough(examination, image, room));
}

/// A buffer with too little room.
fn too_short(examination: Examination, image: &[u8], room: usize) {
    let mut buffer = vec![0xa5; room];
    assert_eq!(examination.write_checkpoint(image, &mut buffer), Err(Refusal { number: 12, place: 0 }));
    assert_eq!(buffer, vec![0xa5; room]);
}

/// A buffer with room enough: the checkpoint is written and read back.
fn long_enough(examination: Examination, image: &[u8], room: usize) {
    let mut buffer = vec![0xa5; room];
    let expected = checkpoint(examination, image);
    assert_eq!(examination.write_checkpoint(image, &mut buffer), Ok(expected.len()));
    let (written, rest) = buffer.split_at(expected.len());
    assert_eq!(written, expected);
    assert!(rest.iter().all(|byte| *byte == 0xa5));
    assert_eq!(read_checkpoint(written), Ok(examination));
    let part = checkpoint_image(written);
    assert_eq!(part, image);
    assert_eq!(part.as_ptr(), written[CHECKPOINT_HEAD..].as_ptr());
}

/// What is wrong with damaged bytes, as both calls tell it.
fn damage(bytes: &[u8]) -> (u32, usize) {
    assert!(checkpoint_image(bytes).is_empty());
    let refusal = read_checkpoint(bytes).expect_err("it is damaged");
    (refusal.number, refusal.place)
}

/// A checkpoint of P5 after one trial, and its image.
fn one_trial_on() -> (Vec<u8>, Vec<u8>) {
    let image = sample("P5");
    let (examination, said) = start(&image).expect("it is accepted").slice(&image, 1);
    assert_eq!(said, Ok(Said::NotYet));
    let good = checkpoint(examination, &image);
    assert_eq!(read_checkpoint(&good), Ok(examination));
    (good, image)
}

/// Every cut within the head, and each of its bytes with one other bit.
#[test]
fn damaged_heads_are_refused() {
    let (good, _) = one_trial_on();
    for at in 0..CHECKPOINT_HEAD {
        assert_eq!(damage(&good[..at]), (11, 0), "{at} bytes");
        let mut bytes = good.clone();
        bytes[at] ^= 0x40;
        let place = [0, 0, 0, 3, 3].get(at).copied().unwrap_or(5);
        assert_eq!(damage(&bytes), (11, place), "byte {at}");
    }
}

/// The image's own numbers, places counted in the image; before the place fields.
#[test]
fn damaged_images_in_checkpoints_are_refused() {
    let (good, image) = one_trial_on();
    assert_eq!(damage(&good[..CHECKPOINT_HEAD]), (1, 0));
    assert_eq!(damage(&good[..good.len() - 1]).0, 3);
    assert_eq!(damage(&[&good[..], &[0]].concat()), (7, image.len()));
    let mut both = good.clone();
    both[5] = 9;
    both[CHECKPOINT_HEAD + 5] = 9;
    assert_eq!(damage(&both), (4, 5));
}
