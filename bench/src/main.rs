//! Times the proved code beside the Rust, in one process and on the same images, and prints a table. bench/run builds it and runs it.

mod contracts;
mod formulas;
mod images;
#[cfg_attr(not(feature = "original"), path = "absent.rs")]
mod original;
mod ours;
mod table;
mod timing;

use std::hint::black_box;

use bayekosh::Said;
use image::generator::census::paths;
use image::reading;

use formulas::MASKS;
use images::Sample;
use ours::Told;
use table::{row, Part};
use timing::work;

fn main() {
    let (greatest, shared) = (images::greatest(), images::shared());
    let (formulas, contracts) = (formulas::formulas(), contracts::contracts());
    table::above(&[&greatest, &shared, &formulas, &contracts]);
    greatest.iter().for_each(reading);
    greatest.iter().chain(&shared).for_each(surveying);
    formulas.iter().for_each(evaluation);
    formulas.iter().take(1).chain(&contracts).for_each(verdict);
    greatest.iter().chain(&shared).for_each(slice);
}

/// A read image, for each byte.
fn reading(sample: &Sample) {
    let image = sample.image.as_slice();
    let read = reading::read(image).expect("a sample can be read");
    assert_eq!(ours::read(image), Told::is(read.statements.len()));
    let part = Part { name: "reading", unit: "ns/byte", divisor: image.len() as f64 };
    row(&part, sample.name, Some(work(|| reading::read(black_box(image)))), work(|| ours::read(black_box(image))));
}

/// An accepted image.
fn surveying(sample: &Sample) {
    let image = sample.image.as_slice();
    assert_eq!(ours::survey(image), Told::is(paths(&sample.contract.statements)));
    let part = Part { name: "surveying", unit: "us", divisor: 1e3 };
    row(&part, sample.name, original::surveying(sample), work(|| ours::survey(black_box(image))));
}

/// An assignment, of all that are tried without a signature.
fn evaluation(sample: &Sample) {
    let image = sample.image.as_slice();
    assert_eq!(ours::assignments(image, 0, MASKS - 1), Told::is(0));
    let part = Part { name: "evaluation", unit: "ns", divisor: MASKS as f64 };
    row(&part, sample.name, original::evaluation(sample), work(|| ours::assignments(black_box(image), 0, MASKS - 1)));
}

/// An unstopped run.
fn verdict(sample: &Sample) {
    let image = sample.image.as_slice();
    let part = Part { name: "whole verdict", unit: "us", divisor: 1e3 };
    row(&part, sample.name, original::verdict(sample), work(|| bayekosh::check_necessity(black_box(image))));
}

/// An examination's first slice, in which at most one assignment is tried.
fn slice(sample: &Sample) {
    let image = sample.image.as_slice();
    let first = bayekosh::start(image).expect("a sample is accepted");
    let (next, said) = first.slice(image, 1);
    assert!(next.count == 1 || matches!(said, Ok(Said::Done(end)) if end.total <= 1));
    let part = Part { name: "slice of budget 1", unit: "us", divisor: 1e3 };
    row(&part, sample.name, None, work(|| first.slice(black_box(image), 1)));
}
