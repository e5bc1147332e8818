//! `scale [SEED [IMAGES]]` compares the proved library with the original on that many random images of mode 0 and on everything else, prints the
//! counts, and ends in `N images, 0 differences`, or fails; `scale short` on fewer. scale/run builds what it needs and runs it.

use std::process::ExitCode;
use std::time::Instant;

use image::samples;
use oracle::program;
use scale::groups::{groups, Group, Size};
use scale::images::told;
use scale::library::Library;
use scale::noticing::{few, unnoticed};
use scale::report;
use scale::tally::Tally;
use scale::workers::compare_group;
use scale::wrong::every;

/// How many images of mode 0 are random, if nothing is said.
const IMAGES: usize = 100_000;

/// How many workers there are.
const WORKERS: usize = 2;

/// The program.
fn main() -> ExitCode {
    program::run("scale", "scale [SEED [IMAGES]], or scale short", |words| asked(words).map(compare_all))
}

/// What the words ask for.
fn asked(words: &[&str]) -> Option<Size> {
    match words {
        ["short"] => Some(Size::short()),
        [] => Some(Size::long(1, IMAGES)),
        [seed] => Some(Size::long(seed.parse().ok()?, IMAGES)),
        [seed, random] => Some(Size::long(seed.parse().ok()?, random.parse().ok()?)),
        _ => None,
    }
}

/// Every group, the counts, and the last line.
fn compare_all(size: Size) -> Result<(), String> {
    recorded()?;
    let tallies = groups(size)?.into_iter().map(compared).collect::<Result<Vec<_>, _>>()?;
    let mut all = Tally::default();
    tallies.iter().for_each(|(_, tally)| all.join(tally.clone()));
    println!("{}\n{}", report::table(&tallies, &all), all.calls);
    for (name, tally) in &tallies {
        tally.first.iter().for_each(|difference| print!("{}", report::difference(name, difference)));
    }
    noticed(size.seed)?;
    ended(&all)
}

/// A group's name and counts; how long it takes is told.
fn compared(group: Group) -> Result<(&'static str, Tally), String> {
    let (name, start) = (group.name, Instant::now());
    let tally = compare_group(&Library::default(), group, WORKERS)?;
    eprintln!("{name}: {} images, {:.1} s", tally.images, start.elapsed().as_secs_f64());
    Ok((name, tally))
}

/// The library's answers to the samples are those that are recorded beside them; those of document 01's runs are shown.
fn recorded() -> Result<(), String> {
    let samples = samples::every()?;
    for sample in &samples {
        let said = told(&Library::default(), &sample.image).to_string();
        if said != sample.answer {
            return Err(format!("{}: recorded is {}, the library says {said}", sample.name, sample.answer));
        }
    }
    println!("{}", report::runs(&samples)?);
    Ok(())
}

/// Each wrong copy of the library is noticed.
fn noticed(seed: u64) -> Result<(), String> {
    let (all, unnoticed) = (every().len(), unnoticed(&few(seed)?, seed));
    println!("wrong copies of the library made on purpose: {all}, noticed: {}", all - unnoticed.len());
    match unnoticed.is_empty() {
        true => Ok(()),
        false => Err(format!("wrong numbers are not noticed: {unnoticed:?}")),
    }
}

/// The last line; an answer that did not occur fails too.
fn ended(all: &Tally) -> Result<(), String> {
    let missing: Vec<String> = report::answers().into_iter().filter(|answer| all.answers.of(answer) == 0).collect();
    println!("{} images, {} differences", all.images, all.differences);
    match (all.differences, missing.is_empty()) {
        (0, true) => Ok(()),
        (0, false) => Err(format!("these answers did not occur: {}", missing.join(", "))),
        _ => Err("the library and the original differ".to_string()),
    }
}
