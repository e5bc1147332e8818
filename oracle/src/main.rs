//! `oracle` answers a stream of images on standard input, each after a 32-bit big-endian length: for each the number of the image, the
//! desk program's lines, the original's own words and an empty line; and at the end, on standard error, how often each answer came.
//! `oracle image` answers one image with the desk program's lines alone.

use std::io::{self, Read, Write};
use std::process::ExitCode;

use image::tree::most;
use oracle::answering::{each, Counts};
use oracle::{answer, program};

fn main() -> ExitCode {
    program::run("oracle", "oracle < STREAM, or oracle image < IMAGE", |words| match words {
        [] => Some(each(told)),
        ["image"] => Some(one()),
        _ => None,
    })
}

/// One image, of which no more is read than shows that it is too long.
fn one() -> Result<(), String> {
    let mut bytes = vec![];
    io::stdin().take(most::BYTES as u64 + 1).read_to_end(&mut bytes).map_err(|error| error.to_string())?;
    let lines = answer(&bytes)?.answer.to_string();
    io::stdout().write_all(lines.as_bytes()).map_err(|error| error.to_string())
}

/// What is said of an image of a stream.
fn told(number: usize, image: &[u8], counts: &mut Counts) -> Result<Vec<u8>, String> {
    let said = answer(image)?;
    counts.add(said.answer.name(), 1);
    Ok(format!("image {number}\n{}rust {}\n\n", said.answer, said.words).into_bytes())
}
