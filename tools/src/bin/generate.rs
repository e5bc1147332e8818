//! Writes images from a seed to standard output, each after a 32-bit big-endian length, and a report to standard error.

use image::generator::census::Census;
use image::generator::{cases, Case, Request};
use image::stream;
use std::ffi::OsString;
use std::io::{self, BufWriter, Write};
use std::process::ExitCode;

const USAGE: &str = "usage: generate SEED WHAT..
WHAT is any of
  random=N    N random contracts
  damaged=N   N damaged copies of random contracts
  cuts        every cut and every unknown code of one contract that holds every kind of field
  limits      every size limit and one past it
  rules       faults that compete, for every rule of order
  parts       each bit of a byte, count or location, each tag too deep, nodes in every part of an if
  formulas    formulas of every kind: atoms that are shared or not, structure, folding, strings, many atoms
  mode=0|1    one mode (both if it is left out)
  atoms=N     the most atoms of a path that may have to be searched, at most 20 (10)
  bytes=N     the greatest size of a random contract's image, 8 to 32768 (1500)
and of these
  only=TEXT   only those whose kind has TEXT in it
  longest=N   only those of at most N bytes";

/// A request, and which of its images are written.
struct Asked {
    seed: u64,
    request: Request,
    only: String,
    longest: usize,
}

impl Asked {
    /// Whether an image is written.
    fn keeps(&self, case: &Case) -> bool {
        case.kind.contains(&self.only) && case.image.len() <= self.longest
    }
}

/// The exit status is 0, 1 if the stream cannot be written, 2 for wrong usage.
fn main() -> ExitCode {
    let arguments: Vec<OsString> = std::env::args_os().skip(1).collect();
    match asked(&arguments) {
        Ok(asked) => finish(generate(&asked)),
        Err(message) => complain(&format!("{message}\n{USAGE}"), 2),
    }
}

/// A message on standard error, and the exit status.
fn complain(message: &str, status: u8) -> ExitCode {
    // there is nowhere left to tell of a failure here
    let _ = writeln!(io::stderr(), "generate: {message}");
    ExitCode::from(status)
}

/// An argument as text.
fn plain(argument: &OsString) -> Result<&str, String> {
    argument.to_str().ok_or_else(|| format!("an argument is not UTF-8: {}", argument.to_string_lossy()))
}

/// What the arguments ask for.
fn asked(arguments: &[OsString]) -> Result<Asked, String> {
    let (seed, rest) = arguments.split_first().ok_or("no seed")?;
    let seed = plain(seed)?;
    let seed = seed.parse().map_err(|_| format!("the seed is not a 64-bit number: {seed}"))?;
    let mut asked = Asked { seed, request: Request::default(), only: String::new(), longest: usize::MAX };
    for argument in rest {
        take(&mut asked, plain(argument)?)?;
    }
    let request = &asked.request;
    match request.random > 0 || request.damaged > 0 || request.cuts || request.limits || request.rules || request.parts || request.formulas
    {
        true => Ok(asked),
        false => Err("nothing is asked for".to_string()),
    }
}

/// One argument into what is asked for.
fn take(asked: &mut Asked, argument: &str) -> Result<(), String> {
    let request = &mut asked.request;
    let (name, value) = argument.split_once('=').unwrap_or((argument, ""));
    match name {
        "cuts" if argument == name => request.cuts = true,
        "limits" if argument == name => request.limits = true,
        "rules" if argument == name => request.rules = true,
        "parts" if argument == name => request.parts = true,
        "formulas" if argument == name => request.formulas = true,
        "random" => request.random = number(argument, value, 0, usize::MAX)?,
        "damaged" => request.damaged = number(argument, value, 0, usize::MAX)?,
        "mode" => request.mode = Some(number(argument, value, 0, 1)? as u8),
        "atoms" => request.most_atoms = number(argument, value, 0, 20)?,
        "bytes" => request.most_bytes = number(argument, value, 8, 32_768)?,
        "only" if argument != name => asked.only = value.to_string(),
        "longest" => asked.longest = number(argument, value, 0, usize::MAX)?,
        _ => return Err(format!("unknown argument: {argument}")),
    }
    Ok(())
}

/// A number within bounds.
fn number(argument: &str, value: &str, least: usize, most: usize) -> Result<usize, String> {
    let number = value.parse().map_err(|_| format!("not a number: {argument}"))?;
    match (least..=most).contains(&number) {
        true => Ok(number),
        false => Err(format!("not from {least} to {most}: {argument}")),
    }
}

/// The stream to standard output; what is in it comes back.
fn generate(asked: &Asked) -> io::Result<Census> {
    let mut output = BufWriter::new(io::stdout().lock());
    let mut census = Census::default();
    for case in cases(asked.seed, &asked.request).filter(|case| asked.keeps(case)) {
        stream::put(&mut output, &case.image)?;
        census.add(&case);
    }
    output.flush()?;
    Ok(census)
}

/// The report, and the exit status; a reader that went away is told like any other failure.
fn finish(result: io::Result<Census>) -> ExitCode {
    match result {
        Ok(census) => {
            // the stream is whole, whether or not its report can be written
            let _ = write!(io::stderr(), "{census}");
            ExitCode::SUCCESS
        }
        Err(error) => complain(&format!("standard output cannot be written: {error}"), 1),
    }
}
