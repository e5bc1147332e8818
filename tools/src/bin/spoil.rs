//! `spoil` reads the recorded list (crates/recorded/README.md says what stands in it) and writes it with one wrong number in each row's
//! answer, of another kind and in another bit from row to row: a list of which no row is right. A mask is never wrong, since it is asked
//! about and not compared. On standard error it tells which number of each row is wrong, in the words that the program of crates/recorded
//! has to find for it. `spoil lines` reads the replayed list (crates/replay/README.md), whose answers are lines of text, and makes one digit of each wrong.

use std::collections::BTreeSet;
use std::env;
use std::ffi::OsString;
use std::io::{self, BufReader, BufWriter, Read, Write};
use std::process::ExitCode;

use image::recorded::{kinds, Kind};
use image::stream::{put, take};

/// The exit status is 0, 1 for a list that is none or output that cannot be written, 2 for wrong usage.
fn main() -> ExitCode {
    let words: Vec<OsString> = env::args_os().skip(1).collect();
    let spoilt = match words.as_slice() {
        [] => all(spoil),
        [word] if word == "lines" => all(spoil_lines),
        _ => return complain("usage: spoil [lines] < LIST > SPOILT 2> TOLD", 2),
    };
    match spoilt {
        Ok(()) => ExitCode::SUCCESS,
        Err(message) => complain(&format!("spoil: {message}"), 1),
    }
}

/// A message on standard error, and the exit status.
fn complain(message: &str, status: u8) -> ExitCode {
    // there is nowhere left to tell of a failure here
    let _ = writeln!(io::stderr(), "{message}");
    ExitCode::from(status)
}

/// Makes the answer of a row wrong; what is to be told of it comes back, or nothing if it is no answer.
type Spoil = fn(usize, &mut [u8]) -> Option<String>;

/// Every row of standard input, spoilt.
fn all(spoil: Spoil) -> Result<(), String> {
    let mut list = BufReader::new(io::stdin().lock());
    let (mut spoilt, mut told) = (BufWriter::new(io::stdout().lock()), BufWriter::new(io::stderr().lock()));
    let mut number = 0;
    while let Some(image) = part(&mut list, number)? {
        let mut answer = part(&mut list, number)?.ok_or_else(|| format!("row {number}: the image has no answer"))?;
        let message = spoil(number, &mut answer).ok_or_else(|| format!("row {number}: the answer is none"))?;
        put(&mut spoilt, &image).and_then(|()| put(&mut spoilt, &answer)).map_err(unwritten)?;
        writeln!(told, "row {number}: {message}").map_err(unwritten)?;
        number += 1;
    }
    spoilt.flush().and_then(|()| told.flush()).map_err(unwritten)
}

/// The next image or answer, whole.
fn part(list: &mut impl Read, row: usize) -> Result<Option<Vec<u8>>, String> {
    take(list, usize::MAX).map_err(|error| format!("row {row}: {error}"))
}

/// Gives one number of a row's answer another bit. What is no answer cannot be wrong.
fn spoil(row: usize, answer: &mut [u8]) -> Option<String> {
    let numbers: Vec<u32> = answer.chunks(4).map(|four| four.try_into().ok().map(u32::from_be_bytes)).collect::<Option<_>>()?;
    let at = chosen(row, &kinds(&numbers)?);
    answer[4 * at..4 * at + 4].copy_from_slice(&(numbers[at] ^ 1 << (row / 3 % 32)).to_be_bytes());
    Some(format!("number {at} of the answer differs"))
}

/// Makes one digit of a row's lines another: the digits take turns from row to row.
fn spoil_lines(row: usize, answer: &mut [u8]) -> Option<String> {
    let digits: Vec<usize> = (0..answer.len()).filter(|at| answer[*at].is_ascii_digit()).collect();
    let at = *digits.get(row % digits.len().max(1))?;
    answer[at] = b'0' + (answer[at] - b'0' + 1) % 10;
    Some("the lines differ".to_string())
}

/// A number of the answer: the kinds that it has take turns from row to row, and so do the numbers of a kind.
fn chosen(row: usize, kinds: &[Kind]) -> usize {
    let turns: BTreeSet<Kind> = kinds.iter().copied().filter(|kind| *kind != Kind::Mask).collect();
    let turns: Vec<Kind> = turns.into_iter().collect();
    let places: Vec<usize> = (0..kinds.len()).filter(|at| kinds[*at] == turns[row % turns.len()]).collect();
    places[row / turns.len() % places.len()]
}

/// What is said where a row cannot be written.
fn unwritten(error: io::Error) -> String {
    format!("the spoilt list cannot be written: {error}")
}
