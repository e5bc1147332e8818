//! `contract image` turns the text form of a contract into its image, `contract text` an image into its text form.

use std::env;
use std::ffi::OsString;
use std::io::{self, Read, Write};
use std::process::ExitCode;

use image::reading::read;
use image::text::{parse, print, refusal, BadText};
use image::tree::most;
use image::writing::write;

const USAGE: &str = "usage: contract image < TEXT > IMAGE
       contract text < IMAGE > TEXT";

/// The longest text that is read.
const LONGEST_TEXT: usize = 16 * 1024 * 1024;

/// What a run gives: the output, or one line that says what is wrong.
type Made = Result<Vec<u8>, String>;

/// One word says which way; the exit status is 0, 1 for a fault in the input, 2 for wrong usage.
fn main() -> ExitCode {
    let words: Vec<OsString> = env::args_os().skip(1).collect();
    let made = match words.first().and_then(|word| word.to_str()) {
        Some("image") if words.len() == 1 => to_image(),
        Some("text") if words.len() == 1 => to_text(),
        _ => return complain(USAGE, 2),
    };
    match made.and_then(|output| put(&output)) {
        Ok(()) => ExitCode::SUCCESS,
        Err(message) => complain(&message, 1),
    }
}

/// A message on standard error, and the exit status.
fn complain(message: &str, status: u8) -> ExitCode {
    // there is nowhere left to tell of a failure here
    let _ = writeln!(io::stderr(), "{message}");
    ExitCode::from(status)
}

/// The image of the text on standard input.
fn to_image() -> Made {
    let bytes = input(LONGEST_TEXT)?;
    if bytes.len() > LONGEST_TEXT {
        return Err(bad_behind(&bytes[..LONGEST_TEXT], format!("the text is longer than {LONGEST_TEXT} bytes")));
    }
    let not_utf8 = |valid: usize| bad_behind(&bytes[..valid], "the text is not UTF-8".to_string());
    let text = std::str::from_utf8(&bytes).map_err(|error| not_utf8(error.valid_up_to()))?;
    let contract = parse(text).map_err(|error| error.to_string())?;
    Ok(write(&contract))
}

/// The text of the image on standard input.
fn to_text() -> Made {
    let bytes = input(most::BYTES)?;
    let contract = read(&bytes).map_err(|fault| refusal(&bytes, &fault))?;
    Ok(print(&contract).into_bytes())
}

/// An error that shows behind the first part of a text.
fn bad_behind(before: &[u8], message: String) -> String {
    let line = 1 + before.iter().filter(|byte| **byte == b'\n').count();
    BadText { line, message }.to_string()
}

/// Standard input, and of one that is over the bound no more than shows it.
fn input(bound: usize) -> Made {
    let mut bytes = vec![];
    let read = io::stdin().lock().take(bound as u64 + 1).read_to_end(&mut bytes);
    read.map_err(|error| format!("standard input cannot be read: {error}"))?;
    Ok(bytes)
}

/// All of the output to standard output.
fn put(output: &[u8]) -> Result<(), String> {
    let mut out = io::stdout().lock();
    out.write_all(output).and_then(|()| out.flush()).map_err(|error| format!("standard output cannot be written: {error}"))
}
