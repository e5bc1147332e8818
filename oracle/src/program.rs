//! How the programs of this crate begin and end.

use std::env;
use std::io::{self, Write};
use std::process::ExitCode;

/// Runs what the words of the command line name. Status 1 and a message if it fails, status 2 and the usage if they name nothing
/// or are not UTF-8.
pub fn run(name: &str, usage: &str, work: impl FnOnce(&[&str]) -> Option<Result<(), String>>) -> ExitCode {
    let words: Option<Vec<String>> = env::args_os().skip(1).map(|word| word.into_string().ok()).collect();
    match words.and_then(|words| work(&words.iter().map(String::as_str).collect::<Vec<_>>())) {
        Some(Ok(())) => ExitCode::SUCCESS,
        Some(Err(message)) => complain(&format!("{name}: {message}"), 1),
        None => complain(&format!("usage: {usage}"), 2),
    }
}

/// A message on standard error, and the exit status.
fn complain(message: &str, status: u8) -> ExitCode {
    // there is nowhere left to tell of a failure here
    let _ = writeln!(io::stderr(), "{message}");
    ExitCode::from(status)
}
