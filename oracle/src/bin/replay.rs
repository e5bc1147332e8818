//! `replay` reads a stream of images and writes them with the lines that the desk program has to print for them, as the list that crates/replay
//! runs the proved code on; crates/replay/README.md says what stands in the list. On standard error it tells how often each answer came, and
//! how many assignments are tried in all.

use std::process::ExitCode;

use oracle::answering::{each, row, Counts};
use oracle::{answer, program, Answer};

fn main() -> ExitCode {
    program::run("replay", "replay < STREAM", |words| words.is_empty().then(|| each(|_, image, counts| told(image, counts))))
}

/// The row of an image.
fn told(image: &[u8], counts: &mut Counts) -> Result<Vec<u8>, String> {
    let answer = answer(image)?.answer;
    counts.add(answer.name(), 1);
    if let Answer::Judged(judged) = &answer {
        counts.add("tried", judged.tried);
    }
    row(image, answer.to_string().as_bytes())
}
