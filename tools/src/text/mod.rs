//! The text form of a contract: what its image carries, one statement to a line, for reading and for writing by hand.
//! `samples/README.md` has its grammar.

mod parse;
mod print;
mod refusal;
mod tokens;
mod values;
pub(crate) mod words;

use std::fmt;

pub use parse::parse;
pub use print::print;
pub use refusal::refusal;

/// Why a text is no contract, and the line where that shows.
#[derive(Clone, Debug, PartialEq, Eq)]
pub struct BadText {
    pub line: usize,
    pub message: String,
}

impl fmt::Display for BadText {
    /// The line, then what is wrong there.
    fn fmt(&self, out: &mut fmt::Formatter<'_>) -> fmt::Result {
        write!(out, "line {}: {}", self.line, self.message)
    }
}
