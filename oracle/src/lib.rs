//! What the original says of an image. The verdict, its location and its sentence come from the untouched module; path number, mask and
//! total from the probe behind a copy of it (original/probe.rs), whose verdict must be the same.

pub mod answering;
pub mod formulas;
pub mod masks;
pub mod program;
pub mod tree;
pub mod walk;

use std::cell::{Cell, RefCell};
use std::fmt;
use std::panic::{catch_unwind, set_hook, take_hook, AssertUnwindSafe};
use std::sync::Once;

pub use bithoven::ast::Location;
use bithoven::ast::{CompileError, ErrorKind, Statement};
use bithoven::necessity;
use bithoven::probed::probe::{self, Found};
use image::generator::Known;
use image::reading;
use image::tree::{most, Contract};
use tree::Locations;

/// The answer to an image, in the numbers of document 01.
#[derive(Clone, Debug, PartialEq)]
pub enum Answer {
    Refused { number: u32, place: usize },
    Judged(Judged),
}

#[derive(Clone, Debug, PartialEq)]
pub struct Judged {
    /// The Sig and Free atoms of each path.
    pub atoms: Vec<(usize, usize)>,
    pub verdict: u32,
    pub reason: u32,
    pub path: usize,
    pub location: Location,
    pub mask: u64,
    pub tried: u64,
}

/// An answer, and what the original said in its own words.
pub struct Said {
    pub answer: Answer,
    pub words: String,
}

impl Answer {
    /// What answers are counted by: the refusal number, or the verdict and its reason.
    pub fn name(&self) -> String {
        match self {
            Answer::Refused { number, .. } => format!("refused {number:2}"),
            Answer::Judged(judged) => format!("verdict {} reason {}", judged.verdict, judged.reason),
        }
    }

    /// Whether it is what is known of an image by the way it was made.
    pub fn agrees(&self, known: Known) -> bool {
        match known {
            Known::Refused { number, place } => *self == Answer::Refused { number, place },
            Known::Accepted => matches!(self, Answer::Judged(_)),
            Known::Read => !matches!(self, Answer::Refused { number: ..=8, .. }),
            Known::Nothing => true,
        }
    }
}

/// The lines that document 01 has for the desk program.
impl fmt::Display for Answer {
    fn fmt(&self, out: &mut fmt::Formatter<'_>) -> fmt::Result {
        match self {
            Answer::Refused { number, place } => writeln!(out, "refused {number} at {place}"),
            Answer::Judged(judged) => {
                for (number, (sigs, frees)) in judged.atoms.iter().enumerate() {
                    writeln!(out, "path {number} sigs {sigs} free {frees}")?;
                }
                let Judged { verdict, reason, path, mask, tried, location, .. } = judged;
                let Location { start, end, line, column } = location;
                write!(out, "verdict {verdict} reason {reason} path {path} ")?;
                write!(out, "start {start} end {end} line {line} column {column} ")?;
                writeln!(out, "mask {mask} tried {tried}")
            }
        }
    }
}

/// What is said of any bytes. An error is a fault of the oracle itself.
pub fn answer(bytes: &[u8]) -> Result<Said, String> {
    let contract = match reading::read(bytes) {
        Ok(contract) => contract,
        Err(fault) => return Ok(refused(fault.number(), fault.place(), "not asked: the image cannot be read")),
    };
    let ast = tree::statements(&contract, Locations::Own);
    if necessity::count_paths(&ast) > most::PATHS {
        return Ok(refused(9, 0, "not asked: more than 128 paths"));
    }
    match caught(|| judge(&ast)) {
        Ok(said) => said,
        Err(message) => overflow(&contract, &message).map(|place| refused(10, place, format!("panics: {message}"))),
    }
}

fn refused(number: u32, place: usize, words: impl Into<String>) -> Said {
    Said { answer: Answer::Refused { number, place }, words: words.into() }
}

/// The untouched module's answer, with what the probe adds to it.
fn judge(ast: &Vec<Statement>) -> Result<Said, String> {
    let spoken = untouched(necessity::check_necessity(ast))?;
    let atoms = probe::atoms(ast);
    same_counts(&atoms, necessity::count_paths(ast), &necessity::path_free_atoms(ast))?;
    let found = probe::search(ast);
    same_end(&found, &spoken)?;
    let Spoken { verdict, reason, location, words } = spoken;
    let Found { path, mask, tried, .. } = found;
    Ok(Said { answer: Answer::Judged(Judged { atoms, verdict, reason, path, location, mask, tried }), words })
}

/// What the untouched module says: document 01's numbers for it, and its words.
struct Spoken {
    verdict: u32,
    reason: u32,
    location: Location,
    words: String,
}

fn untouched(result: Result<(), CompileError>) -> Result<Spoken, String> {
    let Err(CompileError { loc: location, kind }) = result else {
        let location = Location { start: 0, end: 0, line: 0, column: 0 };
        return Ok(Spoken { verdict: 0, reason: 0, location, words: "Ok".to_string() });
    };
    let (verdict, reason, words) = match kind {
        ErrorKind::NoSigRequired(words) if words.contains("attacker-controlled inputs") => (1, 1, format!("NoSigRequired: {words}")),
        ErrorKind::NoSigRequired(words) => (1, 2, format!("NoSigRequired: {words}")),
        ErrorKind::UselessSig(words) => (2, 2, format!("UselessSig: {words}")),
        ErrorKind::DeadPath(words) => (3, 0, format!("DeadPath: {words}")),
        other => return Err(format!("the original gives an error of another module: {other:?}")),
    };
    Ok(Spoken { verdict, reason, location, words })
}

/// The probe's paths and Free atoms are the untouched module's.
fn same_counts(atoms: &[(usize, usize)], paths: usize, frees: &[usize]) -> Result<(), String> {
    if atoms.len() != paths || !atoms.iter().map(|(_, frees)| frees).eq(frees) {
        return Err(format!("the probe counts {atoms:?}, the original {paths} paths with {frees:?} Free atoms"));
    }
    Ok(())
}

/// The probe's end is the untouched module's.
fn same_end(found: &Found, spoken: &Spoken) -> Result<(), String> {
    if (found.verdict, found.reason, &found.location) != (spoken.verdict, spoken.reason, &spoken.location) {
        return Err(format!("the probe ends in verdict {} reason {}, the original says {}", found.verdict, found.reason, spoken.words));
    }
    Ok(())
}

/// The place of refusal 10: the operation that panics, if that is why the original panicked.
fn overflow(contract: &Contract, message: &str) -> Result<usize, String> {
    let place = caught(|| probe::overflow(&tree::statements(contract, Locations::Offsets)));
    match place {
        Ok(Some(place)) if message.ends_with("with overflow") => Ok(place),
        _ => Err(format!("the original panics: {message}")),
    }
}

thread_local! {
    /// Whether a panic of this thread is kept instead of printed.
    static KEEPING: Cell<bool> = const { Cell::new(false) };
    /// What the last kept panic said.
    static KEPT: RefCell<String> = const { RefCell::new(String::new()) };
}

/// The work's result, or what it panicked with, which is not printed.
fn caught<T>(work: impl FnOnce() -> T) -> Result<T, String> {
    static HOOK: Once = Once::new();
    HOOK.call_once(|| {
        let printed = take_hook();
        set_hook(Box::new(move |panic| match KEEPING.get() {
            true => KEPT.set(panic.payload_as_str().unwrap_or_default().to_string()),
            false => printed(panic),
        }));
    });
    KEEPING.set(true);
    let result = catch_unwind(AssertUnwindSafe(work));
    KEEPING.set(false);
    result.map_err(|_| KEPT.take())
}

#[cfg(test)]
mod tests {
    use super::*;

    fn location(start: usize) -> Location {
        Location { start, end: 0, line: 0, column: 0 }
    }

    fn spoken(verdict: u32, reason: u32, start: usize) -> Spoken {
        Spoken { verdict, reason, location: location(start), words: String::new() }
    }

    #[test]
    fn a_probe_that_ends_otherwise_is_noticed() {
        let found = Found { verdict: 1, reason: 2, path: 0, location: location(5), mask: 0, tried: 1 };
        assert!(same_end(&found, &spoken(1, 2, 5)).is_ok());
        for other in [spoken(2, 2, 5), spoken(1, 1, 5), spoken(1, 2, 6)] {
            assert!(same_end(&found, &other).is_err());
        }
    }

    #[test]
    fn a_probe_that_counts_otherwise_is_noticed() {
        assert!(same_counts(&[(1, 2), (0, 3)], 2, &[2, 3]).is_ok());
        assert!(same_counts(&[(1, 2), (0, 3)], 3, &[2, 3]).is_err());
        assert!(same_counts(&[(1, 2), (0, 3)], 2, &[2, 4]).is_err());
        assert!(same_counts(&[(1, 2), (0, 3)], 2, &[2]).is_err());
    }

    #[test]
    fn a_panic_that_is_no_overflow_is_no_refusal() {
        let contract = image::text::parse("mode 0\nreturn add1(9223372036854775807)\n").unwrap();
        assert!(overflow(&contract, "attempt to add with overflow").is_ok());
        assert!(overflow(&contract, "index out of bounds").is_err());
        let sound = image::text::parse("mode 0\nreturn checksig\n").unwrap();
        assert!(overflow(&sound, "attempt to add with overflow").is_err());
    }

    #[test]
    fn what_panicked_is_kept() {
        assert_eq!(caught(|| 1), Ok(1));
        assert_eq!(caught(|| -> u32 { panic!("so") }), Err("so".to_string()));
    }

    #[test]
    fn what_panicked_is_kept_by_each_thread() {
        std::thread::scope(|scope| {
            for number in 0..4 {
                scope.spawn(move || (0..500).for_each(|_| assert_eq!(caught(|| -> u32 { panic!("{number}") }), Err(number.to_string()))));
            }
        });
    }
}
