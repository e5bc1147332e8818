//! The proved code that is not among the library's entries, as crates/bench exports it. The entries come from the package of bindings/rust.

/// A refusal's number and place; for an image that is accepted 0, and what was asked for.
#[repr(C)]
#[derive(Clone, Copy, Debug, PartialEq, Eq)]
pub struct Told {
    pub number: u64,
    pub value: u64,
}

impl Told {
    /// What is told of an image that is accepted.
    pub fn is(value: usize) -> Told {
        Told { number: 0, value: value as u64 }
    }
}

extern "C" {
    fn bench_read(image: *const u8, length: usize) -> Told;
    fn bench_survey(image: *const u8, length: usize) -> Told;
    fn bench_assignments(image: *const u8, length: usize, phase: u8, last: u32) -> Told;
}

/// Reads an image: the count of its top statements.
pub fn read(image: &[u8]) -> Told {
    // SAFETY: the pointer and the length are those of a slice, which the call only reads
    unsafe { bench_read(image.as_ptr(), image.len()) }
}

/// Accepts an image: how many paths it has.
pub fn survey(image: &[u8]) -> Told {
    // SAFETY: as in `read`
    unsafe { bench_survey(image.as_ptr(), image.len()) }
}

/// Accepts an image, makes the formula of its first path and tries the masks from 0 to the last one: how many satisfy it.
pub fn assignments(image: &[u8], phase: u8, last: u32) -> Told {
    // SAFETY: as in `read`
    unsafe { bench_assignments(image.as_ptr(), image.len(), phase, last) }
}
