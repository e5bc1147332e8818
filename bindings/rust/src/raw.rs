//! The declarations of crates/exports/src/lib.rt, by name, field for field. A slice is a pointer and a length; the pointer is that of a slice, so it is
//! never null. tests/declarations.rs compares the two texts, and bindings/c/bayekosh.h with them.

/// Where an examination stands.
#[repr(C)]
#[derive(Clone, Copy, Debug, PartialEq, Eq)]
pub struct Standing {
    pub phase: u8,
    pub path: u16,
    pub mask: u32,
    pub count: u64,
}

/// How many paths an image has.
#[repr(C)]
#[derive(Clone, Copy, Debug, PartialEq, Eq)]
pub struct CountedAnswer {
    pub number: u32,
    pub place: usize,
    pub paths: usize,
}

/// The Sig and Free atoms of a path.
#[repr(C)]
#[derive(Clone, Copy, Debug, PartialEq, Eq)]
pub struct NumberedAnswer {
    pub number: u32,
    pub place: usize,
    pub sigs: usize,
    pub frees: usize,
}

/// Whether a path can be satisfied: found is 0 for none, 1 for the mask, 2 for a path over its bound.
#[repr(C)]
#[derive(Clone, Copy, Debug, PartialEq, Eq)]
pub struct SatisfiableAnswer {
    pub number: u32,
    pub place: usize,
    pub found: u32,
    pub mask: u32,
}

/// An examination to begin with, or to go on with.
#[repr(C)]
#[derive(Clone, Copy, Debug, PartialEq, Eq)]
pub struct OpenedAnswer {
    pub number: u32,
    pub place: usize,
    pub examination: Standing,
}

/// The verdict of the unstopped run.
#[repr(C)]
#[derive(Clone, Copy, Debug, PartialEq, Eq)]
pub struct CheckedAnswer {
    pub number: u32,
    pub place: usize,
    pub verdict: u32,
    pub reason: u32,
    pub path: u32,
    pub start: u32,
    pub end: u32,
    pub line: u32,
    pub column: u32,
    pub mask: u32,
    pub total: u64,
}

/// What a slice says, and the examination at its new place.
#[repr(C)]
#[derive(Clone, Copy, Debug, PartialEq, Eq)]
pub struct SlicedAnswer {
    pub ended: u32,
    pub said: CheckedAnswer,
    pub examination: Standing,
}

/// How many bytes of a checkpoint were written, and the examination as it was.
#[repr(C)]
#[derive(Clone, Copy, Debug, PartialEq, Eq)]
pub struct WrittenAnswer {
    pub number: u32,
    pub place: usize,
    pub length: usize,
    pub examination: Standing,
}

/// A part of the bytes that were handed over.
#[repr(C)]
#[derive(Clone, Copy, Debug, PartialEq, Eq)]
pub struct ImagePart {
    pub offset: usize,
    pub length: usize,
}

extern "C" {
    pub fn bayekosh_count_paths(image: *const u8, image_length: usize) -> CountedAnswer;
    pub fn bayekosh_path_free_atoms(image: *const u8, image_length: usize, path: usize) -> NumberedAnswer;
    pub fn bayekosh_satisfiable_without_signatures(image: *const u8, image_length: usize, path: usize) -> SatisfiableAnswer;
    pub fn bayekosh_satisfiable_at_all(image: *const u8, image_length: usize, path: usize) -> SatisfiableAnswer;
    pub fn bayekosh_start(image: *const u8, image_length: usize) -> OpenedAnswer;
    pub fn bayekosh_slice(examination: Standing, image: *const u8, image_length: usize, budget: u64) -> SlicedAnswer;
    pub fn bayekosh_check_necessity(image: *const u8, image_length: usize) -> CheckedAnswer;
    pub fn bayekosh_write_checkpoint(
        examination: Standing,
        image: *const u8,
        image_length: usize,
        buffer: *mut u8,
        buffer_length: usize,
    ) -> WrittenAnswer;
    pub fn bayekosh_read_checkpoint(bytes: *const u8, bytes_length: usize) -> OpenedAnswer;
    pub fn bayekosh_checkpoint_image(bytes: *const u8, bytes_length: usize) -> ImagePart;
}
