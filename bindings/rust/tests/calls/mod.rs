//! The ten C calls on slices, each with the whole of its answer.

use bayekosh::raw::*;

/// How many paths an image has.
pub fn count_paths(image: &[u8]) -> CountedAnswer {
    // SAFETY: the pointer and the length are those of a slice, which the call only reads
    unsafe { bayekosh_count_paths(image.as_ptr(), image.len()) }
}

/// How many Sig and Free atoms a path has.
pub fn path_free_atoms(image: &[u8], path: usize) -> NumberedAnswer {
    // SAFETY: as in `count_paths`
    unsafe { bayekosh_path_free_atoms(image.as_ptr(), image.len(), path) }
}

/// Whether a path can be satisfied with every Sig atom false.
pub fn satisfiable_without_signatures(image: &[u8], path: usize) -> SatisfiableAnswer {
    // SAFETY: as in `count_paths`
    unsafe { bayekosh_satisfiable_without_signatures(image.as_ptr(), image.len(), path) }
}

/// Whether a path can be satisfied.
pub fn satisfiable_at_all(image: &[u8], path: usize) -> SatisfiableAnswer {
    // SAFETY: as in `count_paths`
    unsafe { bayekosh_satisfiable_at_all(image.as_ptr(), image.len(), path) }
}

/// An examination of an image, at its first place.
pub fn start(image: &[u8]) -> OpenedAnswer {
    // SAFETY: as in `count_paths`
    unsafe { bayekosh_start(image.as_ptr(), image.len()) }
}

/// At most `budget` assignments, from the examination's place on.
pub fn slice(examination: Standing, image: &[u8], budget: u64) -> SlicedAnswer {
    // SAFETY: as in `count_paths`
    unsafe { bayekosh_slice(examination, image.as_ptr(), image.len(), budget) }
}

/// The unstopped run.
pub fn check_necessity(image: &[u8]) -> CheckedAnswer {
    // SAFETY: as in `count_paths`
    unsafe { bayekosh_check_necessity(image.as_ptr(), image.len()) }
}

/// The examination's checkpoint, to the front of the buffer.
pub fn write_checkpoint(examination: Standing, image: &[u8], buffer: &mut [u8]) -> WrittenAnswer {
    let (from, room) = (buffer.as_mut_ptr(), buffer.len());
    // SAFETY: two slices, of which the call reads the first and has the second alone
    unsafe { bayekosh_write_checkpoint(examination, image.as_ptr(), image.len(), from, room) }
}

/// The examination of which the bytes are a checkpoint.
pub fn read_checkpoint(bytes: &[u8]) -> OpenedAnswer {
    // SAFETY: as in `count_paths`
    unsafe { bayekosh_read_checkpoint(bytes.as_ptr(), bytes.len()) }
}

/// The image of which the bytes are a checkpoint.
pub fn checkpoint_image(bytes: &[u8]) -> ImagePart {
    // SAFETY: as in `count_paths`
    unsafe { bayekosh_checkpoint_image(bytes.as_ptr(), bytes.len()) }
}
