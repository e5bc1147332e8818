//! The examiner for Rust: the ten entries of the proved library with answers as Rust has them. An image is any bytes; none is asked to be right, and
//! what is wrong with it comes back as a refusal from document 01's table. The library keeps no state and allocates nothing; how much stack a call
//! takes, bindings/c/bayekosh.h says.

pub mod raw;

/// The greatest size of an image, in bytes.
pub const MOST_BYTES: usize = 32_768;

/// How many bytes of a checkpoint stand before its image.
pub const CHECKPOINT_HEAD: usize = 16;

/// A refusal: its number in document 01's table, and the place named there.
#[derive(Clone, Copy, Debug, PartialEq, Eq)]
pub struct Refusal {
    pub number: u32,
    pub place: usize,
}

/// The location of a return, as the image carries it.
#[derive(Clone, Copy, Debug, PartialEq, Eq)]
pub struct Location {
    pub start: u32,
    pub end: u32,
    pub line: u32,
    pub column: u32,
}

/// An examination: the place at which it stands. A call tests that the place fits the image, so one made up from numbers is refused or is right.
#[derive(Clone, Copy, Debug, PartialEq, Eq)]
pub struct Examination {
    /// 0 security, 1 liveness.
    pub phase: u8,
    pub path: u16,
    /// The next assignment of that path.
    pub mask: u32,
    /// How many assignments were tried before it.
    pub count: u64,
}

/// The atoms of a path.
#[derive(Clone, Copy, Debug, PartialEq, Eq)]
pub struct Atoms {
    pub sigs: usize,
    pub frees: usize,
}

/// Whether a path can be satisfied.
#[derive(Clone, Copy, Debug, PartialEq, Eq)]
pub enum Satisfiable {
    Never,
    /// The first mask that satisfies.
    Mask(u32),
    /// The path has too many atoms to be searched.
    OverBound,
}

/// The end of an examination, in document 01's numbers.
#[derive(Clone, Copy, Debug, PartialEq, Eq)]
pub struct Outcome {
    /// 0 Ok, 1 NoSigRequired, 2 UselessSig, 3 DeadPath.
    pub verdict: u32,
    pub reason: u32,
    pub path: u32,
    pub location: Location,
    pub mask: u32,
    /// How many assignments were tried in all.
    pub total: u64,
}

/// What a slice says.
#[derive(Clone, Copy, Debug, PartialEq, Eq)]
pub enum Said {
    NotYet,
    Done(Outcome),
}

// ---- an image

/// How many paths an image has.
pub fn count_paths(image: &[u8]) -> Result<usize, Refusal> {
    // SAFETY: the pointer and the length are those of a slice, which the call only reads
    let answer = unsafe { raw::bayekosh_count_paths(image.as_ptr(), image.len()) };
    judged(answer.number, answer.place).map(|()| answer.paths)
}

/// How many Sig and Free atoms a path has.
pub fn path_free_atoms(image: &[u8], path: usize) -> Result<Atoms, Refusal> {
    // SAFETY: as in `count_paths`
    let answer = unsafe { raw::bayekosh_path_free_atoms(image.as_ptr(), image.len(), path) };
    judged(answer.number, answer.place).map(|()| Atoms { sigs: answer.sigs, frees: answer.frees })
}

/// Whether a path can be satisfied with every Sig atom false: by which mask first.
pub fn satisfiable_without_signatures(image: &[u8], path: usize) -> Result<Satisfiable, Refusal> {
    // SAFETY: as in `count_paths`
    satisfiable(unsafe { raw::bayekosh_satisfiable_without_signatures(image.as_ptr(), image.len(), path) })
}

/// Whether a path can be satisfied: by which mask first.
pub fn satisfiable_at_all(image: &[u8], path: usize) -> Result<Satisfiable, Refusal> {
    // SAFETY: as in `count_paths`
    satisfiable(unsafe { raw::bayekosh_satisfiable_at_all(image.as_ptr(), image.len(), path) })
}

// ---- an examination

/// An examination of an image, at its first place.
pub fn start(image: &[u8]) -> Result<Examination, Refusal> {
    // SAFETY: as in `count_paths`
    opened(unsafe { raw::bayekosh_start(image.as_ptr(), image.len()) })
}

/// The unstopped run.
pub fn check_necessity(image: &[u8]) -> Result<Outcome, Refusal> {
    // SAFETY: as in `count_paths`
    let answer = unsafe { raw::bayekosh_check_necessity(image.as_ptr(), image.len()) };
    judged(answer.number, answer.place).map(|()| outcome(&answer))
}

impl Examination {
    /// At most `budget` assignments, from the examination's place on: the examination at its new place, and what is said of it. On refusal it is
    /// the examination as it was.
    pub fn slice(self, image: &[u8], budget: u64) -> (Examination, Result<Said, Refusal>) {
        // SAFETY: as in `count_paths`
        let answer = unsafe { raw::bayekosh_slice(self.into(), image.as_ptr(), image.len(), budget) };
        let said = &answer.said;
        let told = judged(said.number, said.place).map(|()| match answer.ended {
            0 => Said::NotYet,
            _ => Said::Done(outcome(said)),
        });
        (answer.examination.into(), told)
    }

    /// The examination's checkpoint, to the front of the buffer: how many bytes it has. The rest of the buffer stays as it is, on refusal the whole.
    pub fn write_checkpoint(self, image: &[u8], buffer: &mut [u8]) -> Result<usize, Refusal> {
        let (from, room) = (buffer.as_mut_ptr(), buffer.len());
        // SAFETY: two slices, of which the call reads the first and has the second alone
        let answer = unsafe { raw::bayekosh_write_checkpoint(self.into(), image.as_ptr(), image.len(), from, room) };
        judged(answer.number, answer.place).map(|()| answer.length)
    }
}

impl From<raw::Standing> for Examination {
    /// The examination that stands there.
    fn from(standing: raw::Standing) -> Examination {
        let raw::Standing { phase, path, mask, count } = standing;
        Examination { phase, path, mask, count }
    }
}

impl From<Examination> for raw::Standing {
    /// Where the examination stands.
    fn from(examination: Examination) -> raw::Standing {
        let Examination { phase, path, mask, count } = examination;
        raw::Standing { phase, path, mask, count }
    }
}

// ---- a checkpoint

/// The examination of which the bytes are a checkpoint.
pub fn read_checkpoint(bytes: &[u8]) -> Result<Examination, Refusal> {
    // SAFETY: as in `count_paths`
    opened(unsafe { raw::bayekosh_read_checkpoint(bytes.as_ptr(), bytes.len()) })
}

/// The image of which the bytes are a checkpoint: a part of them, not a copy; empty exactly where `read_checkpoint` refuses.
pub fn checkpoint_image(bytes: &[u8]) -> &[u8] {
    // SAFETY: as in `count_paths`
    let part = unsafe { raw::bayekosh_checkpoint_image(bytes.as_ptr(), bytes.len()) };
    &bytes[part.offset..part.offset + part.length]
}

// ---- from the library's answers

/// An answer with number 0 is no refusal.
fn judged(number: u32, place: usize) -> Result<(), Refusal> {
    match number {
        0 => Ok(()),
        _ => Err(Refusal { number, place }),
    }
}

/// The examination, or the refusal.
fn opened(answer: raw::OpenedAnswer) -> Result<Examination, Refusal> {
    judged(answer.number, answer.place).map(|()| answer.examination.into())
}

/// What is found, or the refusal.
fn satisfiable(answer: raw::SatisfiableAnswer) -> Result<Satisfiable, Refusal> {
    judged(answer.number, answer.place).map(|()| match answer.found {
        0 => Satisfiable::Never,
        1 => Satisfiable::Mask(answer.mask),
        _ => Satisfiable::OverBound,
    })
}

/// The end that an answer which is no refusal tells.
fn outcome(answer: &raw::CheckedAnswer) -> Outcome {
    let location = Location { start: answer.start, end: answer.end, line: answer.line, column: answer.column };
    Outcome { verdict: answer.verdict, reason: answer.reason, path: answer.path, location, mask: answer.mask, total: answer.total }
}
