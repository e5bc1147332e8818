//! The ten entries of the proved library; or a wrong copy of it, one number of which is one more, so that a comparison that does not look at
//! that number is noticed.

use bayekosh::{raw, Atoms, Examination, Outcome, Refusal, Said, Satisfiable};

use crate::wrong::{Entry, Numbers, Wrong};

/// The library, or a copy that is wrong in one number.
#[derive(Clone, Copy, Debug, Default)]
pub struct Library {
    pub wrong: Option<Wrong>,
}

/// What a writing says, with the examination as it comes back, and the buffer after it.
#[derive(Clone, Debug, PartialEq, Eq)]
pub struct Written {
    pub answer: raw::WrittenAnswer,
    pub buffer: Vec<u8>,
}

impl Library {
    /// An entry's answer, wrong if this copy's is.
    fn told<T: Numbers>(&self, entry: Entry, mut answer: T) -> T {
        match self.wrong {
            Some(wrong) if wrong.entry == entry => answer.spoil(wrong.number),
            _ => {}
        }
        answer
    }

    /// How many paths an image has.
    pub fn count_paths(&self, image: &[u8]) -> Result<usize, Refusal> {
        self.told(Entry::CountPaths, bayekosh::count_paths(image))
    }

    /// How many Sig and Free atoms a path has.
    pub fn path_free_atoms(&self, image: &[u8], path: usize) -> Result<Atoms, Refusal> {
        self.told(Entry::PathFreeAtoms, bayekosh::path_free_atoms(image, path))
    }

    /// One query or the other.
    pub fn satisfiable(&self, liveness: bool, image: &[u8], path: usize) -> Result<Satisfiable, Refusal> {
        match liveness {
            false => self.told(Entry::WithoutSignatures, bayekosh::satisfiable_without_signatures(image, path)),
            true => self.told(Entry::AtAll, bayekosh::satisfiable_at_all(image, path)),
        }
    }

    /// An examination of an image, at its first place.
    pub fn start(&self, image: &[u8]) -> Result<Examination, Refusal> {
        self.told(Entry::Start, bayekosh::start(image))
    }

    /// The unstopped run.
    pub fn check_necessity(&self, image: &[u8]) -> Result<Outcome, Refusal> {
        self.told(Entry::CheckNecessity, bayekosh::check_necessity(image))
    }

    /// At most `budget` assignments, from the examination's place on.
    pub fn slice(&self, examination: Examination, image: &[u8], budget: u64) -> (Examination, Result<Said, Refusal>) {
        self.told(Entry::Slice, examination.slice(image, budget))
    }

    /// Writes into a buffer with these bytes. The answer is the C call's, which has the examination too.
    pub fn write_checkpoint(&self, examination: Examination, image: &[u8], mut buffer: Vec<u8>) -> Written {
        let (from, room) = (buffer.as_mut_ptr(), buffer.len());
        // SAFETY: two slices, of which the call reads the first and has the second alone
        let answer = unsafe { raw::bayekosh_write_checkpoint(examination.into(), image.as_ptr(), image.len(), from, room) };
        self.told(Entry::WriteCheckpoint, Written { answer, buffer })
    }

    /// The examination of which the bytes are a checkpoint.
    pub fn read_checkpoint(&self, bytes: &[u8]) -> Result<Examination, Refusal> {
        self.told(Entry::ReadCheckpoint, bayekosh::read_checkpoint(bytes))
    }

    /// The part of the bytes that is the image: where it begins, and its length.
    pub fn checkpoint_image(&self, bytes: &[u8]) -> (usize, usize) {
        let part = bayekosh::checkpoint_image(bytes);
        let offset = part.as_ptr() as usize - bytes.as_ptr() as usize;
        self.told(Entry::CheckpointImage, (offset, part.len()))
    }
}
