//! Wrong copies of the library: each number of each entry's answers, one more than it is.

use bayekosh::raw::{Standing, WrittenAnswer};
use bayekosh::{Atoms, Examination, Location, Outcome, Refusal, Said, Satisfiable, CHECKPOINT_HEAD};

use crate::library::Written;

/// The entries.
#[derive(Clone, Copy, Debug, PartialEq, Eq)]
pub enum Entry {
    CountPaths,
    PathFreeAtoms,
    WithoutSignatures,
    AtAll,
    Start,
    CheckNecessity,
    Slice,
    WriteCheckpoint,
    ReadCheckpoint,
    CheckpointImage,
}

/// Which number is wrong: of which entry's answers, and which of them.
#[derive(Clone, Copy, Debug, PartialEq, Eq)]
pub struct Wrong {
    pub entry: Entry,
    pub number: usize,
}

/// Every number of every entry.
pub fn every() -> Vec<Wrong> {
    let counts = [
        (Entry::CountPaths, <Result<usize, Refusal>>::COUNT),
        (Entry::PathFreeAtoms, <Result<Atoms, Refusal>>::COUNT),
        (Entry::WithoutSignatures, <Result<Satisfiable, Refusal>>::COUNT),
        (Entry::AtAll, <Result<Satisfiable, Refusal>>::COUNT),
        (Entry::Start, <Result<Examination, Refusal>>::COUNT),
        (Entry::CheckNecessity, <Result<Outcome, Refusal>>::COUNT),
        (Entry::Slice, <(Examination, Result<Said, Refusal>)>::COUNT),
        (Entry::WriteCheckpoint, Written::COUNT),
        (Entry::ReadCheckpoint, <Result<Examination, Refusal>>::COUNT),
        (Entry::CheckpointImage, <(usize, usize)>::COUNT),
    ];
    counts.into_iter().flat_map(|(entry, count)| (0..count).map(move |number| Wrong { entry, number })).collect()
}

/// What has numbers. Those that an answer does not have, since it is another of its kinds, stay as they are.
pub trait Numbers {
    /// How many there may be.
    const COUNT: usize;

    /// Makes one of them wrong.
    fn spoil(&mut self, number: usize);
}

/// One more, or 0 after the greatest.
macro_rules! one_more {
    ($number:expr; $($index:literal $place:expr),*) => {
        match $number {
            $($index => $place = $place.wrapping_add(1),)*
            _ => {}
        }
    };
}

impl Numbers for usize {
    const COUNT: usize = 1;

    /// The number itself.
    fn spoil(&mut self, number: usize) {
        one_more!(number; 0 *self)
    }
}

impl Numbers for Refusal {
    const COUNT: usize = 2;

    /// The number or the place.
    fn spoil(&mut self, number: usize) {
        one_more!(number; 0 self.number, 1 self.place)
    }
}

impl Numbers for Atoms {
    const COUNT: usize = 2;

    /// The Sig atoms or the Free atoms.
    fn spoil(&mut self, number: usize) {
        one_more!(number; 0 self.sigs, 1 self.frees)
    }
}

impl Numbers for Examination {
    const COUNT: usize = 4;

    /// One of the four numbers of its place.
    fn spoil(&mut self, number: usize) {
        one_more!(number; 0 self.phase, 1 self.path, 2 self.mask, 3 self.count)
    }
}

impl Numbers for Outcome {
    const COUNT: usize = 9;

    /// One of its numbers, the location's among them.
    fn spoil(&mut self, number: usize) {
        let Location { start, end, line, column } = &mut self.location;
        one_more!(number; 0 self.verdict, 1 self.reason, 2 self.path, 3 *start, 4 *end, 5 *line, 6 *column, 7 self.mask, 8 self.total)
    }
}

/// Whether a path can be satisfied at all, then the mask.
impl Numbers for Satisfiable {
    const COUNT: usize = 3;

    /// Another kind of answer, or another mask.
    fn spoil(&mut self, number: usize) {
        *self = match (number, *self) {
            (0, Satisfiable::Never) => Satisfiable::Mask(0),
            (0, Satisfiable::Mask(_)) => Satisfiable::Never,
            (1, Satisfiable::Mask(mask)) => Satisfiable::Mask(mask.wrapping_add(1)),
            (2, Satisfiable::OverBound) => Satisfiable::Never,
            (_, same) => same,
        }
    }
}

/// Whether it ended, from one side and from the other, then the end's numbers.
impl Numbers for Said {
    const COUNT: usize = 2 + Outcome::COUNT;

    /// The other kind of answer, or a number of the end.
    fn spoil(&mut self, number: usize) {
        let location = Location { start: 0, end: 0, line: 0, column: 0 };
        match (number, &mut *self) {
            (0, Said::NotYet) => *self = Said::Done(Outcome { verdict: 0, reason: 0, path: 0, location, mask: 0, total: 0 }),
            (1, Said::Done(_)) => *self = Said::NotYet,
            (2.., Said::Done(outcome)) => outcome.spoil(number - 2),
            _ => {}
        }
    }
}

/// The numbers of an answer, then those of a refusal.
impl<T: Numbers> Numbers for Result<T, Refusal> {
    const COUNT: usize = T::COUNT + Refusal::COUNT;

    /// A number of the answer, or of the refusal.
    fn spoil(&mut self, number: usize) {
        match self {
            Ok(answer) if number < T::COUNT => answer.spoil(number),
            Err(refusal) if number >= T::COUNT => refusal.spoil(number - T::COUNT),
            _ => {}
        }
    }
}

impl<A: Numbers, B: Numbers> Numbers for (A, B) {
    const COUNT: usize = A::COUNT + B::COUNT;

    /// A number of the one, or of the other.
    fn spoil(&mut self, number: usize) {
        match number < A::COUNT {
            true => self.0.spoil(number),
            false => self.1.spoil(number - A::COUNT),
        }
    }
}

/// What is said, with the examination.
impl Numbers for WrittenAnswer {
    const COUNT: usize = 7;

    /// One of number, place, length and the examination's four numbers.
    fn spoil(&mut self, number: usize) {
        let Standing { phase, path, mask, count } = &mut self.examination;
        one_more!(number; 0 self.number, 1 self.place, 2 self.length, 3 *phase, 4 *path, 5 *mask, 6 *count)
    }
}

/// What is said, then each byte of a checkpoint's head, and the buffer's last.
impl Numbers for Written {
    const COUNT: usize = WrittenAnswer::COUNT + CHECKPOINT_HEAD + 1;

    /// A number of the answer, or a byte of the buffer, if it has that byte.
    fn spoil(&mut self, number: usize) {
        let bytes = WrittenAnswer::COUNT;
        let last = self.buffer.len().saturating_sub(1);
        match number {
            _ if number < bytes => self.answer.spoil(number),
            _ => {
                let place = if number - bytes < CHECKPOINT_HEAD { number - bytes } else { last };
                self.buffer.get_mut(place).into_iter().for_each(|byte| *byte = byte.wrapping_add(1));
            }
        }
    }
}
