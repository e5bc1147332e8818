//! Runs in slices of random budgets, with checkpoints, restarts, and places that do not fit. What is expected stands in the course, which knows
//! nothing of the library.

use bayekosh::raw::WrittenAnswer;
use bayekosh::{Examination, Refusal, Said, CHECKPOINT_HEAD};
use image::checkpoint::Place;
use image::generator::rng::Rng;

use crate::course::Course;
use crate::differences::{same, same_bytes};
use crate::library::{Library, Written};
use crate::refused::{unread, unwritten};
use crate::tally::Tally;

/// How many slices a run has before it is let run to its end.
const MOST_SLICES: usize = 30;

/// A run: where it stands, in which image, and the checkpoints that it wrote.
struct Run<'a> {
    library: &'a Library,
    course: &'a Course<'a>,
    rng: &'a mut Rng,
    tally: &'a mut Tally,
    /// About how much most budgets are.
    step: usize,
    at: Examination,
    image: Vec<u8>,
    kept: Vec<Vec<u8>>,
}

/// Compares a run.
pub fn compare(library: &Library, image: &[u8], course: &Course, rng: &mut Rng, tally: &mut Tally) -> Result<(), String> {
    let at = course.standing(0);
    same("start", Ok(at), library.start(image))?;
    let step = 1 + course.total() as usize / rng.between(1, MOST_SLICES);
    let mut run = Run { library, course, rng, tally, step, at, image: image.to_vec(), kept: vec![] };
    let mut ended = false;
    for _ in 0..MOST_SLICES {
        let budget = run.budget();
        ended = run.slice(budget)?;
        if ended {
            break;
        }
        run.between()?;
    }
    if !ended {
        run.slice(u64::MAX)?;
    }
    run.ended()
}

/// The bytes of a checkpoint, which have 32 bits of the count.
pub fn checkpoint(at: Examination, image: &[u8]) -> Vec<u8> {
    let Examination { phase, path, mask, count } = at;
    image::checkpoint::checkpoint(Place { phase, path, mask, count: count as u32 }, image)
}

impl Run<'_> {
    /// The next budget: none, small, about the step, about what is left, or large.
    fn budget(&mut self) -> u64 {
        let left = self.course.total().saturating_sub(self.at.count);
        let stepped = self.rng.below(2 * self.step) as u64;
        let around = (left + self.rng.below(3) as u64).saturating_sub(1);
        let small = self.rng.between(2, 9) as u64;
        let large = self.rng.pick(&[u64::MAX, u64::MAX - 1, 1 << 32, 671_088_640, 2 * self.course.total() + 1]);
        self.rng.weighted(&[(6, 0), (6, 1), (8, small), (72, stepped), (5, around), (3, large)])
    }

    /// A slice, and whether it came to the end.
    fn slice(&mut self, budget: u64) -> Result<bool, String> {
        let (place, said) = self.course.slice(self.at.count, budget);
        let told = self.library.slice(self.at, &self.image, budget);
        same(&format!("a slice of budget {budget} from {:?}", self.at), (place, Ok(said)), told)?;
        self.at = told.0;
        self.tally.call("slices");
        Ok(said != Said::NotYet)
    }

    /// What happens between two slices: perhaps a checkpoint, perhaps a restart, perhaps a place that does not fit.
    fn between(&mut self) -> Result<(), String> {
        if self.rng.percent(10) {
            self.unfit()?;
        }
        if self.rng.percent(35) {
            self.checkpoint()?;
        }
        match !self.kept.is_empty() && self.rng.percent(30) {
            true => self.restart(),
            false => Ok(()),
        }
    }

    /// Writes a checkpoint into a buffer, which is sometimes too short, reads it back and goes on from it.
    fn checkpoint(&mut self) -> Result<(), String> {
        let expected = checkpoint(self.at, &self.image);
        if self.rng.percent(25) {
            let any = self.rng.below(expected.len());
            let room = self.rng.pick(&[any, expected.len() - 1]);
            return self.too_short(room);
        }
        let behind = self.rng.pick(&[0, 1, 7, 64]);
        let before = self.rng.bytes(expected.len() + behind);
        let Written { answer, buffer } = self.library.write_checkpoint(self.at, &self.image, before.clone());
        let told = WrittenAnswer { number: 0, place: 0, length: expected.len(), examination: self.at.into() };
        same("write_checkpoint", told, answer)?;
        same_bytes("the buffer after a writing", &[&expected, &before[expected.len()..]].concat(), &buffer)?;
        self.tally.call("checkpoints");
        self.kept.push(expected);
        self.take_up(self.kept.len() - 1)
    }

    /// A buffer that is too short stays as it is.
    fn too_short(&mut self, room: usize) -> Result<(), String> {
        let buffer = self.rng.bytes(room);
        unwritten(self.library, self.at, &self.image, buffer, Refusal { number: 12, place: 0 })?;
        self.tally.call("refused 12");
        Ok(())
    }

    /// Goes on from one of the checkpoints.
    fn restart(&mut self) -> Result<(), String> {
        let which = self.rng.below(self.kept.len());
        let from = self.at;
        self.take_up(which)?;
        self.tally.call(if self.at == from { "restarts at the same place" } else { "restarts at an earlier place" });
        Ok(())
    }

    /// Reads a checkpoint, whose place and image the run goes on with.
    fn take_up(&mut self, which: usize) -> Result<(), String> {
        let bytes = &self.kept[which];
        let count = u32::from_be_bytes([bytes[12], bytes[13], bytes[14], bytes[15]]);
        let expected = self.course.standing(u64::from(count));
        same("read_checkpoint", Ok(expected), self.library.read_checkpoint(bytes))?;
        let (offset, length) = self.library.checkpoint_image(bytes);
        same("checkpoint_image", (CHECKPOINT_HEAD, self.image.len()), (offset, length))?;
        self.at = expected;
        self.image = bytes[offset..offset + length].to_vec();
        Ok(())
    }

    /// A place with one other number fits no more, and neither does a checkpoint with another head.
    fn unfit(&mut self) -> Result<(), String> {
        let refusal = Refusal { number: 11, place: 5 };
        let unfit = self.other_place();
        let budget = self.rng.pick(&[0, 1, u64::MAX]);
        let told = self.library.slice(unfit, &self.image, budget);
        same(&format!("a slice from {unfit:?}, which does not fit"), (unfit, Err(refusal)), told)?;
        let room = self.rng.below(2 * self.image.len() + 2 * CHECKPOINT_HEAD);
        let buffer = self.rng.bytes(room);
        unwritten(self.library, unfit, &self.image, buffer, refusal)?;
        if u32::try_from(unfit.count).is_ok() {
            unread(self.library, &checkpoint(unfit, &self.image), refusal)?;
            self.tally.call("refused 11");
        }
        self.other_head()?;
        self.tally.calls.add("refused 11", 3);
        Ok(())
    }

    /// The place with one other number. Each place of an image has a count of its own, so that none of them is a place of a run.
    fn other_place(&mut self) -> Examination {
        let mut other = self.at;
        let more = self.rng.pick(&[1, 2, 255]);
        match self.rng.below(6) {
            0 => other.phase = other.phase.wrapping_add(more),
            1 => other.path = other.path.wrapping_add(u16::from(more)),
            2 => other.mask ^= 1 << self.rng.below(32),
            3 => other.count ^= 1 << self.rng.below(64),
            4 => other.count = other.count.wrapping_add(u64::from(more)),
            _ => other.count = other.count.wrapping_sub(u64::from(more)),
        }
        other
    }

    /// The checkpoint with another mark or version, or cut within its head.
    fn other_head(&mut self) -> Result<(), String> {
        let mut bytes = checkpoint(self.at, &self.image);
        let place = self.rng.below(8);
        match place {
            0..=4 => bytes[place] ^= 1 << self.rng.below(8),
            _ => bytes.truncate(self.rng.below(CHECKPOINT_HEAD)),
        }
        let number = 11;
        unread(self.library, &bytes, Refusal { number, place: if let 3 | 4 = place { 3 } else { 0 } })
    }

    /// After the end: the same end again, by a budget of 1, and by none only where it needs no trial; and so from a checkpoint.
    fn ended(&mut self) -> Result<(), String> {
        self.slice(1)?;
        if self.rng.percent(20) {
            self.unfit()?;
        }
        if self.rng.percent(30) {
            self.checkpoint()?;
            self.slice(1)?;
        }
        self.slice(0)?;
        self.slice(1)?;
        self.tally.call("runs");
        Ok(())
    }
}
