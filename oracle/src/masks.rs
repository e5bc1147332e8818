//! The masks at which the truth of a path's formula is recorded: those at which it turns, so that another formula is noticed by them.

use bithoven::probed::probe::Formed;
use image::generator::rng::Rng;

/// How many masks a path has.
pub const MASKS: usize = 64;

/// How many of them are searched for; the others are what any formula gets.
const SEARCHED: usize = 56;

/// How many of these are kept for masks at which a truth is missing.
const MISSING: usize = 16;

/// How many times a search is begun again.
const ROUNDS: usize = 40;

/// The masks of a path, all different, the same for the same path and seed.
pub fn masks(path: &Formed, seed: u64) -> Vec<u32> {
    let mut rng = Rng::new(seed);
    let mut found = Found { path, masks: vec![], missing: vec![] };
    found.all_of_few();
    for round in 0..ROUNDS {
        for (liveness, truth) in [(true, true), (false, true), (true, false), (false, false)] {
            found.turning(liveness, truth, base(round, truth, &mut rng), &mut rng);
        }
    }
    found.masks.truncate(SEARCHED - found.missing.len().min(MISSING));
    found.almost();
    found.masks.truncate(SEARCHED);
    found.usual(&mut rng);
    found.masks
}

/// Where a search begins: with no more atoms true, or false, than the formula needs; later anywhere.
fn base(round: usize, truth: bool, rng: &mut Rng) -> u32 {
    match (round % 4, truth) {
        (0 | 2, true) => 0,
        (0 | 2, false) => u32::MAX,
        _ => rng.number() as u32,
    }
}

struct Found<'a> {
    path: &'a Formed,
    masks: Vec<u32>,
    /// Masks at which a truth is missing: it was wanted, and some part of the formula does not have it there.
    missing: Vec<u32>,
}

impl Found<'_> {
    /// Adds a mask that is not there yet.
    fn add(&mut self, mask: u32) {
        if self.masks.len() < MASKS && !self.masks.contains(&mask) {
            self.masks.push(mask);
        }
    }

    /// The bits that matter: all atoms, but those above 32 bits.
    fn bits(&self) -> usize {
        (self.path.sigs + self.path.frees).min(32)
    }

    /// Every assignment, of a path with few atoms.
    fn all_of_few(&mut self) {
        if self.bits() <= 5 {
            (0..1 << self.bits()).for_each(|mask| self.add(mask));
        }
    }

    /// A mask at which the formula has a truth in a phase, and those beside it, by one bit, at which it has the other.
    fn turning(&mut self, liveness: bool, truth: bool, base: u32, rng: &mut Rng) {
        let mask = self.path.toward(liveness, truth, base, &mut || rng.percent(50));
        if self.path.holds(liveness, mask) != truth {
            return self.missing.push(mask);
        }
        self.add(mask);
        for beside in (0..self.bits()).map(|bit| mask ^ 1 << bit) {
            if self.path.holds(liveness, beside) != truth {
                self.add(beside);
            }
        }
    }

    /// Those at which a truth is missing.
    fn almost(&mut self) {
        for mask in std::mem::take(&mut self.missing) {
            self.add(mask);
        }
    }

    /// None and all, small numbers and single bits, some of them turned around, and any others up to so many as are wanted.
    fn usual(&mut self, rng: &mut Rng) {
        [0, u32::MAX, 1, 2, 3, 1 << 31].into_iter().for_each(|mask| self.add(mask));
        let (one, other) = (1 << rng.below(32), 1 << rng.below(32));
        [one, !other].into_iter().for_each(|mask| self.add(mask));
        while self.masks.len() < MASKS {
            self.add(rng.number() as u32);
        }
    }
}
