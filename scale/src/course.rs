//! Where a run stands after so many trials, and what a slice says there, by document 01's rules for places: from the original's atoms, verdict and
//! total alone.

use bayekosh::{Examination, Location, Outcome, Said};
use bithoven::probed::probe::Formed;
use oracle::Judged;

/// The course of a run.
pub struct Course<'a> {
    paths: &'a [Formed],
    end: Outcome,
    /// Whether the end is found by a trial; if not, it costs no budget.
    by_trial: bool,
}

impl Course<'_> {
    /// The course over some paths to an end.
    pub fn new<'a>(paths: &'a [Formed], judged: &Judged) -> Result<Course<'a>, String> {
        let mut course = Course { paths, end: outcome(judged)?, by_trial: false };
        course.by_trial = course.end.total > 0 && course.satisfied(course.standing(course.end.total - 1));
        Ok(course)
    }

    /// How many assignments are tried in all.
    pub fn total(&self) -> u64 {
        self.end.total
    }

    /// Whether the assignment at a place satisfies its path.
    fn satisfied(&self, at: Examination) -> bool {
        let liveness = at.phase == 1;
        self.paths.get(at.path as usize).is_some_and(|path| !path.over_bound(liveness) && path.holds(liveness, at.mask))
    }

    /// The place after so many trials of which none satisfies.
    pub fn standing(&self, count: u64) -> Examination {
        let searched = |phase: u8| self.paths.iter().enumerate().map(move |(number, path)| (phase, number, path));
        let mut left = count;
        for (phase, number, path) in searched(0).chain(searched(1)) {
            let over = path.over_bound(phase == 1);
            if over || left < path.assignments(phase == 1) {
                return Examination { phase, path: number as u16, mask: if over { 0 } else { left as u32 }, count };
            }
            left -= path.assignments(phase == 1);
        }
        Examination { phase: 1, path: self.paths.len() as u16, mask: 0, count }
    }

    /// What a slice leaves and says, from a place on: the end exactly when the budget reaches the total. An end by a trial leaves the place before it.
    pub fn slice(&self, from: u64, budget: u64) -> (Examination, Said) {
        let reached = from.saturating_add(budget);
        match reached < self.end.total {
            true => (self.standing(reached), Said::NotYet),
            false => (self.standing(self.end.total - self.by_trial as u64), Said::Done(self.end)),
        }
    }
}

/// The end in the library's numbers.
fn outcome(judged: &Judged) -> Result<Outcome, String> {
    let number = |number: usize| u32::try_from(number).map_err(|_| format!("over 32 bits: {judged:?}"));
    let location = &judged.location;
    let location = Location {
        start: number(location.start)?,
        end: number(location.end)?,
        line: number(location.line)?,
        column: number(location.column)?,
    };
    let (path, mask) = (number(judged.path)?, number(judged.mask as usize)?);
    Ok(Outcome { verdict: judged.verdict, reason: judged.reason, path, location, mask, total: judged.tried })
}

#[cfg(test)]
mod tests {
    use super::*;
    use crate::images::translated;
    use image::{text, writing};
    use oracle::{answer, Answer};

    /// A place as phase, path, mask and count.
    type Numbers = (u8, u16, u32, u64);

    /// The places of a run in slices of budget 1, the end's total, and whether a slice without budget says the end there.
    fn steps(contract: &str) -> (Vec<Numbers>, u64, bool) {
        let image = writing::write(&text::parse(contract).unwrap());
        let Ok(Answer::Judged(judged)) = answer(&image).map(|said| said.answer) else { panic!("{contract} is refused") };
        let paths = translated(&image).unwrap();
        let course = Course::new(&paths, &judged).unwrap();
        let mut places = vec![course.standing(0)];
        loop {
            let last = places[places.len() - 1];
            let (next, said) = course.slice(last.count, 1);
            if next != last {
                places.push(next);
            }
            if let Said::Done(end) = said {
                let numbers = places.iter().map(|at| (at.phase, at.path, at.mask, at.count)).collect();
                return (numbers, end.total, course.slice(next.count, 0) == (next, said));
            }
        }
    }

    /// So many of an atom, joined by and; a hash stands for the number of each.
    fn joined(count: usize, atom: &str) -> String {
        let numbered = |number: usize| atom.replace('#', &number.to_string());
        (1..count).fold(numbered(0), |left, number| format!("({left} and {})", numbered(number)))
    }

    /// The cases P1, P2, P6 and P10 of document 01, by hand.
    #[test]
    fn places_follow_each_other() {
        assert_eq!(steps("mode 0\n"), (vec![(1, 0, 0, 0)], 0, true));
        assert_eq!(steps("mode 0\nreturn checksig\n"), (vec![(0, 0, 0, 0), (1, 0, 0, 1), (1, 0, 1, 2)], 3, false));
        assert_eq!(steps("mode 0\nreturn false\n"), (vec![(0, 0, 0, 0), (1, 0, 0, 1), (1, 1, 0, 2)], 2, true));
        let (security, liveness) = ([(0, 0, 0, 0), (0, 0, 1, 1), (0, 1, 0, 2), (0, 1, 1, 3)], (0..4).map(|n| (1, 0, n, 4 + u64::from(n))));
        let contract = "mode 0\nif variable {\n    return checksig\n} else {\n    return false\n}\n";
        assert_eq!(steps(contract), (security.into_iter().chain(liveness).collect(), 8, false));
    }

    /// More than 20 Free atoms, and more than 22 atoms.
    #[test]
    fn a_path_over_its_bound_ends_a_run_without_a_trial() {
        assert_eq!(steps(&format!("mode 0\nreturn {}\n", joined(21, "variable"))), (vec![(0, 0, 0, 0)], 0, true));
        assert_eq!(steps(&format!("mode 0\nreturn {}\n", joined(23, "checksig@#-0:0:0"))), (vec![(0, 0, 0, 0), (1, 0, 0, 1)], 1, true));
    }
}
