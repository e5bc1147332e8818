//! The power is cut: `keep` is killed at random moments and taken up again, until its end has come. What it showed last is held against what it
//! goes on from.

use std::collections::BTreeMap;
use std::fs;
use std::io::Read;
use std::os::unix::process::ExitStatusExt;
use std::process::Child;
use std::thread;
use std::time::{Duration, Instant};

use image::generator::rng::Rng;

use crate::place::{run, temporary, Place, Ran};

/// What was seen of the cuts on one contract.
#[derive(Default)]
pub struct Seen {
    /// Runs that were killed, and how many of those had shown a count.
    pub kills: usize,
    pub shown: usize,
    /// Ends that came, each the same.
    pub ends: usize,
    /// The most assignments that a run had to try again, by what it had shown, and the most kills before one end.
    pub behind: u64,
    pub chain: usize,
    /// Slices whose checkpoint was kept, and runs that went on from a count above 0.
    pub slices: usize,
    pub restarts: usize,
    /// New files that were made and had not yet taken the checkpoint's name when a kill came.
    pub left: usize,
}

/// SIGKILL.
const KILL: i32 = 9;

/// The budgets of the slices: the usual one, and others.
const BUDGETS: [u64; 4] = [65_536, 65_536, 10_007, 300_000];

/// So many cuts, with as many ends as come between them.
pub fn cuts(place: &Place, rng: &mut Rng, kills: usize) -> Result<Seen, String> {
    let mut seen = Seen::default();
    let before = place.contents()?;
    let mut durations = BTreeMap::new();
    while seen.kills < kills {
        let budget = rng.pick(&BUDGETS);
        let whole = durations.entry(budget).or_insert_with(|| duration(place, budget)).clone()?;
        let mut moment = |so_far| (so_far < kills).then(|| whole.mul_f64(rng.below(1_000_000) as f64 / 1e6));
        examination(place, budget, &mut moment, &mut seen)?;
    }
    enough(&seen)?;
    seen.left = sweep(place, &before)?;
    match seen.left <= seen.kills {
        true => Ok(seen),
        false => Err(format!("{} kills, and {} new files are left", seen.kills, seen.left)),
    }
}

/// Takes away the new checkpoints that kills have left; every other file is as it was before: how many they were.
fn sweep(place: &Place, before: &BTreeMap<String, Vec<u8>>) -> Result<usize, String> {
    let mut after = place.contents()?;
    let all = after.len();
    after.retain(|name, _| !temporary(name) || fs::remove_file(place.folder.join(name)).is_err());
    match after == *before {
        true => Ok(all - after.len()),
        false => Err("a file beside the checkpoint is not as it was".to_string()),
    }
}

/// Something was kept between the cuts, and was gone on from.
fn enough(seen: &Seen) -> Result<(), String> {
    match seen {
        Seen { slices: 0, .. } => Err("no slice was kept".to_string()),
        Seen { restarts: 0, .. } => Err(format!("{} kills, and no run went on from a count above 0", seen.kills)),
        _ => Ok(()),
    }
}

/// One examination from its beginning to its end, cut at the moments that come for the kills so far.
fn examination(place: &Place, budget: u64, moment: &mut dyn FnMut(usize) -> Option<Duration>, seen: &mut Seen) -> Result<(), String> {
    place.fresh();
    let (mut last, mut chain) = (0, 0);
    loop {
        let before = place.kept()?.unwrap_or(0);
        let (ran, killed) = watched(place.begin(budget)?, moment(seen.kills))?;
        last = taken_up(&ran.told, before, last, budget, seen)?;
        if !killed {
            seen.ends += 1;
            seen.chain = seen.chain.max(chain);
            return ended(place, &ran);
        }
        seen.kills += 1;
        chain += 1;
        kept_whole(place, last)?;
        if !ran.printed.is_empty() {
            ended(place, &ran)?;
        }
    }
}

/// How long an examination takes that is not cut.
fn duration(place: &Place, budget: u64) -> Result<Duration, String> {
    place.fresh();
    let begun = Instant::now();
    let ran = run(&mut place.command(&["checkpoint", &budget.to_string()]))?;
    taken_up(&ran.told, 0, 0, budget, &mut Seen::default())?;
    ended(place, &ran)?;
    Ok(begun.elapsed())
}

/// A run, killed at a moment if it has not ended by then: what it said, and whether it was killed.
fn watched(mut child: Child, cut: Option<Duration>) -> Result<(Ran, bool), String> {
    if let Some(moment) = cut {
        thread::sleep(moment);
        child.kill().map_err(|error| format!("keep cannot be killed: {error}"))?;
    }
    let status = child.wait().map_err(|error| error.to_string())?;
    let killed = status.signal() == Some(KILL);
    if !killed && !status.success() {
        return Err(format!("keep ends with {status}"));
    }
    let (mut printed, mut told) = (vec![], vec![]);
    let pipes = (child.stdout.take(), child.stderr.take());
    let (Some(mut out), Some(mut error)) = pipes else { return Err("keep has no pipes".to_string()) };
    out.read_to_end(&mut printed).and_then(|_| error.read_to_end(&mut told)).map_err(|error| error.to_string())?;
    Ok((Ran { printed, told: String::from_utf8_lossy(&told).into_owned() }, killed))
}

/// The counts that were shown, in lines that are there whole.
fn counts(told: &str) -> Result<Vec<u64>, String> {
    let whole = told.rfind('\n').map_or("", |end| &told[..end]);
    let count = |line: &str| line.strip_prefix("tried ").and_then(|rest| rest.split(' ').next()?.parse().ok());
    whole.lines().map(|line| count(line).ok_or_else(|| format!("keep tells: {line}"))).collect()
}

/// The first count that a run shows is the one that was kept before it, not more than a slice behind the last one shown, and from there each is at most a
/// slice further. The last count that is shown comes back.
fn taken_up(told: &str, before: u64, last: u64, budget: u64, seen: &mut Seen) -> Result<u64, String> {
    let shown = counts(told)?;
    let Some(&first) = shown.first() else { return Ok(last) };
    if first != before {
        return Err(format!("{before} was kept, and the run goes on from {first}"));
    }
    if first + budget < last {
        return Err(format!("{last} was shown, and the run goes on from {first}, with slices of {budget}"));
    }
    if let Some(pair) = shown.windows(2).find(|pair| pair[1] < pair[0] || pair[1] > pair[0] + budget) {
        return Err(format!("after {} comes {}, with slices of {budget}", pair[0], pair[1]));
    }
    seen.behind = seen.behind.max(last.saturating_sub(first));
    seen.shown += 1;
    seen.slices += shown.len() - 1;
    seen.restarts += usize::from(first > 0);
    Ok(shown[shown.len() - 1])
}

/// The checkpoint's file, if there is one, is a whole checkpoint of this image, and no count was shown beyond its own.
fn kept_whole(place: &Place, last: u64) -> Result<(), String> {
    match place.kept()? {
        None if last > 0 => Err(format!("{last} was shown, and no checkpoint is kept")),
        Some(count) if count < last => Err(format!("{last} was shown, and {count} is kept")),
        _ => Ok(()),
    }
}

/// A run that came to its end printed what it has to, and showed its last count.
fn ended(place: &Place, ran: &Ran) -> Result<(), String> {
    if ran.printed != place.lines {
        return Err(format!("keep prints {:?} and tells {:?}", String::from_utf8_lossy(&ran.printed), ran.told));
    }
    shown_to_end(&ran.told, place.total)
}

/// The last count that is shown of a whole examination is the total, or the one before it, if the end came by a trial.
fn shown_to_end(told: &str, total: u64) -> Result<(), String> {
    match counts(told)?.last() {
        None => Err("a run that ended showed no count".to_string()),
        Some(&last) if last == total || last + 1 == total => Ok(()),
        Some(last) => Err(format!("the last count shown is {last}, and the total is {total}")),
    }
}

#[cfg(test)]
mod tests {
    use super::*;

    /// What a run tells that shows these counts.
    fn told(counts: &[u64]) -> String {
        counts.iter().map(|count| format!("tried {count} phase 0 path 0 of 1\n")).collect()
    }

    #[test]
    fn a_run_that_lost_more_than_a_slice_is_noticed() {
        let seen = &mut Seen::default();
        assert_eq!(taken_up(&told(&[100, 110]), 100, 110, 10, seen), Ok(110));
        assert_eq!((seen.behind, seen.slices, seen.restarts), (10, 1, 1));
        assert!(taken_up(&told(&[99]), 99, 110, 10, seen).is_err());
    }

    #[test]
    fn a_step_of_more_than_a_slice_or_back_is_noticed() {
        let seen = &mut Seen::default();
        assert_eq!(taken_up(&told(&[0, 10, 10]), 0, 0, 10, seen), Ok(10));
        assert_eq!((seen.slices, seen.restarts), (2, 0));
        assert!(taken_up(&told(&[0, 11]), 0, 0, 10, seen).is_err());
        assert!(taken_up(&told(&[10, 9]), 10, 0, 10, seen).is_err());
    }

    #[test]
    fn a_run_that_goes_on_from_another_count_than_the_kept_one_is_noticed() {
        let seen = &mut Seen::default();
        assert!(taken_up(&told(&[0, 10]), 10, 10, 10, seen).is_err());
        assert!(taken_up(&told(&[20, 30]), 10, 10, 10, seen).is_err());
        assert!(taken_up(&told(&[10, 20]), 0, 0, 10, seen).is_err());
        assert_eq!(taken_up(&told(&[10, 20]), 10, 10, 10, seen), Ok(20));
    }

    #[test]
    fn an_end_that_showed_no_count_or_too_few_is_noticed() {
        assert!(shown_to_end("", 30).is_err());
        assert!(shown_to_end(&told(&[0, 10, 20, 28]), 30).is_err());
        assert!(shown_to_end(&told(&[0, 10, 20, 31]), 30).is_err());
        assert!(shown_to_end(&told(&[0, 10, 20, 29]), 30).is_ok());
        assert!(shown_to_end(&told(&[0, 10, 20, 30]), 30).is_ok());
    }

    #[test]
    fn cuts_between_which_nothing_was_kept_are_noticed() {
        let seen = |slices, restarts| Seen { kills: 5, slices, restarts, ..Seen::default() };
        assert!(enough(&seen(0, 1)).is_err());
        assert!(enough(&seen(7, 0)).is_err());
        assert!(enough(&seen(7, 1)).is_ok());
    }

    #[test]
    fn a_line_that_is_cut_is_not_counted() {
        assert_eq!(counts("tried 100 phase 0 path 0 of 1\ntried 20"), Ok(vec![100]));
        assert_eq!(counts("tri"), Ok(vec![]));
        assert!(counts("keep: checkpoint is no checkpoint: refused 11 at 0\n").is_err());
    }
}
