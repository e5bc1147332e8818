//! The order of the calls by which `keep` keeps a checkpoint, as order.c writes them down; and what comes of a call that fails.

use std::fs;

use crate::place::{run, temporary, Place, Ran};
use crate::steps::P10;

/// A run under order.c with slices of 1, and the calls that were written down; one of them fails, if it is named.
fn logged(place: &Place, checkpoint: &str, fail: &str) -> Result<(Ran, String), String> {
    let log = place.folder.with_extension("log");
    let _ = fs::remove_file(&log);
    let mut command = place.command(&[checkpoint, "1"]);
    command.env("LD_PRELOAD", place.folder.join("order.so")).env("ORDER_LOG", &log).env("ORDER_FAIL", fail);
    let ran = run(&mut command)?;
    let calls = fs::read_to_string(&log).map_err(|error| format!("no calls of keep can be written down: {error}"))?;
    Ok((ran, calls))
}

/// The calls for one checkpoint: a new file is made, written, and written out; it takes the checkpoint's name, and the folder is written out; then the
/// count is shown.
fn one_kept(calls: &[&str], folder: &str) -> bool {
    let Some(name) = calls[0].strip_prefix("create ").filter(|name| temporary(name)) else { return false };
    let file = |what: &str| format!("{what} {name}");
    let renamed = format!("rename {name} checkpoint");
    calls == [&file("create"), &file("write"), &file("fsync file"), &renamed, &format!("fsync folder {folder}"), "tell"]
}

/// The calls of a run that ended, in which each checkpoint is kept in order, and the lines are printed last: how many checkpoints.
fn in_order(log: &str, folder: &str) -> Result<usize, String> {
    let mut calls: Vec<&str> = log.lines().map(str::trim_end).collect();
    calls.dedup();
    if calls.pop() != Some("print") {
        return Err(format!("the last call does not print: {log}"));
    }
    match calls.chunks(6).find(|calls| !one_kept(calls, folder)) {
        Some(calls) => Err(format!("a checkpoint is kept by the calls {calls:?}")),
        None => Ok(calls.len() / 6),
    }
}

/// P10 to its end, its checkpoint in that folder: each checkpoint is kept in order, one for each line that is shown.
fn whole(place: &Place, checkpoint: &str, folder: &str) -> Result<usize, String> {
    let (ran, log) = logged(place, checkpoint, "")?;
    let kept = in_order(&log, folder)?;
    match ran.printed == place.lines && ran.told == P10 && kept == P10.lines().count() {
        true => Ok(kept),
        false => Err(format!("{kept} checkpoints are kept, and keep tells {:?}", ran.told)),
    }
}

/// A run whose N-th checkpoint, counted from 1, cannot be kept, since a call fails: the lines before it are shown, the failure is told, nothing is printed,
/// and no new file is left. What is kept is the checkpoint before it, or, if the folder alone is not written out, this one.
fn failing(place: &Place, n: usize, call: &str, error: &str) -> Result<(), String> {
    place.fresh();
    let before = place.contents()?;
    let (ran, _) = logged(place, "checkpoint", call)?;
    let shown: String = P10.split_inclusive('\n').take(n - 1).collect();
    if !ran.printed.is_empty() || ran.told != format!("{shown}keep: checkpoint cannot be written: {error}\n") {
        return Err(format!("keep prints {:?} and tells {:?}", String::from_utf8_lossy(&ran.printed), ran.told));
    }
    let old = (n as u64).checked_sub(2);
    let folder = call == format!("fsync {}", 2 * n);
    let kept = place.kept()?;
    if kept != old && !(folder && kept == Some(n as u64 - 1)) {
        return Err(format!("{kept:?} is kept, and {old:?} was kept before"));
    }
    match place.contents()? == before {
        true => after(place),
        false => Err("another file is left than there was before".to_string()),
    }
}

/// What is kept after a failure stays as it is, if the next run fails at its first fsync or rename; and the one after that comes to the end.
fn after(place: &Place) -> Result<(), String> {
    let before = fs::read(place.checkpoint()).ok();
    for call in ["fsync 1", "rename 1"] {
        let (ran, _) = logged(place, "checkpoint", call)?;
        if fs::read(place.checkpoint()).ok() != before || ran.told != "keep: checkpoint cannot be written: Input/output error\n" {
            return Err(format!("{call}: keep tells {:?}, or what is kept is another", ran.told));
        }
    }
    let ran = run(&mut place.command(&["checkpoint", "1"]))?;
    match ran.printed == place.lines {
        true => Ok(()),
        false => Err(format!("the run after the failure tells {:?}", ran.told)),
    }
}

/// Each call that can fail, for the first, the second and the last of P10's checkpoints: how many.
fn failures(place: &Place) -> Result<usize, String> {
    let calls = |n: usize| {
        let fsync = |call: usize| (n, format!("fsync {call}"), "Input/output error");
        [
            (n, format!("write {n}"), "No space left on device"),
            fsync(2 * n - 1),
            (n, format!("rename {n}"), "Input/output error"),
            fsync(2 * n),
        ]
    };
    let cases: Vec<_> = [1, 2, 9].into_iter().flat_map(calls).collect();
    for (n, call, error) in &cases {
        failing(place, *n, call, error).map_err(|error| format!("{call} fails: {error}"))?;
    }
    Ok(cases.len())
}

/// P10's checkpoints, in its own folder and in one below it, and its failures: how many of each.
pub fn order(place: &Place) -> Result<(usize, usize), String> {
    place.fresh();
    let below = place.folder.join("below");
    let here = whole(place, "checkpoint", &place.name)?;
    fs::create_dir(&below).map_err(|error| error.to_string())?;
    let kept = here + whole(place, "below/checkpoint", "below")?;
    fs::remove_dir_all(&below).map_err(|error| error.to_string())?;
    Ok((kept, failures(place)?))
}

#[cfg(test)]
mod tests {
    use super::*;

    const KEPT: &str = "create checkpoint.aB3xyz \nwrite checkpoint.aB3xyz \nwrite checkpoint.aB3xyz \nfsync file checkpoint.aB3xyz \n\
                        rename checkpoint.aB3xyz checkpoint\nfsync folder P10 \ntell  \ntell  \n";

    /// Two checkpoints and the end, with this changed to that in each.
    fn changed(this: &str, that: &str) -> Result<usize, String> {
        in_order(&format!("{}print  \n", KEPT.replace(this, that).repeat(2)), "P10")
    }

    #[test]
    fn calls_in_order_are_counted() {
        assert_eq!(changed("", ""), Ok(2));
        assert!(in_order(KEPT, "P10").is_err());
    }

    #[test]
    fn a_call_that_is_missing_or_on_another_file_is_noticed() {
        for line in KEPT.split_inclusive('\n').filter(|line| !line.starts_with("write") && !line.starts_with("tell")) {
            assert!(changed(line, "").is_err(), "{line}");
        }
        assert!(changed("tell  \n", "").is_err());
        assert!(changed("fsync file checkpoint.aB3xyz", "fsync file checkpoint.other1").is_err());
        assert!(changed("fsync folder P10", "fsync folder below").is_err());
        assert!(changed("checkpoint.aB3xyz", "checkpoint.new").is_err());
    }

    #[test]
    fn calls_in_another_order_are_noticed() {
        assert!(changed("fsync folder P10 \ntell  \ntell  \n", "tell  \nfsync folder P10 \n").is_err());
        let renamed = "rename checkpoint.aB3xyz checkpoint\n";
        assert!(
            changed(&format!("fsync file checkpoint.aB3xyz \n{renamed}"), &format!("{renamed}fsync file checkpoint.aB3xyz \n")).is_err()
        );
        assert!(changed("tell  \n", "tell  \nprint  \n").is_err());
    }
}
