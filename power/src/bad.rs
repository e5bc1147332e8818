//! What `keep` is given and cannot go on with: told as such on standard error, and nothing is printed; what is kept stays as it is, and so does every other
//! file.

use std::fs;
use std::io::{BufRead, BufReader};
use std::os::unix::fs::{symlink, PermissionsExt};
use std::os::unix::process::CommandExt;
use std::process::Command;

use image::generator::rng::Rng;

use crate::place::{run, Place};

/// The user that nothing belongs to.
const NOBODY: u32 = 65_534;

/// The words after `image` that are none, and what is told of them.
const WORDS: [&[&str]; 5] =
    [&[], &["checkpoint", "0"], &["checkpoint", "1x"], &["checkpoint", "99999999999999999999"], &["checkpoint", "1", "2"]];
const USAGE: &str = "usage: keep IMAGE CHECKPOINT [BUDGET]";

/// Images and checkpoints that cannot be read or written, and what is told of them.
const FILES: [(&str, &str, &str); 7] = [
    ("image", "missing/checkpoint", "keep: missing/checkpoint cannot be written: No such file or directory"),
    ("image", "image/checkpoint", "keep: image/checkpoint cannot be read: Not a directory"),
    ("image", ".", "keep: . cannot be read: Is a directory"),
    ("image", "image", "keep: image is no checkpoint: refused 11 at 0"),
    ("missing", "checkpoint", "keep: missing cannot be read: No such file or directory"),
    ("image/image", "checkpoint", "keep: image/image cannot be read: Not a directory"),
    (".", "checkpoint", "keep: . cannot be read: Is a directory"),
];

/// A run that has to tell this, print nothing, and leave the checkpoint and all other files as they are.
fn refused(place: &Place, command: &mut Command, message: &str) -> Result<(), String> {
    let before = (fs::read(place.checkpoint()).ok(), place.contents()?);
    let ran = run(command)?;
    if !ran.printed.is_empty() || !ran.told.contains(message) || ran.told.contains("verdict") {
        let printed = String::from_utf8_lossy(&ran.printed).into_owned();
        return Err(format!("keep prints {printed:?} and tells {:?}, where {message:?} is to be told", ran.told));
    }
    match (fs::read(place.checkpoint()).ok(), place.contents()?) == before {
        true => Ok(()),
        false => Err(format!("keep tells {message:?}, and what was kept, or another file, is another")),
    }
}

/// What is kept is this, and is told to be no checkpoint, or that of another image.
fn kept(place: &Place, bytes: &[u8], messages: &[&str]) -> Result<(), String> {
    fs::write(place.checkpoint(), bytes).map_err(|error| error.to_string())?;
    let results: Vec<_> = messages.iter().map(|message| refused(place, &mut place.command(&["checkpoint"]), message)).collect();
    match results.iter().any(Result::is_ok) {
        true => Ok(()),
        false => results.into_iter().collect(),
    }
}

/// A checkpoint as it stands in the middle of an examination, which is killed once it has shown a count above 0.
fn middle(place: &Place) -> Result<Vec<u8>, String> {
    let fail = |error: std::io::Error| error.to_string();
    place.fresh();
    let mut child = place.begin(1_009)?;
    let told = BufReader::new(child.stderr.take().ok_or("keep has no pipes")?);
    let shown = told.lines().map_while(Result::ok).find(|line| !line.starts_with("tried 0 "));
    child.kill().and_then(|()| child.wait()).map_err(fail)?;
    match place.kept()? {
        Some(count) if 0 < count && count + 1 < place.total => fs::read(place.checkpoint()).map_err(fail),
        count => Err(format!("{shown:?} was shown, and {count:?} is kept")),
    }
}

/// Checkpoints that are damaged in one bit, half-written, too long, and of another image: how many.
pub fn checkpoints(place: &Place, other: &Place, rng: &mut Rng) -> Result<usize, String> {
    let whole = middle(place)?;
    let no = ["is no checkpoint: refused ", "is the checkpoint of another image"];
    for at in 0..whole.len() {
        let mut bytes = whole.clone();
        bytes[at] ^= 1 << rng.below(8);
        kept(place, &bytes, &no).map_err(|error| format!("byte {at} damaged: {error}"))?;
        kept(place, &whole[..at], &no[..1]).map_err(|error| format!("{at} bytes of it: {error}"))?;
    }
    kept(place, &[&whole[..], b"\0"].concat(), &no[..1])?;
    kept(place, &middle(other)?, &no[1..])?;
    Ok(2 * whole.len() + 2)
}

/// Files that cannot be read or written, and words that are none: how many.
pub fn files(place: &Place) -> Result<usize, String> {
    place.fresh();
    for (image, checkpoint, message) in FILES {
        refused(place, &mut place.on(image, &[checkpoint]), message)?;
    }
    for words in WORDS {
        refused(place, &mut place.command(words), USAGE)?;
    }
    Ok(FILES.len() + WORDS.len() + long_name(place)? + forbidden(place)?)
}

/// A checkpoint's name of 4,001 bytes is told, and one of 4,000 bytes is taken.
fn long_name(place: &Place) -> Result<usize, String> {
    let name = format!("{}checkpoint", "./".repeat(1995));
    refused(place, &mut place.command(&[&format!("./{}", &name[1..])]), "CHECKPOINT has a name of over 4,000 bytes")?;
    let ran = run(&mut place.command(&[&name, "1000000"]))?;
    match ran.printed == place.lines {
        true => Ok(1),
        false => Err(format!("a checkpoint's name of {} bytes: keep tells {:?}", name.len(), ran.told)),
    }
}

/// A folder that may not be written, an image and a checkpoint that may not be read: by nobody, if all is allowed to us.
fn forbidden(place: &Place) -> Result<usize, String> {
    let mode = |file: &str, mode: u32| {
        fs::set_permissions(place.folder.join(file), fs::Permissions::from_mode(mode)).map_err(|error| format!("{file}: {error}"))
    };
    middle(place)?;
    mode("checkpoint", 0)?;
    let allowed = fs::read(place.checkpoint()).is_ok();
    mode("checkpoint", 0o644)?;
    let cases = [
        ("", 0o555, 0o755, "keep: checkpoint cannot be written: Permission denied"),
        ("image", 0, 0o644, "keep: image cannot be read: Permission denied"),
        ("checkpoint", 0, 0o644, "keep: checkpoint cannot be read: Permission denied"),
    ];
    for (file, without, with, message) in cases {
        let mut command = place.command(&["checkpoint"]);
        mode(file, without)?;
        let result = refused(place, if allowed { command.uid(NOBODY) } else { &mut command }, message);
        mode(file, with)?;
        result?;
    }
    Ok(cases.len())
}

/// Files whose names are near that of a checkpoint, the image among them, stay as they are, byte for byte, while the run comes to its end: how many.
pub fn untouched(place: &Place) -> Result<usize, String> {
    let at = |name: &str| place.folder.join(name);
    for name in ["a.new", "b.new", "checkpoint.new", "checkpoint.XXXXXX", "checkpoint.000000", "a.000000"] {
        fs::write(at(name), &place.image).map_err(|error| error.to_string())?;
    }
    symlink("elsewhere", at("c.new")).map_err(|error| error.to_string())?;
    let before = place.contents()?;
    let cases = [("image", "checkpoint"), ("checkpoint.new", "checkpoint"), ("./a.new", "a"), ("b.new", "b"), ("image", "c")];
    for (image, checkpoint) in cases {
        let _ = fs::remove_file(at(checkpoint));
        let ran = run(&mut place.on(image, &[checkpoint, "1000000"]))?;
        let kept = fs::remove_file(at(checkpoint)).is_ok();
        if !kept || ran.printed != place.lines || place.contents()? != before {
            return Err(format!("keep {image} {checkpoint} tells {:?}, or another file is not as it was", ran.told));
        }
    }
    Ok(cases.len())
}

/// Two runs at once on one checkpoint: each prints the right lines or tells something, what is kept is a whole checkpoint from which a run comes to the
/// end, and no other file is left.
pub fn together(place: &Place, budgets: [u64; 2]) -> Result<(), String> {
    place.fresh();
    let before = place.contents()?;
    for child in [place.begin(budgets[0])?, place.begin(budgets[1])?] {
        let output = child.wait_with_output().map_err(|error| error.to_string())?;
        let told = String::from_utf8_lossy(&output.stderr);
        if output.stdout != place.lines && !(output.stdout.is_empty() && told.contains("keep: ")) {
            return Err(format!("keep prints {:?} and tells {told:?}", String::from_utf8_lossy(&output.stdout)));
        }
    }
    let kept = place.kept()?;
    let ran = run(&mut place.command(&["checkpoint", "1000000"]))?;
    match kept.is_some() && ran.printed == place.lines && place.contents()? == before {
        true => Ok(()),
        false => Err(format!("{kept:?} is kept, the next run tells {:?}, or another file is left", ran.told)),
    }
}
