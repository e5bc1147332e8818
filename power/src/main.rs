//! Cuts the power: compares what `keep` shows and the order of its calls, kills it with SIGKILL at random moments on R1 and R3 and takes it up again, and
//! gives it checkpoints and files that it cannot go on with. power/run makes what it needs and runs it, from the root of the repository. One line for each
//! of these, or a message and status 1.

mod bad;
mod cuts;
mod order;
mod place;
mod steps;

use std::env;
use std::fs;
use std::os::unix::fs::PermissionsExt;
use std::path::Path;
use std::process::ExitCode;

use image::generator::rng::Rng;
use place::Place;

/// The contracts that take long enough to be cut.
const CONTRACTS: [&str; 2] = ["R1", "R3"];

/// How often two runs are begun at once on the short one.
const TIMES: usize = 10;

fn main() -> ExitCode {
    match words().and_then(|(seed, kills)| within(|scratch| all(scratch, seed, kills))) {
        Ok(()) => ExitCode::SUCCESS,
        Err(message) => {
            eprintln!("power: {message}");
            ExitCode::FAILURE
        }
    }
}

/// The seed, and how many cuts each contract has.
fn words() -> Result<(u64, usize), String> {
    let number =
        |at: usize, usual: u64| env::args().nth(at).map_or(Ok(usual), |word| word.parse().map_err(|_| format!("no number: {word}")));
    Ok((number(1, 1)?, number(2, 50)? as usize))
}

/// Something done in a scratch folder, which goes afterwards.
fn within(work: impl FnOnce(&Path) -> Result<(), String>) -> Result<(), String> {
    let scratch = env::temp_dir().join(format!("power-{}", std::process::id()));
    let made = fs::create_dir(&scratch).and_then(|()| fs::set_permissions(&scratch, fs::Permissions::from_mode(0o755)));
    made.map_err(|error| format!("{}: {error}", scratch.display()))?;
    let result = work(&scratch);
    let _ = fs::remove_dir_all(&scratch);
    result
}

/// All of it, on the contracts that it is tried on.
fn all(scratch: &Path, seed: u64, kills: usize) -> Result<(), String> {
    let place = |name: &&str| Place::new(scratch, name);
    let [p10, r4] = [place(&"P10")?, place(&"R4")?];
    let long = CONTRACTS.iter().map(place).collect::<Result<Vec<_>, _>>()?;
    shown(&p10, &r4)?;
    for (index, place) in long.iter().enumerate() {
        cut(place, &mut Rng::member(seed, 1, index as u64), kills).map_err(|error| format!("{}: {error}", place.name))?;
    }
    given(&long, &mut Rng::member(seed, 2, 0))?;
    beside(&p10, &long[0])
}

/// What is shown, and the order of the calls.
fn shown(p10: &Place, r4: &Place) -> Result<(), String> {
    steps::steps(p10, r4).map_err(|error| format!("what is shown: {error}"))?;
    println!("P10 with slices of 1 and R4 with the usual ones: each line that is shown is as it has to be");
    let (kept, failures) = order::order(p10).map_err(|error| format!("the order of the calls: {error}"))?;
    println!("P10: {kept} checkpoints, each written out before its count is shown; {failures} calls that fail: each told, and no verdict");
    Ok(())
}

/// The cuts on one contract.
fn cut(place: &Place, rng: &mut Rng, kills: usize) -> Result<(), String> {
    let cuts::Seen { kills, shown, ends, behind, chain, slices, restarts, left } = cuts::cuts(place, rng, kills)?;
    println!(
        "{}: {kills} kills, {ends} ends, all the same; {shown} runs showed a count, {restarts} of them from above 0, {slices} slices; at most {chain} kills before an end; at most {behind} assignments behind the last count shown; {left} new files left by kills",
        place.name
    );
    Ok(())
}

/// What cannot be gone on with.
fn given(places: &[Place], rng: &mut Rng) -> Result<(), String> {
    let checkpoints = bad::checkpoints(&places[0], &places[1], rng).map_err(|error| format!("a bad checkpoint: {error}"))?;
    let files = bad::files(&places[0]).map_err(|error| format!("a file: {error}"))?;
    println!(
        "{checkpoints} checkpoints that are damaged, half-written or of another image, {files} files and words: each told, and no verdict"
    );
    Ok(())
}

/// Files beside the checkpoint, and runs at once.
fn beside(p10: &Place, r1: &Place) -> Result<(), String> {
    let untouched = bad::untouched(r1).map_err(|error| format!("a file beside the checkpoint: {error}"))?;
    let twice =
        |place: &Place, budgets| bad::together(place, budgets).map_err(|error| format!("two runs at once on {}: {error}", place.name));
    (0..TIMES).try_for_each(|_| twice(p10, [1, 1]))?;
    twice(r1, [10_007, 20_011])?;
    println!("{untouched} runs leave the files beside the checkpoint as they were; {} times two runs at once on one checkpoint", TIMES + 1);
    Ok(())
}
