//! What a run shows that is not cut, compared as a whole.

use std::fs;

use crate::place::{run, Place};

/// P10, `if x {return c} else {return false}`, with slices of 1: each place of document 01. Path 0 has the atoms c and x, path 1 has x. Security tries the
/// masks 0 and 1 of path 0, then of path 1. Liveness tries the masks 0 to 3 of path 0; 3, c and x true, pays, and this eighth trial leaves its place,
/// which is shown a second time.
pub const P10: &str = "\
tried 0 phase 0 path 0 of 2
tried 1 phase 0 path 0 of 2
tried 2 phase 0 path 1 of 2
tried 3 phase 0 path 1 of 2
tried 4 phase 1 path 0 of 2
tried 5 phase 1 path 0 of 2
tried 6 phase 1 path 0 of 2
tried 7 phase 1 path 0 of 2
tried 7 phase 1 path 0 of 2
";

/// The checkpoint of P10's end, before the image: version 1, phase 1, path 0, mask 3, count 7.
const P10_END: &[u8; 16] = b"BVC\x00\x01\x01\x00\x00\x00\x00\x00\x03\x00\x00\x00\x07";

/// R4 with the usual slices: security tries 16 times 65,536 masks of its one path, and liveness, with 23 atoms, needs no trial.
fn usual() -> String {
    let line = |slice: u64| format!("tried {} phase {} path 0 of 1\n", slice * 65_536, slice / 16);
    (0..=16).map(line).collect()
}

/// A run from the beginning, with words behind the image, prints the sample's lines and tells exactly this.
fn tells(place: &Place, words: &[&str], text: &str) -> Result<(), String> {
    place.fresh();
    let ran = run(&mut place.command(words))?;
    match ran.printed == place.lines && ran.told == text {
        true => Ok(()),
        false => Err(format!("keep prints {:?} and tells {:?}", String::from_utf8_lossy(&ran.printed), ran.told)),
    }
}

/// All that is shown on P10 with slices of 1, with the checkpoint of the end; and on R4, where the slices are not said.
pub fn steps(p10: &Place, r4: &Place) -> Result<(), String> {
    tells(p10, &["checkpoint", "1"], P10).map_err(|error| format!("P10: {error}"))?;
    let kept = fs::read(p10.checkpoint()).map_err(|error| error.to_string())?;
    if kept != [&P10_END[..], &p10.image].concat() {
        return Err(format!("P10: the checkpoint of the end is {kept:02x?}"));
    }
    tells(r4, &["checkpoint"], &usual()).map_err(|error| format!("R4: {error}"))
}
