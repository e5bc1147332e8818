//! An image that is refused: every entry says so, with the same number and place, whatever else it is handed.

use bayekosh::raw::WrittenAnswer;
use bayekosh::{Examination, Refusal};
use image::generator::rng::Rng;

use crate::differences::{same, same_bytes};
use crate::library::{Library, Written};
use crate::runs::checkpoint;
use crate::tally::Tally;

/// Compares the ten entries on an image that is refused.
pub fn compare(library: &Library, image: &[u8], refusal: Refusal, rng: &mut Rng, tally: &mut Tally) -> Result<(), String> {
    let path = rng.pick(&[0, 0, 1, 127, 128, usize::MAX]);
    same("count_paths", Err(refusal), library.count_paths(image))?;
    same("path_free_atoms", Err(refusal), library.path_free_atoms(image, path))?;
    same("satisfiable_without_signatures", Err(refusal), library.satisfiable(false, image, path))?;
    same("satisfiable_at_all", Err(refusal), library.satisfiable(true, image, path))?;
    same("start", Err(refusal), library.start(image))?;
    same("check_necessity", Err(refusal), library.check_necessity(image))?;
    let examination = any_examination(rng);
    let budget = rng.pick(&[0, 1, 1000, u64::MAX]);
    same("slice", (examination, Err(refusal)), library.slice(examination, image, budget))?;
    let room = rng.pick(&[0, 8, 16, 16 + image.len(), 50 + image.len()]);
    unwritten(library, examination, image, rng.bytes(room), refusal)?;
    unread(library, &checkpoint(examination, image), refusal)?;
    tally.calls.add("entries on a refused image", 10);
    Ok(())
}

/// Where an examination might stand, fit or not.
fn any_examination(rng: &mut Rng) -> Examination {
    match rng.percent(30) {
        true => Examination { phase: 0, path: 0, mask: 0, count: 0 },
        false => {
            Examination { phase: rng.byte(), path: rng.number() as u16, mask: rng.number() as u32, count: rng.number() >> rng.below(64) }
        }
    }
}

/// Writing is refused, hands the examination back as it was, and leaves the buffer as it is.
pub fn unwritten(library: &Library, at: Examination, image: &[u8], buffer: Vec<u8>, refusal: Refusal) -> Result<(), String> {
    let Written { answer, buffer: after } = library.write_checkpoint(at, image, buffer.clone());
    let Refusal { number, place } = refusal;
    same("write_checkpoint", WrittenAnswer { number, place, length: 0, examination: at.into() }, answer)?;
    same_bytes("the buffer after a writing that is refused", &buffer, &after)
}

/// Reading is refused, and there is no image.
pub fn unread(library: &Library, bytes: &[u8], refusal: Refusal) -> Result<(), String> {
    same("read_checkpoint", Err(refusal), library.read_checkpoint(bytes))?;
    same("checkpoint_image", (0, 0), library.checkpoint_image(bytes))
}
