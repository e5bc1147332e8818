//! What each number of an answer in the recorded list is; crates/recorded/README.md says what stands in the list.

use crate::tree::most;

/// The masks of a path.
const MASKS: usize = 64;

/// What a number of an answer is.
#[derive(Clone, Copy, Debug, PartialEq, Eq, PartialOrd, Ord)]
pub enum Kind {
    /// The number and place of an image that is refused.
    Refusal,
    /// What comes before the paths.
    Head,
    /// How many pieces, a piece, or a number of the return's location.
    Path,
    /// Whether formulas follow.
    Formulas,
    /// The place of an overflow.
    Place,
    Sigs,
    Frees,
    /// Whether a checksig stands on the path.
    Checksig,
    /// An assignment, which is asked about and not compared.
    Mask,
    /// Half of the truths in security.
    Security,
    /// Half of the truths in liveness.
    Liveness,
}

/// What each number of an answer is, or nothing where it is no answer.
pub fn kinds(answer: &[u32]) -> Option<Vec<Kind>> {
    let kinds = match answer.first()? {
        0 => accepted(answer)?,
        _ => vec![Kind::Refusal; 2],
    };
    (kinds.len() == answer.len()).then_some(kinds)
}

fn accepted(answer: &[u32]) -> Option<Vec<Kind>> {
    let mut kinds = vec![Kind::Head; 5];
    let [paths, written] = [*answer.get(3)? as usize, *answer.get(4)? as usize];
    for _ in 0..written {
        let pieces = *answer.get(kinds.len())? as usize;
        kinds.extend(vec![Kind::Path; 1 + pieces.min(answer.len()) + 4]);
    }
    if paths <= most::PATHS {
        kinds.extend(translated(*answer.get(kinds.len())?, paths)?);
    }
    Some(kinds)
}

/// From the number that says whether formulas follow.
fn translated(number: u32, paths: usize) -> Option<Vec<Kind>> {
    match number {
        0 => Some([vec![Kind::Formulas], path().repeat(paths)].concat()),
        10 => Some(vec![Kind::Formulas, Kind::Place]),
        _ => None,
    }
}

/// The formula of one path.
fn path() -> Vec<Kind> {
    let truths = [Kind::Security, Kind::Security, Kind::Liveness, Kind::Liveness];
    [vec![Kind::Sigs, Kind::Frees, Kind::Checksig], vec![Kind::Mask; MASKS], truths.to_vec()].concat()
}
