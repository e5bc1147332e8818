//! In the place of original.rs where the original is not at hand: nothing stands beside ours.

use crate::images::Sample;
use crate::timing::Work;

pub fn surveying(_: &Sample) -> Option<Work<'_>> {
    None
}

pub fn evaluation(_: &Sample) -> Option<Work<'_>> {
    None
}

pub fn verdict(_: &Sample) -> Option<Work<'_>> {
    None
}
