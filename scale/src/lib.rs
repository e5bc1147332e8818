//! The proved library against the original, image by image: every entry's answer, and runs in slices of random budgets with checkpoints and
//! restarts. README.md says what is compared with what.

pub mod course;
pub mod differences;
pub mod groups;
pub mod images;
pub mod library;
pub mod noticing;
pub mod queries;
pub mod refused;
pub mod report;
pub mod runs;
pub mod searches;
pub mod tally;
pub mod workers;
pub mod wrong;
