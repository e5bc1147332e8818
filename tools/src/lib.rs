//! Contract images: the tree, writing and reading it, its text form, the samples, a generator of images, the rows of
//! the recorded list, and the bytes of a checkpoint.

pub mod checkpoint;
pub mod generator;
pub mod reading;
pub mod recorded;
pub mod samples;
pub mod stream;
pub mod text;
pub mod tree;
pub mod writing;
