//! The samples: contracts as text, with their answers beside them.

use std::fs;
use std::io;
use std::path::{Path, PathBuf};

use crate::{text, writing};

/// A sample: its name, its text, its image, and the answer that is recorded beside it.
#[derive(Clone, Debug)]
pub struct Sample {
    pub name: String,
    pub text: String,
    pub image: Vec<u8>,
    pub answer: String,
}

/// The samples in a folder of samples/, by name.
pub fn samples(folder: &str) -> Result<Vec<Sample>, String> {
    let folder = home().join(folder);
    let entries = fs::read_dir(&folder).and_then(|entries| entries.map(|entry| Ok(entry?.path())).collect());
    let mut paths: Vec<PathBuf> = entries.map_err(|error: io::Error| format!("{}: {error}", folder.display()))?;
    paths.retain(|path| path.extension().is_some_and(|extension| extension == "contract"));
    paths.sort();
    paths.iter().map(|path| read(path)).collect()
}

/// Every sample.
pub fn every() -> Result<Vec<Sample>, String> {
    Ok([samples(".")?, samples("differences")?].concat())
}

/// The sample with a name.
pub fn sample(name: &str) -> Result<Sample, String> {
    read(&home().join(format!("{name}.contract")))
}

/// The folder of the samples.
fn home() -> PathBuf {
    Path::new(env!("CARGO_MANIFEST_DIR")).join("../samples")
}

/// The sample whose text stands in a file.
fn read(path: &Path) -> Result<Sample, String> {
    let read = |path: &Path| fs::read_to_string(path).map_err(|error| format!("{}: {error}", path.display()));
    let text = read(path)?;
    let contract = text::parse(&text).map_err(|bad| format!("{}: {bad}", path.display()))?;
    let name = path.file_stem().unwrap_or_default().to_string_lossy().into_owned();
    Ok(Sample { name, text, image: writing::write(&contract), answer: read(&path.with_extension("answer"))? })
}
