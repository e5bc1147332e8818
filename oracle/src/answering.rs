//! A stream of images on standard input, answered on standard output, and how often each answer came.

use std::collections::BTreeMap;
use std::fmt;
use std::io::{self, BufWriter, Write};

use image::stream::{self, Images};

/// How often each answer came, and what else is counted.
#[derive(Clone, Debug, Default, PartialEq, Eq)]
pub struct Counts(BTreeMap<String, u64>);

impl Counts {
    /// So many more of a name.
    pub fn add(&mut self, name: impl Into<String>, more: u64) {
        *self.0.entry(name.into()).or_default() += more;
    }

    /// How often a name came.
    pub fn of(&self, name: &str) -> u64 {
        self.0.get(name).copied().unwrap_or_default()
    }

    /// All of others too.
    pub fn join(&mut self, others: Counts) {
        others.0.into_iter().for_each(|(name, count)| self.add(name, count));
    }
}

/// A line for each name.
impl fmt::Display for Counts {
    fn fmt(&self, out: &mut fmt::Formatter<'_>) -> fmt::Result {
        self.0.iter().try_for_each(|(name, count)| writeln!(out, "{name}: {count}"))
    }
}

/// Writes what is made of each image and its number; at the end the counts, on standard error.
pub fn each(mut made: impl FnMut(usize, &[u8], &mut Counts) -> Result<Vec<u8>, String>) -> Result<(), String> {
    let mut counts = Counts::default();
    let mut out = BufWriter::new(io::stdout().lock());
    for (number, image) in Images::new(io::stdin().lock()).enumerate() {
        let image = image.map_err(|error| format!("image {number}: {error}"))?;
        let made = made(number, &image, &mut counts).map_err(|fault| format!("image {number}: {fault}: {image:02x?}"))?;
        out.write_all(&made).map_err(|error| error.to_string())?;
    }
    out.flush().map_err(|error| error.to_string())?;
    io::stderr().write_all(counts.to_string().as_bytes()).map_err(|error| error.to_string())
}

/// A row of a list: the image, then the answer, each after its 32-bit length.
pub fn row(image: &[u8], answer: &[u8]) -> Result<Vec<u8>, String> {
    let mut row = vec![];
    stream::put(&mut row, image).and_then(|()| stream::put(&mut row, answer)).map_err(|error| error.to_string())?;
    Ok(row)
}
