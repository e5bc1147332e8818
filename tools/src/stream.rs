//! A stream of images, each after a 32-bit big-endian length.

use std::io::{self, Read, Write};

use crate::tree::most;

/// Puts one image behind what was written before.
pub fn put(out: &mut impl Write, image: &[u8]) -> io::Result<()> {
    let length = u32::try_from(image.len()).map_err(|_| io::Error::other("an image's length has 32 bits"))?;
    out.write_all(&length.to_be_bytes())?;
    out.write_all(image)
}

/// The images of a stream, one after the other; a stream that ends within an image is an error. Of an image over the greatest size no
/// more is kept than shows it.
pub struct Images<R> {
    input: R,
}

impl<R: Read> Images<R> {
    /// The images that an input holds.
    pub fn new(input: R) -> Images<R> {
        Images { input }
    }
}

/// The next bytes behind their length, or nothing where the stream ends before it. Of more bytes than `most` only so many are kept.
pub fn take(input: &mut impl Read, most: usize) -> io::Result<Option<Vec<u8>>> {
    let mut first = vec![];
    input.by_ref().take(4).read_to_end(&mut first)?;
    if first.is_empty() {
        return Ok(None);
    }
    let length: [u8; 4] = first.try_into().map_err(|_| ends_early())?;
    let length = u64::from(u32::from_be_bytes(length));
    let kept = length.min(most as u64);
    let mut bytes = vec![];
    input.by_ref().take(kept).read_to_end(&mut bytes)?;
    let passed = io::copy(&mut input.by_ref().take(length - kept), &mut io::sink())?;
    if bytes.len() as u64 + passed < length {
        return Err(ends_early());
    }
    Ok(Some(bytes))
}

/// The error of a stream that is cut.
fn ends_early() -> io::Error {
    io::Error::new(io::ErrorKind::UnexpectedEof, "the stream ends within an image or its length")
}

impl<R: Read> Iterator for Images<R> {
    type Item = io::Result<Vec<u8>>;

    fn next(&mut self) -> Option<io::Result<Vec<u8>>> {
        take(&mut self.input, most::BYTES + 1).transpose()
    }
}
