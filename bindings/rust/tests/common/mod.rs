//! What the tests share: where the repository is, images by their names in samples/, images and places that are refused, and programs in C.

// each test file uses a part of it
#![allow(dead_code)]

use std::fs;
use std::io::Write;
use std::path::{Path, PathBuf};
use std::process::{Command, Stdio};

use bayekosh::{Examination, MOST_BYTES};
use image::checkpoint::Place;
use image::generator::units::*;
use image::samples::{self, Sample};
use image::tree::{most, size, One};

/// A file or folder of the repository.
pub fn here(name: &str) -> PathBuf {
    PathBuf::from(env!("CARGO_MANIFEST_DIR")).join("../..").join(name)
}

/// The text of a file of the repository.
pub fn text(name: &str) -> String {
    fs::read_to_string(here(name)).unwrap_or_else(|error| panic!("{name}: {error}"))
}

/// The image of a sample.
pub fn sample(name: &str) -> Vec<u8> {
    samples::sample(name).unwrap_or_else(|error| panic!("{error}")).image
}

/// All samples.
pub fn samples() -> Vec<Sample> {
    let all = samples::every().unwrap_or_else(|error| panic!("{error}"));
    assert!(all.len() > 20, "there are {} samples", all.len());
    all
}

/// The bytes of a checkpoint, which have 32 bits of the count.
pub fn checkpoint(at: Examination, image: &[u8]) -> Vec<u8> {
    let Examination { phase, path, mask, count } = at;
    let count = u32::try_from(count).expect("a total has 32 bits");
    image::checkpoint::checkpoint(Place { phase, path, mask, count }, image)
}

/// Images that are refused: the number, its place, the image.
pub fn refused() -> Vec<(u32, usize, Vec<u8>)> {
    let head = |count: u8| vec![b'B', b'V', b'N', 0, 1, 0, 0, count];
    let spoilt = |at: usize, byte: u8| {
        let mut image = head(0);
        image[at] = byte;
        image
    };
    let deep = around(most::EXPRESSION_LEVEL, One::Unary(4), x());
    let nested = (0..most::STATEMENT_LEVEL).fold(vec![ret(x())], |inner, _| vec![ifs(x(), inner)]);
    vec![
        (1, 0, vec![]),
        (1, 0, b"BV".to_vec()),
        (1, 0, b"BVC\0\x01\0\0\0".to_vec()),
        (2, 3, spoilt(4, 2)),
        (3, 3, b"BVN".to_vec()),
        (3, size::HEAD, head(1)),
        (4, 5, spoilt(5, 2)),
        (4, size::HEAD, [head(1), vec![16]].concat()),
        (5, size::HEAD + size::ITEM + most::EXPRESSION_LEVEL * size::OPERATION, image(0, vec![ret(deep)])),
        (5, size::HEAD + most::STATEMENT_LEVEL * (size::IF + size::ITEM), image(0, nested)),
        (6, size::HEAD + most::STATEMENTS * size::LOCKTIME, image(0, times(most::STATEMENTS + 1, lock()))),
        (7, 8, [head(0), vec![0]].concat()),
        (8, 0, vec![0; MOST_BYTES + 1]),
        (9, 0, image(0, forking(most::PATHS + 1, &x(), &c()))),
        (10, 43, sample("R6")),
    ]
}

/// Places that do not fit the image of P5, whose one path has 2 assignments, then 4.
pub fn unfit() -> [Examination; 7] {
    let at = |phase, path, mask, count| Examination { phase, path, mask, count };
    [at(2, 0, 0, 0), at(0, 1, 0, 2), at(0, 0, 2, 2), at(0, 0, 1, 2), at(1, 2, 0, 6), at(1, 1, 1, 6), at(0, 0, 0, 1 << 40)]
}

/// The folder of what the tests build.
const BUILT: &str = env!("CARGO_TARGET_TMPDIR");

/// Builds a C program out of a source and the files that are linked with it.
pub fn built(name: &str, source: &Path, linked: &[PathBuf]) -> PathBuf {
    let program = Path::new(BUILT).join(name);
    let mut cc = Command::new("cc");
    cc.args(["-Wall", "-Wextra", "-Werror", "-std=c99", "-pedantic", "-O1", "-I"]).arg(here("bindings/c"));
    cc.arg(source).args(linked).arg("-o").arg(&program);
    let status = cc.status().expect("cc is there");
    assert!(status.success(), "{} is not built", source.display());
    program
}

/// What a program prints on an input.
pub fn printed(program: &Path, input: &[u8]) -> String {
    let mut child = Command::new(program).stdin(Stdio::piped()).stdout(Stdio::piped()).spawn().expect("the program starts");
    child.stdin.take().expect("it has an input").write_all(input).expect("the program reads its input");
    let output = child.wait_with_output().expect("the program ends");
    assert!(output.status.success(), "{} ends with {}", program.display(), output.status);
    String::from_utf8(output.stdout).expect("it prints text")
}
