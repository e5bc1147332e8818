//! The program `record`: its rows, number by number, and streams that are no streams.

use std::collections::BTreeSet;
use std::io::Write;
use std::process::{Command, Output, Stdio};

use image::stream::{self, Images};
use image::tree::size;
use image::{text, writing};

/// The program with some words, on a stream.
fn record(words: &[&str], stream: &[u8]) -> Output {
    let mut command = Command::new(env!("CARGO_BIN_EXE_record"));
    let mut child = command.args(words).stdin(Stdio::piped()).stdout(Stdio::piped()).stderr(Stdio::piped()).spawn().unwrap();
    // a program that stops early does not read it all
    let _ = child.stdin.take().unwrap().write_all(stream);
    child.wait_with_output().unwrap()
}

fn image(contract: &str) -> Vec<u8> {
    writing::write(&text::parse(contract).unwrap())
}

fn stream(images: &[Vec<u8>]) -> Vec<u8> {
    let mut stream = vec![];
    images.iter().for_each(|image| stream::put(&mut stream, image).unwrap());
    stream
}

/// The rows of a list: images, and the numbers of their answers.
fn rows(list: &[u8]) -> Vec<(Vec<u8>, Vec<u32>)> {
    let parts: Vec<Vec<u8>> = Images::new(list).map(Result::unwrap).collect();
    let numbers = |answer: &[u8]| answer.chunks(4).map(|four| u32::from_be_bytes(four.try_into().unwrap())).collect();
    parts.chunks(2).map(|row| (row[0].clone(), numbers(&row[1]))).collect()
}

/// A contract with two paths, one refused image, one without paths, one with more paths than are written out, and one that overflows.
fn images() -> Vec<Vec<u8>> {
    let many = (0..8).fold("return 2".to_string(), |inner, _| format!("if 1 {{ {inner} }} else {{ {inner} }}"));
    let two = "mode 1\nverify true if variable { return@1-2:3:4 checksig } else { return@5-6:7:4294967295 false } return true";
    let overflow = "mode 0\nreturn (variable or add1(9223372036854775807))";
    vec![image(two), b"BVN".to_vec(), image("mode 0\n"), image(&format!("mode 0\n{many}")), image(overflow)]
}

/// The truths that a path's row has to have, two words: bit k is the truth at mask k.
fn truths(masks: &[u32], truth: fn(u32) -> bool) -> [u32; 2] {
    let bits = masks.iter().enumerate().fold(0u64, |bits, (k, mask)| bits | (truth(*mask) as u64) << k);
    [(bits >> 32) as u32, bits as u32]
}

#[test]
fn a_row_has_every_number() {
    let output = record(&[], &stream(&images()));
    assert_eq!(output.status.code(), Some(0));
    let rows = rows(&output.stdout);
    assert_eq!(rows.iter().map(|row| row.0.clone()).collect::<Vec<_>>(), images());
    let verify = size::HEAD + size::ITEM;
    let condition = verify + size::BOOLEAN + size::IF_ELSE;
    let (first, second) = (condition + 2 * size::ITEM, condition + 4 * size::ITEM);
    let [verify, condition, first, second] = [verify, condition, first, second].map(|offset| 2 * offset as u32);
    let head = [0, 1, 3, 2, 2];
    let paths = [[3, condition + 1, verify + 1, first + 1, 1, 2, 3, 4], [3, condition, verify + 1, second + 1, 5, 6, 7, u32::MAX]];
    let (walked, formulas) = rows[0].1.split_at(5 + 16);
    assert_eq!(walked, [head.as_slice(), &paths.concat()].concat());
    // the first path is the variable and the checksig, the second never holds
    let (first, second) = (&formulas[1..72], &formulas[72..]);
    assert_eq!((formulas[0], &first[..3], &second[..3]), (0, [1, 1, 1].as_slice(), [0, 1, 0].as_slice()));
    let (masks, words) = first[3..].split_at(64);
    assert_eq!(words, [truths(masks, |_| false), truths(masks, |mask| mask & 3 == 3)].concat());
    assert!(masks.iter().collect::<BTreeSet<_>>().len() == 64 && masks.contains(&3));
    assert_eq!((second.len(), &second[67..]), (71, [0; 4].as_slice()));
    assert_eq!(rows[1].1, [3, 3]);
    assert_eq!(rows[2].1, [0, 0, 0, 0, 0, 0]);
    assert_eq!((&rows[3].1[..5], rows[3].1.len()), ([0, 0, 1, 256, 130].as_slice(), 5 + 130 * (1 + 9 + 4)));
    let overflow = (size::HEAD + size::ITEM + size::OPERATION + size::ITEM) as u32;
    assert_eq!(rows[4].1[5 + 6..], [10, overflow]);
}

#[test]
fn what_came_is_counted() {
    let output = record(&[], &stream(&images()));
    let counts = "accepted, over 128 paths: 1\naccepted, then refused 10: 1\naccepted, with formulas: 2\n";
    let said = String::from_utf8(output.stderr).unwrap();
    assert!(said.starts_with(counts), "{said}");
    assert!(said.contains("\npaths with a formula: 2\nrefused 3: 1\nsecurity, false: 128\nsecurity, true: 0\n"), "{said}");
}

#[test]
fn wrong_usage_and_a_cut_stream_are_told() {
    assert_eq!(record(&["other"], b"").status.code(), Some(2));
    let output = record(&[], &stream(&images())[..10]);
    assert_eq!(output.status.code(), Some(1));
    assert!(output.stderr.starts_with(b"record: image 0: "));
}
