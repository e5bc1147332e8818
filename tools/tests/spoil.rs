//! The program `spoil`: one wrong number in each row and the line that tells it, and lists that are no lists.

use std::collections::BTreeMap;
use std::fs::{self, File};
use std::io::Write;
use std::process::{Command, Stdio};

use image::recorded::{kinds, Kind};
use image::stream::{put, take};

/// The program with some words, on a list: exit status, standard output and standard error.
fn spoil(words: &[&str], list: &[u8]) -> (Option<i32>, Vec<u8>, String) {
    let mut command = Command::new(env!("CARGO_BIN_EXE_spoil"));
    let mut child = command.args(words).stdin(Stdio::piped()).stdout(Stdio::piped()).stderr(Stdio::piped()).spawn().unwrap();
    let mut stdin = child.stdin.take().unwrap();
    let list = list.to_vec();
    // a program that stops early does not read it all
    let writer = std::thread::spawn(move || stdin.write_all(&list).is_ok());
    let output = child.wait_with_output().unwrap();
    writer.join().unwrap();
    (output.status.code(), output.stdout, String::from_utf8(output.stderr).unwrap())
}

/// A list of rows: images, and the numbers of their answers.
fn list(rows: &[(&[u8], &[u32])]) -> Vec<u8> {
    let mut list = vec![];
    for (image, numbers) in rows {
        put(&mut list, image).unwrap();
        put(&mut list, &numbers.iter().flat_map(|number| number.to_be_bytes()).collect::<Vec<u8>>()).unwrap();
    }
    list
}

/// The answer to an accepted image with so many paths, before what is said of their formulas and with it.
fn accepted(paths: u32, formulas: &[u32]) -> Vec<u32> {
    [vec![0, 1, 1, paths, paths], [1, 50, 5, 6, 7, 8].repeat(paths as usize), formulas.to_vec()].concat()
}

/// The part of a path's formula: atoms, masks that stand out, and truths.
fn formula() -> Vec<u32> {
    [vec![2, 3, 1], vec![77; 64], vec![4, 5, 6, 7]].concat()
}

#[test]
fn each_row_has_one_wrong_number() {
    let long = vec![7; 100_000];
    let rows: [(&[u8], Vec<u32>, usize); 8] = [
        (b"BVN", vec![3, 3], 0),
        (b"", vec![1, 0], 1),
        // head, then whether formulas follow
        (b"?", accepted(0, &[0]), 1),
        (b"?", accepted(0, &[0]), 5),
        (&long, accepted(1, &[10, 99]), 1),
        (b"BVN", accepted(200, &[]), 7),
        // of eight kinds the truths in security, then those in liveness
        (b"?", accepted(1, &[&[0], &formula()[..]].concat()), 5 + 6 + 1 + 67),
        (b"?", accepted(2, &[&[0], &formula()[..], &formula()[..]].concat()), 5 + 12 + 1 + 69),
    ];
    let all = |wrong: bool| {
        let rows = rows.iter().enumerate().map(|(row, (image, answer, at))| {
            let mut answer = answer.clone();
            answer[*at] ^= (wrong as u32) << (row / 3);
            (*image, answer)
        });
        list(&rows.collect::<Vec<_>>().iter().map(|(image, answer)| (*image, &answer[..])).collect::<Vec<_>>())
    };
    let told: String = rows.iter().enumerate().map(|(row, (_, _, at))| format!("row {row}: number {at} of the answer differs\n")).collect();
    let (status, spoilt, said) = spoil(&[], &all(false));
    assert_eq!((status, said), (Some(0), told));
    assert!(spoilt == all(true));
    assert_eq!(spoil(&[], b""), (Some(0), vec![], String::new()));
}

/// Each row of lines has one wrong digit, another from row to row; what has no digit cannot be wrong.
#[test]
fn each_row_of_lines_has_one_wrong_digit() {
    let lines = |answers: &[&[u8]]| {
        let mut list = vec![];
        answers.iter().for_each(|answer| put(&mut list, b"?").and_then(|()| put(&mut list, answer)).unwrap());
        list
    };
    let told = "row 0: the lines differ\nrow 1: the lines differ\nrow 2: the lines differ\n";
    let (status, spoilt, said) = spoil(&["lines"], &lines(&[b"refused 3 at 9\n", b"refused 3 at 9\n", b"refused 3 at 9\n"]));
    assert_eq!((status, said.as_str()), (Some(0), told));
    assert!(spoilt == lines(&[b"refused 4 at 9\n", b"refused 3 at 0\n", b"refused 4 at 9\n"]));
    assert_eq!(spoil(&["lines"], &lines(&[b"none\n"])).0, Some(1));
    assert_eq!(spoil(&["other"], b"").0, Some(2));
}

/// The recorded list has numbers of every kind spoilt, but no mask.
#[test]
fn every_kind_of_number_is_spoilt() {
    let list = fs::read("../crates/recorded/data/recorded").unwrap();
    let (status, _, told) = spoil(&[], &list);
    assert_eq!(status, Some(0));
    let mut input = &list[..];
    let mut counts: BTreeMap<Kind, usize> = BTreeMap::new();
    for line in told.lines() {
        take(&mut input, usize::MAX).unwrap().unwrap();
        let answer = take(&mut input, usize::MAX).unwrap().unwrap();
        let numbers: Vec<u32> = answer.chunks(4).map(|four| u32::from_be_bytes(four.try_into().unwrap())).collect();
        let at: usize = line.split(' ').nth(3).unwrap().parse().unwrap();
        *counts.entry(kinds(&numbers).unwrap()[at]).or_default() += 1;
    }
    assert!(input.is_empty());
    let all = [Kind::Refusal, Kind::Head, Kind::Path, Kind::Formulas, Kind::Place, Kind::Sigs, Kind::Frees, Kind::Checksig];
    let all = all.into_iter().chain([Kind::Security, Kind::Liveness]);
    assert!(counts.keys().copied().eq(all) && counts.values().all(|count| *count >= 20), "{counts:?}");
}

#[test]
fn a_list_that_is_none_is_told() {
    let two = list(&[(b"BVN", &[3, 3]), (b"", &[1, 0])]);
    let ends = "the stream ends within an image or its length";
    let wrong = [
        (two[..two.len() - 1].to_vec(), format!("row 1: {ends}")),
        (two[..two.len() - 12].to_vec(), "row 1: the image has no answer".to_string()),
        (two[..10].to_vec(), format!("row 0: {ends}")),
        (list(&[(b"BVN", &[])]), "row 0: the answer is none".to_string()),
        (list(&[(b"BVN", &[3])]), "row 0: the answer is none".to_string()),
        (list(&[(b"BVN", &accepted(1, &[0]))]), "row 0: the answer is none".to_string()),
        (list(&[(b"BVN", &accepted(1, &[9, 9]))]), "row 0: the answer is none".to_string()),
        (vec![0, 0, 0, 0, 0, 0, 0, 5, 1, 2, 3, 4, 5], "row 0: the answer is none".to_string()),
    ];
    for (list, message) in wrong {
        let (status, _, told) = spoil(&[], &list);
        assert_eq!((status, told.lines().last()), (Some(1), Some(format!("spoil: {message}").as_str())));
    }
}

#[test]
fn wrong_usage_and_a_full_standard_output_are_told() {
    let (status, spoilt, told) = spoil(&["spoilt"], &list(&[(b"", &[1, 0])]));
    assert_eq!((status, spoilt, told.as_str()), (Some(2), vec![], "usage: spoil [lines] < LIST > SPOILT 2> TOLD\n"));
    let full = File::options().write(true).open("/dev/full").unwrap();
    let mut command = Command::new(env!("CARGO_BIN_EXE_spoil"));
    let mut child = command.stdin(Stdio::piped()).stdout(full).stderr(Stdio::piped()).spawn().unwrap();
    child.stdin.take().unwrap().write_all(&list(&[(b"", &[1, 0])])).unwrap();
    let output = child.wait_with_output().unwrap();
    assert_eq!(output.status.code(), Some(1));
    assert!(String::from_utf8(output.stderr).unwrap().contains("spoil: the spoilt list cannot be written: "));
}
