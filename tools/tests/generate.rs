//! The program `generate`: its stream and report, wrong usage, and output that cannot be written.

use std::ffi::OsStr;
use std::fs::File;
use std::io::Read;
use std::os::unix::ffi::OsStrExt;
use std::process::{Command, Output, Stdio};

use image::generator::{cases, Request};
use image::stream;

/// The program with some words.
fn generate(words: &[&str]) -> Command {
    let mut command = Command::new(env!("CARGO_BIN_EXE_generate"));
    command.args(words);
    command
}

/// Exit status, standard output and standard error.
fn told(output: Output) -> (Option<i32>, Vec<u8>, String) {
    (output.status.code(), output.stdout, String::from_utf8(output.stderr).unwrap())
}

#[test]
fn the_words_are_the_request() {
    let words = ["7", "random=20", "damaged=30", "cuts", "limits", "rules", "parts", "formulas", "mode=1", "atoms=3", "bytes=600"];
    let request = Request {
        random: 20,
        damaged: 30,
        cuts: true,
        limits: true,
        rules: true,
        parts: true,
        formulas: true,
        mode: Some(1),
        most_atoms: 3,
        most_bytes: 600,
    };
    let mut wanted = vec![];
    cases(7, &request).for_each(|case| stream::put(&mut wanted, &case.image).unwrap());
    let (status, stream, report) = told(generate(&words).output().unwrap());
    assert_eq!((status, stream == wanted), (Some(0), true));
    assert!(report.starts_with(&format!("{} images, ", cases(7, &request).count())), "{report}");
}

#[test]
fn some_of_the_images_can_be_chosen() {
    let request = Request { limits: true, mode: Some(0), ..Request::default() };
    for (words, longest) in
        [(vec!["1", "limits", "mode=0", "only=paths"], usize::MAX), (vec!["1", "limits", "mode=0", "only=paths", "longest=10000"], 10_000)]
    {
        let mut wanted = vec![];
        let chosen = cases(1, &request).filter(|case| case.kind.contains("paths") && case.image.len() <= longest);
        chosen.for_each(|case| stream::put(&mut wanted, &case.image).unwrap());
        assert!(told(generate(&words).output().unwrap()).1 == wanted && !wanted.is_empty(), "{words:?}");
    }
}

#[test]
fn each_word_alone_is_enough() {
    for word in ["random=1", "damaged=1", "cuts", "limits", "rules", "parts", "formulas"] {
        assert_eq!(generate(&["1", word]).output().unwrap().status.code(), Some(0), "{word}");
    }
}

#[test]
fn wrong_usage_is_told() {
    let wrong = [
        (vec![], "no seed"),
        (vec!["x"], "the seed is not a 64-bit number: x"),
        (vec!["1"], "nothing is asked for"),
        (vec!["1", "random=0", "damaged=0"], "nothing is asked for"),
        (vec!["1", "cut"], "unknown argument: cut"),
        (vec!["1", "cuts=1"], "unknown argument: cuts=1"),
        (vec!["1", "random"], "not a number: random"),
        (vec!["1", "random=-1"], "not a number: random=-1"),
        (vec!["1", "rules", "only"], "unknown argument: only"),
        (vec!["1", "rules", "longest=x"], "not a number: longest=x"),
        (vec!["1", "rules", "mode=2"], "not from 0 to 1: mode=2"),
        (vec!["1", "rules", "atoms=21"], "not from 0 to 20: atoms=21"),
        (vec!["1", "rules", "bytes=7"], "not from 8 to 32768: bytes=7"),
    ];
    for (words, message) in wrong {
        let (status, stream, complaint) = told(generate(&words).output().unwrap());
        assert_eq!((status, stream), (Some(2), vec![]), "{words:?}");
        assert!(complaint.starts_with(&format!("generate: {message}\nusage: generate SEED WHAT..\n")), "{complaint}");
    }
}

#[test]
fn an_argument_that_is_no_text_is_wrong_usage() {
    for words in [vec![b"\xff".as_slice()], vec![b"1", b"random=\xff"]] {
        let (status, stream, complaint) = told(generate(&[]).args(words.into_iter().map(OsStr::from_bytes)).output().unwrap());
        assert_eq!((status, stream), (Some(2), vec![]));
        assert!(complaint.starts_with("generate: an argument is not UTF-8: ") && complaint.contains("\nusage: "), "{complaint}");
    }
}

/// A device on which there is never room.
fn full() -> File {
    File::options().write(true).open("/dev/full").unwrap()
}

#[test]
fn a_full_standard_output_is_told() {
    for word in ["random=1", "random=2000"] {
        let (status, _, complaint) = told(generate(&["1", word]).stdout(full()).output().unwrap());
        assert_eq!(status, Some(1));
        assert!(complaint.starts_with("generate: standard output cannot be written: ") && complaint.lines().count() == 1, "{complaint}");
    }
}

#[test]
fn a_reader_that_goes_away_is_told() {
    let mut child = generate(&["1", "limits"]).stdout(Stdio::piped()).stderr(Stdio::piped()).spawn().unwrap();
    let mut output = child.stdout.take().unwrap();
    output.read_exact(&mut [0; 4]).unwrap();
    drop(output);
    let (status, _, complaint) = told(child.wait_with_output().unwrap());
    assert_eq!(status, Some(1));
    assert!(complaint.starts_with("generate: standard output cannot be written: "), "{complaint}");
}

#[test]
fn a_full_standard_error_changes_nothing() {
    let whole = generate(&["1", "random=3"]).stderr(full()).output().unwrap();
    assert_eq!(whole.status.code(), Some(0));
    assert_eq!(whole.stdout, generate(&["1", "random=3"]).output().unwrap().stdout);
    assert_eq!(generate(&["1"]).stderr(full()).status().unwrap().code(), Some(2));
    assert_eq!(generate(&["1", "random=3"]).stdout(full()).stderr(full()).status().unwrap().code(), Some(1));
}
