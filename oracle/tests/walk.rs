//! The original's paths as offsets in the image, against contracts whose paths are written out here.

use bithoven::ast::Location;
use image::tree::{most, size};
use image::{text, writing};
use oracle::walk::{walk, Path, Walk};

/// An image from its text.
fn image(contract: &str) -> Vec<u8> {
    writing::write(&text::parse(contract).unwrap())
}

/// The paths of an image that is read.
fn paths(image: &[u8]) -> Vec<Path> {
    match walk(image).unwrap() {
        Walk::Paths(_, paths) => paths,
        other => panic!("{other:?}"),
    }
}

/// A path in short: a piece is the number literal that stands at its offset, behind a `-` where it must not hold; then `at` and the start of
/// the return's location. Every expression of these contracts is a number, so it tells which one is meant.
fn short(image: &[u8], path: &Path) -> String {
    let piece = |offset: usize| i64::from_be_bytes(image[offset + size::ITEM..][..8].try_into().unwrap());
    let pieces: String = path.pieces.iter().map(|p| format!("{}{} ", if p.holds { "" } else { "-" }, piece(p.offset))).collect();
    format!("{pieces}at {}", path.location.start)
}

/// The paths of a contract, in short.
fn shortened(statements: &str) -> Vec<String> {
    let image = image(&format!("mode 0\n{statements}"));
    paths(&image).iter().map(|path| short(&image, path)).collect()
}

#[test]
fn every_statement_does_its_own() {
    assert_eq!(shortened(""), [] as [&str; 0]);
    assert_eq!(shortened("cltv 1 csv 2"), [] as [&str; 0]);
    assert_eq!(shortened("verify 1"), [] as [&str; 0]);
    assert_eq!(shortened("return@9-0:0:0 1"), ["1 at 9"]);
    assert_eq!(shortened("csv 1 verify 2 cltv 3 verify 4 return@9-0:0:0 5"), ["2 4 5 at 9"]);
    assert_eq!(shortened("if 1 {}"), [] as [&str; 0]);
    assert_eq!(shortened("if 1 { return 2 }"), ["1 2 at 0"]);
    assert_eq!(shortened("if 1 { return@8-0:0:0 2 } else { return@9-0:0:0 3 }"), ["1 2 at 8", "-1 3 at 9"]);
}

#[test]
fn conditions_come_before_verifies() {
    assert_eq!(shortened("verify 1 if 2 { verify 3 return 4 } else { verify 5 return 6 }"), ["2 1 3 4 at 0", "-2 1 5 6 at 0"]);
    assert_eq!(shortened("verify 1 if 2 { verify 3 if 4 { verify 5 return 6 } }"), ["2 4 1 3 5 6 at 0"]);
}

#[test]
fn ifs_stand_in_both_blocks() {
    let nested = "if 1 { if 2 { return 3 } else { return 4 } } else { if 5 { return 6 } else { return 7 } }";
    assert_eq!(shortened(nested), ["1 2 3 at 0", "1 -2 4 at 0", "-1 5 6 at 0", "-1 -5 7 at 0"]);
}

#[test]
fn what_follows_a_return_or_an_if_is_not_walked() {
    assert_eq!(shortened("return 1 verify 2 return 3"), ["1 at 0"]);
    assert_eq!(shortened("if 1 { return 2 verify 3 } verify 4 return 5"), ["1 2 at 0"]);
    assert_eq!(shortened("if 1 {} return 2"), [] as [&str; 0]);
    assert_eq!(shortened("if 1 { return 2 if 3 { return 4 } } else { if 5 { return 6 } return 7 }"), ["1 2 at 0", "-1 5 6 at 0"]);
}

#[test]
fn a_list_that_runs_out_is_no_path() {
    assert_eq!(shortened("if 1 { verify 2 } else { return 3 }"), ["-1 3 at 0"]);
    assert_eq!(shortened("if 1 { if 2 { cltv 3 } else { return 4 } } else { verify 5 }"), ["1 -2 4 at 0"]);
}

#[test]
fn an_offset_is_that_of_the_tag_and_a_location_the_images_own() {
    let image = image("mode 1\nif@1-2:3:4 checksig@5-6:7:8 {} else { verify not(variable) return@9-10:11:12 (checksig and variable) }");
    let path = &paths(&image)[0];
    let offsets: Vec<usize> = path.pieces.iter().map(|piece| piece.offset).collect();
    let condition = size::HEAD + size::IF_ELSE;
    let verify = condition + size::ITEM + size::ITEM;
    let returned = verify + size::OPERATION + size::ITEM + size::ITEM;
    assert_eq!(offsets, [condition, verify, returned]);
    assert_eq!(offsets.iter().map(|offset| image[*offset]).collect::<Vec<u8>>(), [25, 22, 20]);
    assert_eq!(path.pieces.iter().map(|piece| piece.holds).collect::<Vec<bool>>(), [false, true, true]);
    assert_eq!(path.location, Location { start: 9, end: 10, line: 11, column: 12 });
}

#[test]
fn refusals_are_the_readers_and_no_others() {
    assert_eq!(walk(b"BVN").unwrap(), Walk::Refused { number: 3, place: 3 });
    assert_eq!(walk(&vec![0; most::BYTES + 1]).unwrap(), Walk::Refused { number: 8, place: 0 });
    assert_eq!(paths(&image("mode 0\nreturn add1(9223372036854775807)\n")).len(), 1);
    let fork = |inner: &str| format!("if 1 {{ {inner} }} else {{ {inner} }}");
    let many = (0..8).fold("return 2".to_string(), |inner, _| fork(&inner));
    assert_eq!(paths(&image(&format!("mode 0\n{many}"))).len(), 256);
}
