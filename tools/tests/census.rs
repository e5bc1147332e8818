//! The counts of a small stream that is made by hand, and the report of it.

use image::generator::census::Census;
use image::generator::{Case, Known};
use image::text::parse;
use image::writing::write;
use std::collections::BTreeMap;

/// A contract with a statement of every kind.
const FORK: &str = "mode 0
verify (1 + 2)
if variable {
    return checksig
} else {
    csv 7
    return not(checksig)
}
";

/// The image of a text.
fn image(text: &str) -> Vec<u8> {
    write(&parse(text).unwrap())
}

/// The text of 2^n paths.
fn forks(n: usize) -> String {
    match n {
        0 => "return true\n".to_string(),
        _ => format!("if true {{\n{}}} else {{\n{}}}\n", forks(n - 1), forks(n - 1)),
    }
}

/// Seven images: two that are accepted, one of which no path leads through, and one each for 1, 7, 9 and 10; the last twice.
fn stream() -> Vec<Case> {
    let wide = format!("mode 0\nif true {{\n{}}} else {{\nreturn true\n}}\n", forks(7));
    let overflow = Case::refused("overflow: ends: an end", image("mode 1\nreturn add1(9223372036854775807)\n"), 10, 25);
    vec![
        Case::new("random: any", image(FORK), Known::Read),
        Case::accepted("limit: nothing, at all", image("mode 0\n")),
        Case::refused("cuts: mark cut", vec![], 1, 0),
        Case::refused("rule: places: a byte", [image("mode 0\n"), vec![0]].concat(), 7, 8),
        Case::refused("limit: 129 paths, by hand", image(&wide), 9, 0),
        overflow.clone(),
        overflow,
    ]
}

/// The counts of the stream.
fn census() -> Census {
    let mut census = Census::default();
    stream().iter().for_each(|case| census.add(case));
    census
}

#[test]
fn every_count_is_exact() {
    let census = census();
    let lengths: usize = stream().iter().map(|case| case.image.len()).sum();
    assert_eq!((census.images, census.bytes), (7, lengths));
    assert_eq!(census.numbers, BTreeMap::from([(0, 4), (1, 1), (7, 1), (9, 1)]));
    assert_eq!(census.made_for, BTreeMap::from([(1, 1), (7, 1), (9, 1), (10, 2)]));
    let statements = [(1, 1 + 128), (2, 1), (3, 1), (4, 2 + 129 + 2)];
    let expressions = [(16, 1), (17, 2 + 2), (18, 128 + 129), (22, 1 + 2), (23, 1), (25, 2)];
    assert_eq!(census.tags, BTreeMap::from_iter(statements.into_iter().chain(expressions)));
    assert_eq!(census.ops, BTreeMap::from([((2, 1), 1), ((22, 0), 2), ((22, 4), 1), ((23, 0), 1)]));
    assert_eq!(census.expression_levels, BTreeMap::from([(0, 1), (1, 1), (2, 3)]));
    assert_eq!(census.statement_levels, BTreeMap::from([(0, 1), (1, 2), (2, 1), (16, 1)]));
    assert_eq!(census.paths, BTreeMap::from([(0, 1), (1, 2), (2, 1), (usize::MAX, 1)]));
}

/// The report behind its first line.
const REPORT: &str = "kinds
         1  cuts: mark cut
         1  limit: 129 paths
         1  limit: nothing
         2  overflow: ends
         1  random: any
         1  rule: places
refusals 1 to 9
         4  none of them
         1  refused 1
         1  refused 7
         1  refused 9
refusals that images were made for (whether 10 comes back, only the oracle tells)
         1  refused 1
         1  refused 7
         1  refused 9
         2  refused 10
items of the images that read
       129  1 if
         1  2 locktime
         1  3 verify
       133  4 return
         1  16 variable
         4  17 number
       257  18 boolean
         3  22 unary
         1  23 binary
         2  25 checksig
ops of the images that read
         1  locktime csv
         2  unary add1
         1  unary not
         1  binary +
greatest expression level
         1  0
         1  1
         3  2
greatest statement level
         1  0
         2  1
         1  2
         1  9 to 16
paths
         1  0
         2  1
         1  2
         1  over 128
";

#[test]
fn the_report_has_every_count() {
    let report = census().to_string();
    let (first, rest) = report.split_once('\n').unwrap();
    assert!(first.starts_with("7 images, ") && first.ends_with(" bytes"), "{first}");
    assert_eq!(rest, REPORT);
}
