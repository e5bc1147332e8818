//! The text form: print and parse give each other back, every word is its op, and the samples come back.

mod common;

use common::*;
use image::reading::read;
use image::samples::{sample, samples, Sample};
use image::text::{parse, print};
use image::tree::*;
use image::writing::write;

// ---- a family of trees: every tag and op, the extremes of each number, every shape of block

const LOCATIONS: [Location; 6] = [
    Location { start: 0, end: 0, line: 0, column: 0 },
    Location { start: u32::MAX, end: u32::MAX, line: u32::MAX, column: u32::MAX },
    Location { start: 1, end: 0, line: 0, column: 0 },
    Location { start: 0, end: 2, line: 0, column: 0 },
    Location { start: 0, end: 0, line: 3, column: 0 },
    Location { start: 0, end: 0, line: 0, column: 4 },
];

/// Every item with one operand.
fn ones() -> Vec<One> {
    (0..ops::UNARY).map(One::Unary).chain((0..ops::HASH).map(One::Hash)).chain([One::Length]).collect()
}

/// Every item with two operands.
fn twos() -> Vec<Two> {
    let logical = (0..ops::LOGICAL).map(Two::Logical);
    logical.chain((0..ops::COMPARE).map(Two::Compare)).chain((0..ops::BINARY).map(Two::Binary)).collect()
}

/// Every expression without operands.
fn leaves() -> Vec<Expr> {
    let strings = [vec![], vec![0], vec![0, 0xff, 0x0a], (0..=255).collect(), vec![7; 30_000]];
    let words = [Node::Variable, Node::Checksig, Node::Boolean(true), Node::Boolean(false)];
    words.into_iter().chain(NUMBERS.map(Node::Number)).chain(strings.map(Node::Bytes)).map(Expr::new).collect()
}

/// Every op over leaves, and over itself.
fn inner() -> Vec<Expr> {
    let leaf = || Expr::new(Node::Checksig);
    let one = ones().into_iter().flat_map(|op| [Expr::one(op, leaf()), Expr::one(op, Expr::one(op, leaf()))]);
    let two = twos().into_iter().flat_map(|op| {
        let plain = Expr::two(op, leaf(), Expr::new(Node::Number(-1)));
        [plain.clone(), Expr::two(op, plain.clone(), leaf()), Expr::two(op, leaf(), plain)]
    });
    one.chain(two).collect()
}

/// The family: each item alone and with each location, in both modes, and long lists.
fn family() -> Vec<Contract> {
    let expressions = leaves().into_iter().chain(inner());
    let located = expressions.flat_map(|item| LOCATIONS.map(|location| Stmt::new(StmtKind::Verify(item.clone().at(location)))));
    let placed = statements().into_iter().flat_map(|item| LOCATIONS.map(|location| item.clone().at(location)));
    let single = located.chain(placed).map(|item| vec![item]);
    let lists = [vec![], vec![end(); most::STATEMENTS], statements().into_iter().take(20).collect()];
    single.chain(lists).flat_map(|list| [0, 1].map(|mode| Contract { mode, statements: list.clone() })).collect()
}

#[test]
fn every_tree_comes_back() {
    let family = family();
    assert!(family.len() > 1_000);
    for contract in family {
        let text = print(&contract);
        assert_eq!(parse(&text).as_ref(), Ok(&contract), "{text}");
        assert_eq!(read(&write(&contract)).as_ref(), Ok(&contract), "{text}");
    }
}

/// Every word with an op: its tag and op, in the order of document 01's table (of 001 where it says so).
const WORDS: [(&str, u8, &[&str]); 6] = [
    ("# 0", tag::LOCKTIME, &["cltv", "csv"]),
    ("return (1 # 1)", tag::LOGICAL, &["or", "and"]),
    ("return (1 # 1)", tag::COMPARE, &["==", "!=", ">", ">=", "<", "<=", "num==", "num!="]),
    ("return #(1)", tag::UNARY, &["add1", "sub1", "negate", "abs", "not"]),
    ("return (1 # 1)", tag::BINARY, &["+", "-", "max", "min"]),
    ("return #(1)", tag::HASH, &["sha256", "ripemd160"]),
];

#[test]
fn every_word_is_its_tag_and_op() {
    for (form, tag, words) in WORDS {
        for (op, word) in (0..).zip(words) {
            let image = write(&parse(&format!("mode 0\n{}", form.replace('#', word))).unwrap());
            let item = if tag == tag::LOCKTIME { 8 } else { 25 };
            assert_eq!((image[item], image[item + 17]), (tag, op), "{word}");
        }
    }
}

#[test]
fn a_text_is_its_bytes() {
    let text = "mode 1\nif@1-2:3:4 true {\n    return@5-6:7:8 bytes(0aff)@9-10:11:12\n} else {\n    cltv -2\n    verify length(false)\n}\n";
    let number = |value: u8| [0, 0, 0, value];
    let located = |tag: u8, from: u8| [vec![tag], (from..from + 4).flat_map(number).collect()].concat();
    let plain = |tag: u8| [vec![tag], vec![0; 16]].concat();
    let head = [b"BVN".as_slice(), &[0, 1, 1, 0, 1]].concat();
    let branch = [located(1, 1), vec![1, 0, 1, 0, 2], plain(18), vec![1]].concat();
    let first = [located(4, 5), located(19, 9), vec![0, 2, 0x0a, 0xff]].concat();
    let second = [plain(2), [vec![0], vec![255; 7], vec![254]].concat(), plain(3), plain(26), plain(18), vec![0]].concat();
    let image = [head, branch, first, second].concat();
    assert_eq!(write(&parse(text).unwrap()), image);
    assert_eq!(print(&read(&image).unwrap()), text);
}

#[test]
fn an_op_that_no_image_has_prints_as_no_word() {
    let wrong = Contract { mode: 0, statements: vec![Stmt::new(StmtKind::Locktime { op: 2, operand: 0 })] };
    assert_eq!(print(&wrong), "mode 0\n? 0\n");
    assert_eq!(parse(&print(&wrong)).unwrap_err().to_string(), "line 2: expected a statement, found \"?\"");
}

#[test]
fn white_space_and_comments_are_free() {
    let plain = "mode 0\nif variable {\n    verify (checksig@10-30:2:5 and 1)\n    return true\n} else {\n    csv 4320\n    return not(bytes(00ff))\n}\n";
    let free = "# head\r\nmode\t0#no space\nif variable{verify( checksig@10-30:2:5\nand 1 )return@0-0:0:0 true}else # here\n{csv # and here\n\n4320 return not ( bytes ( 00FF )@0-0:0:0 )}";
    assert_eq!(parse(free), parse(plain));
    assert_eq!(print(&parse(free).unwrap()), plain);
}

// ---- samples

#[test]
fn every_sample_comes_back_byte_by_byte() {
    let samples = samples(".").unwrap();
    let cases = (1..=13).map(|n| format!("P{n}")).chain((1..=6).map(|n| format!("R{n}")));
    let mut names: Vec<String> = cases.chain(["two-of-three", "inheritance", "no-signature"].map(String::from)).collect();
    names.sort();
    assert_eq!(samples.iter().map(|sample| sample.name.clone()).collect::<Vec<_>>(), names);
    for Sample { name, text, image, .. } in samples {
        assert_eq!(write(&parse(&text).unwrap()), image, "{name}");
        assert_eq!(print(&read(&image).unwrap()), text, "{name}");
        assert_eq!(run("image", text.as_bytes()), (0, image.clone(), String::new()), "{name}");
        assert_eq!(run("text", &image), (0, text.into_bytes(), String::new()), "{name}");
    }
}

#[test]
fn the_overflow_of_r6_is_written_and_stands_at_43() {
    assert_eq!(sample("R6").unwrap().image[43], tag::UNARY);
}

/// Every location of a list with the one around it.
fn list_locations(list: &[Stmt], around: Location) -> Vec<(Location, Location)> {
    list.iter().flat_map(|item| statement_locations(item, around)).collect()
}

/// The same of a statement.
fn statement_locations(item: &Stmt, around: Location) -> Vec<(Location, Location)> {
    let inner = match &item.kind {
        StmtKind::If { condition, then, otherwise } => {
            let blocks = [then.as_slice(), otherwise.as_deref().unwrap_or_default()].concat();
            [expression_locations(condition, item.location), list_locations(&blocks, item.location)].concat()
        }
        StmtKind::Verify(operand) | StmtKind::Return(operand) => expression_locations(operand, item.location),
        StmtKind::Locktime { .. } => vec![],
    };
    [vec![(item.location, around)], inner].concat()
}

/// The same of an expression.
fn expression_locations(item: &Expr, around: Location) -> Vec<(Location, Location)> {
    let inner = item.operands().into_iter().flat_map(|operand| expression_locations(operand, item.location));
    [(item.location, around)].into_iter().chain(inner).collect()
}

#[test]
fn the_locations_of_the_longer_samples_are_those_of_one_source() {
    let whole = Location { start: 0, end: u32::MAX, line: 1, column: 1 };
    let longer = |name: &str| name.contains('-') || name == "inheritance";
    for Sample { name, text, .. } in samples(".").unwrap().into_iter().filter(|sample| longer(&sample.name)) {
        let locations = list_locations(&parse(&text).unwrap().statements, whole);
        for (location, around) in &locations {
            assert!(location.start < location.end && location.line > 0 && location.column > 0, "{name} {location:?}");
            assert!(around.start <= location.start && location.end <= around.end, "{name} {location:?} in {around:?}");
            let line_start = |other: &Location| other.start - (other.column - 1);
            let on_line = locations.iter().filter(|(other, _)| other.line == location.line);
            assert!(on_line.into_iter().all(|(other, _)| line_start(other) == line_start(location)), "{name} {location:?}");
        }
    }
}
