//! The oracle against what is known without it: the samples' recorded answers, the generator's cases whose answer is known by construction,
//! every op on literals, trees beyond document 01's sizes, and the lengths that docs/DIFFERENCES.md gives.

use std::collections::BTreeMap;
use std::fs;

use bithoven::necessity::{check_necessity, count_paths};
use image::generator::{cases, Case, Request};
use image::tree::{op, Contract, Expr, Node, One, Stmt, StmtKind, Two};
use image::{text, writing};
use oracle::tree::{statements, Locations};
use oracle::{answer, Answer};

/// The images and recorded answers of the samples in a folder, by name.
fn samples(folder: &str) -> BTreeMap<String, (Vec<u8>, String)> {
    image::samples::samples(folder).unwrap().into_iter().map(|sample| (sample.name, (sample.image, sample.answer))).collect()
}

#[test]
fn samples_have_their_recorded_answers() {
    let (cases, differences) = (samples("."), samples("differences"));
    let wanted = (1..=13).map(|n| format!("P{n}")).chain((1..=6).map(|n| format!("R{n}")));
    for name in wanted.chain(["two-of-three", "inheritance", "no-signature"].map(String::from)) {
        assert!(cases.contains_key(&name), "{name}");
    }
    for (name, (image, recorded)) in cases.into_iter().chain(differences) {
        assert_eq!(answer(&image).unwrap().answer.to_string(), recorded, "{name}");
    }
}

/// The document says of each sample of samples/differences/ how long its image is, and of no other sample anything wrong.
#[test]
fn the_document_knows_the_samples() {
    let document = fs::read_to_string("../docs/DIFFERENCES.md").unwrap();
    let pieces: Vec<&str> = document.split('`').collect();
    let (cases, differences) = (samples("."), samples("differences"));
    let mut named = 0;
    for (name, rest) in pieces.iter().zip(&pieces[1..]) {
        let length =
            rest.strip_prefix(", ").and_then(|rest| rest.split_once(" bytes")).and_then(|(digits, _)| digits.parse::<usize>().ok());
        if let (Some(length), Some((image, _))) = (length, differences.get(*name).or_else(|| cases.get(*name))) {
            assert_eq!(image.len(), length, "{name}");
            named += differences.contains_key(*name) as usize;
        }
    }
    assert_eq!(named, differences.len());
}

#[test]
fn cases_have_the_answer_that_they_were_made_for() {
    let request =
        Request { random: 500, damaged: 500, cuts: true, limits: true, rules: true, parts: true, formulas: true, ..Request::default() };
    for Case { kind, image, known } in cases(1, &request) {
        let said = answer(&image).unwrap().answer;
        assert!(said.agrees(known), "{kind}: {known:?}, {said}");
    }
}

/// Whether a constant is true, by the verdict on its return.
fn truth(expression: &str) -> bool {
    let contract = text::parse(&format!("mode 0\nreturn {expression}\n")).unwrap();
    match answer(&writing::write(&contract)).unwrap().answer {
        Answer::Judged(judged) if judged.atoms == [(0, 0)] => judged.verdict == 1,
        other => panic!("{expression} is no constant: {other}"),
    }
}

#[test]
fn every_comparison_is_its_own() {
    let rows = [
        ("==", [false, true, false]),
        ("!=", [true, false, true]),
        (">", [false, false, true]),
        (">=", [false, true, true]),
        ("<", [true, false, false]),
        ("<=", [true, true, false]),
        ("num==", [false, true, false]),
        ("num!=", [true, false, true]),
    ];
    for (op, truths) in rows {
        assert_eq!([1, 2, 3].map(|left| truth(&format!("({left} {op} 2)"))), truths, "{op}");
    }
}

#[test]
fn every_operation_has_its_value() {
    let two = [("+", 8, -2), ("-", 2, -8), ("max", 5, 3), ("min", 3, -5), ("and", 1, 1), ("or", 1, 1)];
    for (op, first, second) in two {
        assert!(truth(&format!("((5 {op} 3) num== {first})")) && truth(&format!("((-5 {op} 3) num== {second})")), "{op}");
    }
    assert!(truth("((5 or 0) num== 1)") && truth("((5 and 0) num== 0)") && truth("(5 or 0)") && !truth("(5 and 0)"));
    let one = [("add1", [-1, 1, 3]), ("sub1", [-3, -1, 1]), ("negate", [2, 0, -2]), ("abs", [2, 0, 2]), ("not", [0, 1, 0])];
    for (op, values) in one {
        for (operand, value) in [-2, 0, 2].into_iter().zip(values) {
            assert!(truth(&format!("({op}({operand}) num== {value})")), "{op}({operand})");
        }
    }
}

fn checksig() -> Expr {
    Expr::new(Node::Checksig)
}

fn variable() -> Expr {
    Expr::new(Node::Variable)
}

fn returned(expression: Expr) -> Vec<Stmt> {
    vec![Stmt::new(StmtKind::Return(expression))]
}

fn branch(then: Vec<Stmt>, otherwise: Option<Vec<Stmt>>) -> Vec<Stmt> {
    vec![Stmt::new(StmtKind::If { condition: variable(), then, otherwise })]
}

fn locktimes(count: usize) -> Vec<Stmt> {
    vec![Stmt::new(StmtKind::Locktime { op: 0, operand: 0 }); count]
}

/// The original finds so many paths, and nothing wrong.
fn judged_ok(list: Vec<Stmt>, paths: usize) {
    let ast = statements(&Contract { mode: 0, statements: list }, Locations::Own);
    assert_eq!(count_paths(&ast), paths);
    assert_eq!(check_necessity(&ast), Ok(()));
}

#[test]
fn the_original_has_no_sizes() {
    let not = |operand| Expr::one(One::Unary(op::NOT), operand);
    judged_ok([locktimes(512), returned(checksig())].concat(), 1);
    judged_ok(returned((0..32).fold(checksig(), |inner, _| not(inner))), 1);
    judged_ok((0..16).fold(returned(checksig()), |inner, _| branch(inner, None)), 1);
    judged_ok(forks(129, &returned(checksig())), 129);
    let long = Expr::new(Node::Bytes(vec![1; 32_768]));
    judged_ok([vec![Stmt::new(StmtKind::Verify(long))], returned(checksig())].concat(), 1);
    judged_ok(vec![Stmt::new(StmtKind::Verify(variable())); 1_025], 0);
}

/// A chain of so many nodes, each a `length` but the last.
fn lengths(nodes: usize) -> Expr {
    (1..nodes).fold(variable(), |inner, _| Expr::one(One::Length, inner))
}

/// The most nodes that few operations with two operands allow: five levels of them, `wide` more below, and chains down to level 32.
fn widest(level: usize, wide: &mut usize) -> Expr {
    let or = |left, right| Expr::two(Two::Logical(op::OR), left, right);
    if level < 5 {
        let left = widest(level + 1, wide);
        return or(left, widest(level + 1, wide));
    }
    if *wide > 0 {
        *wide -= 1;
        return or(lengths(26), lengths(26));
    }
    lengths(27)
}

/// So many blocks in a tree of ifs.
fn forks(count: usize, block: &[Stmt]) -> Vec<Stmt> {
    match count {
        1 => block.to_vec(),
        _ => branch(forks(count / 2, block), Some(forks(count - count / 2, block))),
    }
}

/// The shortest contracts past each size, as the document has them.
#[test]
fn one_past_each_size() {
    let rows = [
        (locktimes(513), 13_346, 6, 13_320),
        (returned(widest(0, &mut 5)), 17_486, 6, 17_469),
        (returned(lengths(33)), 586, 5, 569),
        ((0..16).fold(locktimes(1), |inner, _| branch(inner, None)), 626, 5, 600),
        (forks(129, &returned(variable())), 9_386, 9, 0),
    ];
    for (statements, length, number, place) in rows {
        let image = writing::write(&Contract { mode: 0, statements });
        assert_eq!(image.len(), length);
        assert_eq!(answer(&image).unwrap().answer, Answer::Refused { number, place });
    }
}
