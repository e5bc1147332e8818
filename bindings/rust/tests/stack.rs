//! How much stack the calls take: bindings/c/stack.c over many images, compared with what bindings/c/bayekosh.h says.

mod common;

use common::{built, here, printed, sample, text};
use image::generator::units::*;
use image::generator::{cases, Request};
use image::stream::put;
use image::tree::*;

/// Images whose reading, walking and translating go deepest: ifs down to the last level, with an expression down to the last level at each of them.
fn deepest() -> Vec<Vec<u8>> {
    let below = most::EXPRESSION_LEVEL - 1;
    let operations = [One::Unary(0), One::Unary(4), One::Hash(0), One::Length];
    let chains = operations.into_iter().flat_map(|op| [around(below, op, x()), around(below, op, lit(1)), around(below, op, c())]);
    let joins = [Two::Logical(op::AND), Two::Logical(op::OR), Two::Compare(0), Two::Binary(0)];
    let trees = joins.into_iter().flat_map(|op| [leftward(below, op, c()), rightward(below, op, c()), rightward(below, op, lit(0))]);
    chains.chain(trees).flat_map(|expression| [ifs_within(&expression, true), ifs_within(&expression, false)]).collect()
}

/// An if within each if, in the if block or in the else block, and a verify and a return at the end.
fn ifs_within(expression: &Expr, then: bool) -> Vec<u8> {
    let end = vec![verify(expression.clone()), ret(expression.clone())];
    let spare = most::NODES / expression.nodes() - 2;
    let levels = (most::STATEMENT_LEVEL - 1).min(spare);
    let within = (0..levels).fold(end, |inner, _| match then {
        true => vec![ifs(expression.clone(), inner)],
        false => vec![ifelse(expression.clone(), vec![], inner)],
    });
    image(0, within)
}

/// 128 paths, as deep as their ifs go.
fn widest() -> Vec<u8> {
    let wide = forking(most::PATHS, &c(), &and(c(), c().at(MARKED)));
    image(0, (0..8).fold(wide, |inner, _| vec![ifs(c(), inner)]))
}

/// A number behind a word of a text.
fn after(text: &str, word: &str) -> usize {
    let rest = text.split_once(word).unwrap_or_else(|| panic!("{word} is not there")).1;
    rest.split_whitespace().next().and_then(|number| number.parse().ok()).unwrap_or_else(|| panic!("no number stands after {word}"))
}

/// The most that any call takes, and half as much again.
#[test]
fn the_stack_is_within_what_is_said() {
    let request = Request {
        random: 100,
        damaged: 50,
        cuts: false,
        limits: true,
        rules: true,
        parts: false,
        formulas: true,
        mode: Some(0),
        most_atoms: 8,
        most_bytes: most::BYTES,
    };
    let deep = deepest();
    assert!(deep.iter().all(|image| bayekosh::count_paths(image) == Ok(1)), "the deepest images are accepted");
    assert_eq!(bayekosh::count_paths(&widest()), Ok(most::PATHS));
    let mut stream = vec![];
    for image in deep.into_iter().chain([widest(), sample("R1")]).chain(cases(2026, &request).map(|case| case.image)) {
        put(&mut stream, &image).expect("a vector takes every byte");
    }
    let program = built("stack", &here("bindings/c/stack.c"), &[here("crates/exports/out/libexports.a")]);
    let told = printed(&program, &stream);
    println!("{told}");
    let said = after(&text("bindings/c/bayekosh.h"), "#define BAYEKOSH_STACK");
    let most = after(&told, "most");
    assert!(after(&told, "images") > 800, "{told}");
    assert!(most > 32_768 && most * 3 / 2 <= said, "{most} bytes are used of {said}");
}
