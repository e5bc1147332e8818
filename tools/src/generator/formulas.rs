//! Formulas: atoms that are shared and atoms that are not, what is taken by structure, what is folded and what is neither, strings, sides of
//! ifs, and paths with many atoms.

use super::units::*;
use super::{grouped, Case};
use crate::tree::*;

/// A contract, and what it shows.
type Shown = (String, Vec<Stmt>);

/// A group's name, and what makes its contracts.
type Group = (&'static str, fn() -> Vec<Shown>);

/// The groups of contracts about formulas. All of them are accepted.
const GROUPS: [Group; 10] = [
    ("formula: one location", one_location),
    ("formula: locations beside", locations_beside),
    ("formula: variables", variables),
    ("formula: beside a literal", beside_a_literal),
    ("formula: joins", joins),
    ("formula: strings", strings),
    ("formula: whole", whole),
    ("formula: folded", folded),
    ("formula: statements", statements),
    ("formula: many atoms", many_atoms),
];

/// Every case about formulas.
pub fn formulas(mode: u8) -> Vec<Case> {
    let cases = |make: fn() -> Vec<Shown>| make().into_iter().map(|(kind, list)| Case::accepted(kind, image(mode, list))).collect();
    GROUPS.into_iter().flat_map(|(name, make)| grouped(name, cases(make))).collect()
}

/// Returns of expressions that show the same.
fn returns(kind: &str, expressions: impl IntoIterator<Item = Expr>) -> Vec<Shown> {
    expressions.into_iter().map(|expression| (kind.to_string(), vec![ret(expression)])).collect()
}

/// The checksig number n, at a location of its own.
fn s(n: u32) -> Expr {
    c().at(Location { start: 10 * n, end: 10 * n + 8, line: n, column: 1 })
}

/// A location with other bytes everywhere.
const PLACE: Location = Location { start: 0x0102_0304, end: 0x1112_1314, line: 0x2122_2324, column: 0x3132_3334 };

/// The four numbers of a location.
fn numbers(location: Location) -> [u32; 4] {
    [location.start, location.end, location.line, location.column]
}

/// The location of four numbers.
fn location([start, end, line, column]: [u32; 4]) -> Location {
    Location { start, end, line, column }
}

/// "equal locations (all four numbers) share one", within a path and never between paths.
fn one_location() -> Vec<Shown> {
    let shown = |kind: &str, list: Vec<Stmt>| (kind.to_string(), list);
    let again = |n: u32| vec![verify(or(s(1), or(s(2), s(3)))), verify(not(s(n))), ret(x())];
    let most = || c().at(location([u32::MAX; 4]));
    vec![
        shown("on two paths", vec![ifelse(x(), vec![ret(s(1))], vec![ret(s(1))])]),
        shown("two on two paths", vec![ifelse(x(), vec![ret(and(s(1), not(s(2))))], vec![ret(and(not(s(2)), s(1)))])]),
        shown("two on two paths, exchanged", vec![ifelse(x(), vec![ret(or(s(1), not(s(2))))], vec![ret(or(s(2), not(s(1))))])]),
        shown("on a second path with others", vec![ifelse(s(1), vec![ret(s(2))], vec![verify(s(3)), ret(or(s(2), s(1)))])]),
        shown("in a verify and the return", vec![verify(s(1)), ret(s(1))]),
        shown("both ways", vec![ret(and(s(1), not(s(1))))]),
        shown("one way or the other", vec![ret(or(not(s(1)), s(1)))]),
        shown("in a condition and behind it", vec![ifelse(s(1), vec![ret(or(not(s(1)), x()))], vec![ret(or(s(1), x()))])]),
        shown("the first again behind a second", vec![ret(or(and(s(1), not(s(2))), and(not(s(1)), s(2))))]),
        shown("the second again before the first", vec![ret(or(and(s(1), s(2)), and(not(s(2)), not(s(1)))))]),
        shown("the first of three again", again(1)),
        shown("the second of three again", again(2)),
        shown("the third of three again", again(3)),
        shown("the greatest", vec![verify(or(most(), c())), ret(and(most(), not(c())))]),
        shown("of a variable", vec![ret(and(c().at(PLACE), not(x().at(PLACE))))]),
        shown("of a not and a return", vec![ret(not(c().at(PLACE)).at(PLACE)).at(PLACE)]),
        shown("in what is no Sig atom, before", vec![verify(plus(c().at(PLACE), lit(1))), ret(c().at(PLACE))]),
        shown("in what is no Sig atom, behind", vec![verify(c().at(PLACE)), ret(hash(c().at(PLACE)))]),
    ]
}

/// Locations that have some of the four numbers in common.
fn locations_beside() -> Vec<Shown> {
    let two = |other: Location| vec![ret(and(c().at(PLACE), not(c().at(other))))];
    let mut all = vec![];
    for (n, name) in ["start", "end", "line", "column"].iter().enumerate() {
        for bit in [0, 13, 31] {
            let mut beside = numbers(PLACE);
            beside[n] ^= 1 << bit;
            all.push((format!("another {name}"), two(location(beside))));
        }
        let mut far = numbers(PLACE).map(|number| number + 1);
        far[n] -= 1;
        all.push((format!("the same {name} alone"), two(location(far))));
    }
    let [start, end, line, column] = numbers(PLACE);
    let exchanged = [[end, start, line, column], [start, end, column, line], [line, end, start, column], [start, column, line, end]];
    all.extend(exchanged.map(|other| ("two numbers exchanged".to_string(), two(location(other)))));
    all
}

/// "Each variable occurrence is a new Free atom."
fn variables() -> Vec<Shown> {
    let y = || x().at(PLACE);
    let shown = |kind: &str, list: Vec<Stmt>| (kind.to_string(), list);
    vec![
        shown("one location, both ways", vec![ret(and(y(), not(y())))]),
        shown("one location, in a verify and the return", vec![verify(y()), ret(not(y()))]),
        shown("one location, in a condition and behind it", vec![ifelse(y(), vec![ret(y())], vec![ret(y())])]),
        shown("three", vec![ret(and(x(), and(not(x()), x())))]),
        shown("three, nested to the left", vec![ret(or(and(x(), not(x())), x()))]),
        shown("around a checksig", vec![ret(and(x(), and(c(), not(x()))))]),
        shown("among checksigs", vec![verify(or(s(1), x())), verify(or(not(x()), s(2))), ret(and(x(), s(3)))]),
        shown("in what is taken as a whole, twice", vec![verify(plus(x(), x())), ret(not(compare(2, x(), x())))]),
    ]
}

/// "Equal and NotEqual with a boolean literal on either side .. give the other side or its negation."
fn beside_a_literal() -> Vec<Shown> {
    let others = || [x(), c(), and(c(), not(x())), or(x(), c()), plus(c(), lit(1)), hash(x()), lit(2), lit(0), plus(lit(1), lit(1))];
    let literals = || [yes(), no()];
    let mut all = vec![];
    for op in [op::EQUAL, op::NOT_EQUAL] {
        for literal in literals() {
            all.extend(returns("on the right", others().map(|other| compare(op, other, literal.clone()))));
            all.extend(returns("on the left", others().map(|other| compare(op, literal.clone(), other))));
            all.extend(returns("on both sides", literals().map(|other| or(compare(op, literal.clone(), other), c()))));
        }
    }
    for op in 2..ops::COMPARE {
        all.extend(returns("another op", [x(), lit(1), lit(0)].map(|other| and(compare(op, other, yes()), x()))));
        all.extend(returns("another op", [c(), lit(1), lit(0)].map(|other| and(compare(op, no(), other), x()))));
    }
    let twice = [equal(equal(x(), no()), no()), not(equal(no(), c())), compare(1, not(c()), yes()), equal(yes(), compare(1, no(), x()))];
    all.extend(returns("twice", twice));
    let none =
        [equal(x(), lit(1)), compare(1, c(), lit(0)), equal(x(), not(yes())), equal(not(no()), c()), equal(x(), x()), equal(c(), c())];
    all.extend(returns("no literal", none.map(|other| and(other, not(x())))));
    all
}

/// An operation on an expression, and one on two.
type Around = fn(Expr) -> Expr;
type Join = fn(Expr, Expr) -> Expr;

/// And, or and not around three atoms: every shape, and a not in every place.
fn joins() -> Vec<Shown> {
    const WAYS: [[Around; 5]; 6] = {
        const SAME: Around = |e| e;
        [
            [SAME; 5],
            [not, SAME, SAME, SAME, SAME],
            [SAME, not, SAME, SAME, SAME],
            [SAME, SAME, not, SAME, SAME],
            [SAME, SAME, SAME, not, SAME],
            [SAME, SAME, SAME, SAME, not],
        ]
    };
    let mut all = vec![];
    for [first, second, third, inner, outer] in WAYS {
        for (one, other) in [(and as Join, and as Join), (and, or), (or, and), (or, or)] {
            all.extend(returns("to the left", [outer(one(inner(other(first(x()), second(s(1)))), third(s(2))))]));
            all.extend(returns("to the right", [outer(one(first(s(1)), inner(other(second(x()), third(x())))))]));
        }
    }
    let four = |one: Join, other: Join| one(other(s(1), x()), other(not(x()), s(2)));
    all.extend(returns("two and two", [four(and, or), four(or, and), not(four(and, or)), not(four(or, and))]));
    let nots = |count: usize, inner: Expr| around(count, One::Unary(op::NOT), inner);
    all.extend(returns("nots", [nots(2, c()), nots(3, x()), nots(30, c()), nots(31, c())]));
    all.extend(returns("at the deepest level", [and(nots(30, x()), x()), or(s(1), nots(29, s(2)))]));
    all.extend([op::AND, op::OR].map(|op| ("a long chain".to_string(), vec![ret(leftward(31, Two::Logical(op), x()))])));
    all.extend([op::AND, op::OR].map(|op| ("a long chain".to_string(), vec![ret(rightward(31, Two::Logical(op), x()))])));
    all
}

/// "Strings: in mode 0, true unless empty. In mode 1, true when some pushed byte is not zero."
fn strings() -> Vec<Shown> {
    let long = [vec![0; 299], vec![1]].concat();
    let first = [vec![0x80], vec![0; 299]].concat();
    let short: [&[u8]; 8] = [b"", &[0], &[0, 0], &[1], &[0x80], &[0, 0x80], &[1, 0], &[0, 0, 16, 0]];
    let bytes = short.into_iter().chain([&[0; 300][..], &long, &first, &[255; 700]]);
    let mut all = vec![];
    for string in bytes.map(text) {
        let t = || string.clone();
        all.push(("on both sides of an if".to_string(), vec![ifelse(t(), vec![ret(x())], vec![ret(c())])]));
        all.push(("in a verify".to_string(), vec![verify(t()), ret(c())]));
        all.extend(returns("returned", [t(), not(t())]));
        all.extend(returns("joined", [and(t(), x()), or(c(), t())]));
        all.extend(returns("beside a literal", [equal(t(), no()), compare(1, no(), t())]));
        all.extend(returns("below an operation", [and(plus(t(), lit(0)), not(x())), and(x(), not(length(t())))]));
    }
    all
}

/// What holds a checksig or a variable and is not taken by structure: one Free atom, whatever it holds.
fn whole() -> Vec<Shown> {
    let ones = (0..4).map(One::Unary).chain([One::Hash(0), One::Hash(1), One::Length]);
    let ones = ones.flat_map(|op| [Expr::one(op, c()), Expr::one(op, x())]);
    let binaries = (0..ops::BINARY).flat_map(|op| [binary(op, c(), lit(1)), binary(op, lit(1), x()), binary(op, c(), x())]);
    let compares = (0..ops::COMPARE).flat_map(|op| [compare(op, c(), lit(1)), compare(op, lit(0), x()), compare(op, c(), x())]);
    let below = [
        plus(and(c(), x()), lit(1)),
        plus(lit(1), or(x(), c())),
        plus(not(c()), lit(0)),
        plus(equal(x(), yes()), lit(0)),
        compare(6, equal(no(), c()), lit(1)),
        hash(hash(length(c()))),
        length(and(text(b"a"), c())),
        plus(plus(lit(1), lit(-1)), plus(lit(0), x())),
    ];
    let all = ones.chain(binaries).chain(compares).chain(below);
    returns("with a checksig or a variable", all.map(|e| and(e, or(not(x()), c()))))
}

/// What holds neither: the constant that it folds to, or a Free atom where folding has no value.
fn folded() -> Vec<Shown> {
    let ones = (0..4).flat_map(|op| [-1, 0, 1, 5].map(|value| unary(op, lit(value))));
    let pairs = [(5, 3), (-3, -3), (0, 0), (3, -3), (0, 7), (-7, 0)];
    let binaries = (0..ops::BINARY).flat_map(|op| pairs.map(|(left, right)| binary(op, lit(left), lit(right))));
    let compares = (0..ops::COMPARE).flat_map(|op| [1, 2, 3].map(|left| compare(op, lit(left), lit(2))));
    let below = [
        plus(and(lit(5), lit(3)), lit(-1)),
        plus(and(lit(0), lit(3)), lit(0)),
        plus(or(lit(0), lit(0)), lit(0)),
        plus(or(lit(0), lit(9)), lit(-1)),
        plus(not(lit(0)), lit(-1)),
        plus(not(lit(4)), lit(0)),
        plus(yes(), yes()),
        plus(yes(), lit(-1)),
        plus(no(), no()),
        plus(equal(plus(lit(1), lit(1)), yes()), lit(0)),
        plus(equal(no(), lit(0)), lit(-1)),
        unary(3, binary(3, lit(-4), lit(4))),
        binary(2, lit(i64::MIN), lit(0)),
        plus(lit(i64::MAX), lit(i64::MIN)),
        lit(i64::MIN),
        lit(1 << 40),
    ];
    let all = ones.chain(binaries).chain(compares).chain(below);
    let none = [
        plus(text(b"a"), lit(1)),
        plus(lit(1), text(b"")),
        equal(text(b"a"), text(b"a")),
        compare(1, text(b""), lit(0)),
        hash(lit(0)),
        hash(text(b"")),
        length(text(b"ab")),
        compare(6, length(text(b"")), lit(0)),
        plus(lit(1), hash(text(b""))),
        plus(not(text(b"")), lit(1)),
        plus(and(lit(0), text(b"")), lit(1)),
        plus(equal(text(b"a"), yes()), lit(0)),
        unary(2, length(lit(3))),
    ];
    let values = returns("a constant", all.map(|e| or(and(e, x()), c())));
    [values, returns("no value", none.map(|e| and(or(c(), e), not(x()))))].concat()
}

/// Sides of ifs, locktimes between, and many verifies.
fn statements() -> Vec<Shown> {
    let csv = || Stmt::new(StmtKind::Locktime { op: 1, operand: -1 });
    let fork = |n: u32, then: Vec<Stmt>, otherwise: Vec<Stmt>| ifelse(or(s(n), x()), then, otherwise);
    let leaf = |n: u32| vec![verify(not(s(n))), ret(or(s(n + 1), x()))];
    let pair = |n: u32| vec![fork(n, leaf(n), leaf(n + 1))];
    let list = |count: u32| {
        let verifies = (0..count).map(|n| verify(if n % 3 == 0 { or(s(n), x()) } else { or(not(s(n / 2)), s(n)) }));
        verifies.chain([ret(not(x()))]).collect::<Vec<Stmt>>()
    };
    let shown = |kind: &str, list: Vec<Stmt>| (kind.to_string(), list);
    vec![
        shown("the else side", vec![ifelse(and(c(), x()), vec![ret(x())], vec![ret(c())])]),
        shown("the else side alone", vec![ifelse(or(s(1), x()), vec![], vec![ret(or(s(2), x()))])]),
        shown("the else side of what is taken as a whole", vec![ifelse(plus(c(), lit(1)), vec![ret(x())], vec![ret(not(x()))])]),
        shown("the else side of a constant", vec![ifelse(lit(0), vec![ret(x())], vec![ret(c())])]),
        shown("the else side beside a literal", vec![ifelse(equal(x(), no()), vec![ret(s(1))], vec![ret(s(2))])]),
        shown("no else", vec![ifs(or(c(), x()), vec![ret(x())])]),
        shown("four paths", vec![fork(1, pair(2), pair(3))]),
        shown("eight paths", vec![verify(or(s(1), x())), fork(4, vec![fork(1, pair(2), pair(3))], vec![fork(2, pair(5), pair(1))])]),
        shown("locktimes between", vec![lock(), verify(or(s(1), x())), csv(), ifelse(x(), vec![csv(), ret(s(1))], vec![lock(), ret(x())])]),
        shown("verifies around conditions", vec![verify(s(1)), fork(2, [vec![verify(not(x()))], pair(3)].concat(), leaf(1))]),
        shown("many verifies", list(9)),
        shown("many verifies", list(14)),
        shown("many verifies", list(60)),
        shown("many verifies, then an if", [list(9)[..9].to_vec(), pair(3)].concat()),
    ]
}

/// Expressions joined two by two; the last may be left alone.
fn by_twos(parts: &[Expr], join: Join) -> Vec<Expr> {
    let pair = |two: &[Expr]| match two {
        [left, right] => join(left.clone(), right.clone()),
        _ => two[0].clone(),
    };
    parts.chunks(2).map(pair).collect()
}

/// Expressions joined as a tree: two by two by the first join, the pairs by the second, these by the first again, and so on.
fn tree(joins: [Join; 2], parts: Vec<Expr>) -> Expr {
    match parts.len() {
        1 => parts[0].clone(),
        _ => tree([joins[1], joins[0]], by_twos(&parts, joins[0])),
    }
}

/// A tree of or, and, or ..
fn mixed(parts: Vec<Expr>) -> Expr {
    tree([or, and], parts)
}

/// So many checksigs, each at a location of its own; those behind the first `plain` are negated.
fn sigs(count: u32, plain: u32) -> Vec<Expr> {
    (1..=count).map(|n| if n > plain { not(s(n)) } else { s(n) }).collect()
}

/// The same of variables.
fn frees(count: u32, plain: u32) -> Vec<Expr> {
    (1..=count).map(|n| if n > plain { not(x()) } else { x() }).collect()
}

/// Paths with about as many atoms as are searched, or as a mask has bits; an atom above these is false.
fn many_atoms() -> Vec<Shown> {
    const COUNTS: [(u32, u32); 14] =
        [(20, 0), (19, 3), (22, 0), (23, 0), (20, 3), (30, 4), (31, 0), (31, 1), (31, 3), (32, 0), (32, 2), (33, 0), (33, 2), (45, 5)];
    COUNTS.into_iter().flat_map(|(sigs, frees)| both_kinds(sigs, frees)).chain(one_kind()).chain(hundreds()).collect()
}

/// So many Sig atoms and so many Free atoms.
fn both_kinds(count: u32, more: u32) -> Vec<Shown> {
    let kind = |rest: &str| format!("{count} Sig atoms and {more} Free atoms{rest}");
    let bits = 32u32.saturating_sub(count);
    let behind = [sigs(count, count), frees(more, more)].concat();
    let first = [frees(more, more), sigs(count, count)].concat();
    let verifies = by_twos(&first, |left, right| or(not(left), right)).into_iter().map(verify);
    let twice = [sigs(count, 32), sigs(count, count)].concat();
    let every = tree([and, and], [frees(more, bits), vec![yes()]].concat());
    vec![
        (kind(""), vec![ret(tree([or, or], by_twos(&behind, |left, right| and(left, not(right)))))]),
        (kind(", these first"), verifies.chain([ret(yes())]).collect()),
        (kind(", those above negated"), vec![verify(mixed(sigs(count, 32))), ret(every)]),
        (kind(", each Sig twice"), vec![verify(mixed(twice)), ret(mixed([vec![s(1)], frees(more, bits)].concat()))]),
    ]
}

/// Free atoms alone, or nearly.
fn one_kind() -> Vec<Shown> {
    let free = |count: u32| {
        vec![
            (format!("{count} Free atoms"), vec![ret(mixed(frees(count, count)))]),
            (format!("{count} Free atoms, those above negated or the last"), vec![ret(mixed(frees(count, count.min(33) - 1)))]),
            (format!("{count} Free atoms and a Sig atom"), vec![verify(mixed(frees(count, 31))), ret(c())]),
        ]
    };
    [20, 21, 22, 23, 31, 32, 33, 40].into_iter().flat_map(free).collect()
}

/// Hundreds of atoms.
fn hundreds() -> Vec<Shown> {
    let any = |parts: Vec<Expr>| vec![ret(tree([or, or], parts))];
    let again = |first: Expr, last: Expr| vec![verify(first), verify(mixed(sigs(100, 32))), verify(not(s(50))), ret(last)];
    let turns = sigs(225, 225).into_iter().zip(frees(225, 225)).flat_map(|(sig, free)| [sig, free]).collect();
    vec![
        ("100 Sig atoms, the last again".to_string(), again(or(s(1), x()), or(s(100), not(s(99))))),
        ("100 Sig atoms, the last first".to_string(), again(s(100), not(s(99)))),
        ("450 Sig atoms".to_string(), any(sigs(450, 450))),
        ("450 Free atoms".to_string(), any(frees(450, 450))),
        ("225 atoms of each kind, by turns".to_string(), any(turns)),
    ]
}
