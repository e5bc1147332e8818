//! The formulas that the probe makes: against formulas that are written out here, against the untouched module's verdicts, and against
//! formulas that are wrong in one place, which the recorded masks have to notice.

use bithoven::probed::probe::Formed;
use image::generator::{cases, Request};
use image::reading::read;
use image::text;
use image::tree::{op, Contract, Expr, Node, One, Stmt, StmtKind, Two};
use oracle::formulas::{formulas, Formulas};
use oracle::masks::{masks, MASKS};
use oracle::{answer, Answer};

/// The formulas of a contract without overflow.
fn paths(contract: &Contract) -> Vec<Formed> {
    match formulas(contract).unwrap() {
        Formulas::Are(paths) => paths,
        Formulas::Overflow(place) => panic!("an overflow at {place}"),
    }
}

/// The formulas of a contract in its text form.
fn of(contract: &str) -> Vec<Formed> {
    paths(&text::parse(contract).unwrap())
}

/// Bit k of a mask.
fn bit(mask: u32, k: usize) -> bool {
    mask >> k & 1 == 1
}

#[test]
fn truths_are_those_of_a_known_contract() {
    let contract =
        "mode 0\nverify (variable or checksig@1-2:3:4)\nif (false != variable) {\n  return not((checksig@1-2:3:4 and variable))\n} \
                    else {\n  return ((checksig@1-2:3:5 + 1) < 2)\n}\n";
    let [then, otherwise] = of(contract).try_into().ok().unwrap();
    assert_eq!((then.sigs, then.frees, then.checksig), (1, 3, true));
    assert_eq!((otherwise.sigs, otherwise.frees, otherwise.checksig), (1, 3, true));
    for mask in 0..64 {
        for (liveness, sig, below) in [(false, false, 0), (true, bit(mask, 0), 1)] {
            let [x, y, z] = [0, 1, 2].map(|j| bit(mask, below + j));
            assert_eq!(then.holds(liveness, mask), x && (y || sig) && !(sig && z), "{mask}");
            assert_eq!(otherwise.holds(liveness, mask), !x && (y || sig) && z, "{mask}");
        }
    }
}

#[test]
fn a_checksig_that_is_no_atom_is_still_seen() {
    let seen = |contract: &str| of(contract).iter().map(|path| (path.sigs, path.frees, path.checksig)).collect::<Vec<_>>();
    assert_eq!(seen("mode 0\nreturn (checksig + 1)\n"), [(0, 1, true)]);
    assert_eq!(seen("mode 0\nif sha256(checksig) {\n  return true\n} else {\n  return variable\n}\n"), [(0, 1, true), (0, 2, true)]);
    assert_eq!(seen("mode 0\nif variable {\n  return checksig\n} else {\n  return 1\n}\n"), [(1, 1, true), (0, 1, false)]);
}

#[test]
fn an_atom_above_32_bits_is_false() {
    let verifies: String = (1..32).map(|line| format!("verify checksig@0-0:{line}:0\n")).collect();
    let [path] = of(&format!("mode 0\n{verifies}verify variable\nreturn not(variable)\n")).try_into().ok().unwrap();
    assert_eq!((path.sigs, path.frees), (31, 2));
    assert!(path.holds(true, u32::MAX) && !path.holds(true, u32::MAX >> 1) && !path.holds(true, u32::MAX - 1));
    let [path] = of(&format!("mode 0\n{verifies}verify checksig\nverify variable\nreturn true\n")).try_into().ok().unwrap();
    assert!(!path.holds(true, u32::MAX));
    let crowd = "verify not(variable)\n".repeat(70);
    let [path] = of(&format!("mode 0\n{crowd}return true\n")).try_into().ok().unwrap();
    assert!(path.holds(false, 0) && (0..32).all(|k| !path.holds(false, 1 << k) && !path.holds(true, 1 << k)));
}

/// Verdict, reason, path and mask by trying the formulas, of a contract with few atoms.
fn judged(paths: &[Formed]) -> (u32, u32, usize, u64) {
    let first = |path: &Formed, liveness: bool| {
        let atoms = path.frees + if liveness { path.sigs } else { 0 };
        (0..1 << atoms).find(|mask| path.holds(liveness, *mask))
    };
    for (number, path) in paths.iter().enumerate() {
        if let Some(mask) = first(path, false) {
            return (if path.checksig { 2 } else { 1 }, 2, number, mask.into());
        }
    }
    let live = paths.is_empty() || paths.iter().any(|path| first(path, true).is_some());
    (if live { 0 } else { 3 }, 0, 0, 0)
}

#[test]
fn the_formulas_give_the_answer() {
    let (mut judgements, mut overflows) = (0, 0);
    for case in cases(3, &Request { random: 600, rules: true, ..Request::default() }) {
        let Ok(contract) = read(&case.image) else { continue };
        match (answer(&case.image).unwrap().answer, formulas(&contract).unwrap()) {
            (Answer::Refused { number, place }, Formulas::Overflow(overflow)) => {
                assert!(number == 9 || (number, place) == (10, overflow), "{}", case.kind);
                overflows += 1;
            }
            (Answer::Judged(said), Formulas::Are(paths)) if paths.iter().all(|path| path.sigs + path.frees <= 12) => {
                assert_eq!(judged(&paths), (said.verdict, said.reason, said.path, said.mask), "{}", case.kind);
                judgements += 1;
            }
            (Answer::Judged(_) | Answer::Refused { number: 9, .. }, Formulas::Are(_)) => {}
            (said, _) => panic!("{}: {said}", case.kind),
        }
    }
    assert!(judgements >= 400 && overflows >= 100, "{judgements} judgements, {overflows} overflows");
}

// ---- formulas that are wrong in one place

/// The expressions of a list, in its order.
fn expressions(list: &mut [Stmt]) -> Vec<&mut Expr> {
    let mut found = vec![];
    for statement in list {
        match &mut statement.kind {
            StmtKind::If { condition, then, otherwise } => {
                found.push(condition);
                found.extend(expressions(then));
                found.extend(otherwise.iter_mut().flat_map(|block| expressions(block)));
            }
            StmtKind::Locktime { .. } => {}
            StmtKind::Verify(expression) | StmtKind::Return(expression) => found.push(expression),
        }
    }
    found
}

/// A change of a node; whether it is one for that node.
type Way = fn(&mut Expr) -> bool;

const WAYS: [Way; 6] = [swapped, other_op, bare, other_literal, moved, negated];

fn swapped(e: &mut Expr) -> bool {
    let Node::Two(_, left, right) = &mut e.node else { return false };
    std::mem::swap(left, right);
    true
}

/// And for or, Equal for NotEqual.
fn other_op(e: &mut Expr) -> bool {
    let Node::Two(Two::Logical(op) | Two::Compare(op @ 0..=1), ..) = &mut e.node else { return false };
    *op ^= 1;
    true
}

/// Without its not.
fn bare(e: &mut Expr) -> bool {
    let Node::One(One::Unary(op::NOT), operand) = &e.node else { return false };
    *e = (**operand).clone();
    true
}

fn other_literal(e: &mut Expr) -> bool {
    match &mut e.node {
        Node::Boolean(value) => *value = !*value,
        Node::Number(value) => *value = (*value == 0) as i64,
        _ => return false,
    }
    true
}

/// A checksig at a location beside its own.
fn moved(e: &mut Expr) -> bool {
    e.location.column ^= 1;
    e.node == Node::Checksig
}

fn negated(e: &mut Expr) -> bool {
    *e = Expr::one(One::Unary(op::NOT), e.clone());
    true
}

/// Changes the node that so many others stand before, and tells whether the change was for it; if there are fewer, how many are still to come.
fn change(e: &mut Expr, before: usize, way: Way) -> Result<bool, usize> {
    if before == 0 {
        return Ok(way(e));
    }
    let mut left = before - 1;
    let operands: Vec<&mut Box<Expr>> = match &mut e.node {
        Node::One(_, operand) => vec![operand],
        Node::Two(_, one, other) => vec![one, other],
        _ => vec![],
    };
    for operand in operands {
        match change(operand, left, way) {
            Err(after) => left = after,
            done => return done,
        }
    }
    Err(left)
}

/// Every contract that comes of one change.
fn changed(contract: &Contract) -> Vec<Contract> {
    let mut all = vec![];
    for way in WAYS {
        let mut from = 0;
        while let Some(made) = changed_at(contract, from, way) {
            all.extend(made);
            from += 1;
        }
    }
    all
}

/// The contract with its node number `at` changed, if that is a node, and one that the change is for.
fn changed_at(contract: &Contract, at: usize, way: Way) -> Option<Option<Contract>> {
    let mut copy = contract.clone();
    let mut left = at;
    for expression in expressions(&mut copy.statements) {
        match change(expression, left, way) {
            Err(after) => left = after,
            Ok(fits) => return Some(fits.then_some(copy)),
        }
    }
    None
}

/// Whether two formulas differ in what is recorded of one of them.
fn noticed(right: &Formed, wrong: &Formed, masks: &[u32]) -> bool {
    let counts = |path: &Formed| (path.sigs, path.frees, path.checksig);
    counts(right) != counts(wrong) || differ(right, wrong, masks.iter().copied())
}

/// Whether two formulas differ at one of the masks, in one of the phases.
fn differ(right: &Formed, wrong: &Formed, mut masks: impl Iterator<Item = u32>) -> bool {
    masks.any(|mask| [false, true].iter().any(|liveness| right.holds(*liveness, mask) != wrong.holds(*liveness, mask)))
}

#[test]
fn a_formula_that_is_wrong_in_one_place_is_noticed() {
    let (mut wrong, mut missed) = (0, 0);
    for case in cases(4, &Request { random: 300, ..Request::default() }) {
        let contract = read(&case.image).unwrap();
        let Formulas::Are(right) = formulas(&contract).unwrap() else { continue };
        let masks: Vec<Vec<u32>> = right.iter().map(|path| masks(path, 1)).collect();
        assert!(masks.iter().all(|masks| masks.len() == MASKS));
        for change in changed(&contract) {
            let Formulas::Are(paths) = formulas(&change).unwrap() else { continue };
            for ((right, other), masks) in right.iter().zip(&paths).zip(&masks) {
                let atoms = right.sigs + right.frees;
                let seen = noticed(right, other, masks);
                if seen || (atoms <= 14 && differ(right, other, 0..1 << atoms)) {
                    wrong += 1;
                    missed += !seen as usize;
                }
            }
        }
    }
    assert!(wrong >= 4_000 && missed * 1_000 <= wrong, "{missed} of {wrong} wrong formulas are missed");
}
