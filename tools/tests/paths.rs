//! What stands on the paths of generated contracts: the shapes on which a port goes wrong, each often enough, never more atoms than were
//! asked for, and every overflow where it is said to be. Paths, atoms and folding are worked out here once more from document 01, apart
//! from the generator.

use image::generator::overflow::overflows;
use image::generator::{cases, Known, Request};
use image::reading::read;
use image::tree::*;
use std::collections::BTreeMap;

const SEED: u64 = 20_240_607;

/// Random contracts of a request, each with its kind.
fn contracts(request: &Request) -> Vec<(String, Contract)> {
    cases(SEED, request).map(|case| (case.kind, read(&case.image).unwrap())).collect()
}

/// As many as the counts below are made for.
fn usual() -> Vec<(String, Contract)> {
    contracts(&Request { random: 6000, ..Request::default() })
}

// ---- paths, atoms and folding by document 01

/// The expressions of each path, its conditions before its verifies before its return.
fn paths<'a>(list: &'a [Stmt], conditions: &[&'a Expr], verifies: &[&'a Expr]) -> Vec<Vec<&'a Expr>> {
    let mut verifies = verifies.to_vec();
    for statement in list {
        match &statement.kind {
            StmtKind::Locktime { .. } => {}
            StmtKind::Verify(expression) => verifies.push(expression),
            StmtKind::Return(expression) => return vec![[conditions, &verifies, &[expression]].concat()],
            StmtKind::If { condition, then, otherwise } => {
                let conditions = [conditions, &[condition]].concat();
                let blocks = [then.as_slice(), otherwise.as_deref().unwrap_or_default()];
                return blocks.into_iter().flat_map(|block| paths(block, &conditions, &verifies)).collect();
            }
        }
    }
    vec![]
}

/// The paths of a contract.
fn paths_of(contract: &Contract) -> Vec<Vec<&Expr>> {
    paths(&contract.statements, &[], &[])
}

/// Why folding has no value.
enum Stop {
    NoValue,
    /// The operation at a location leaves 64 bits.
    Overflow(Location),
}

/// The number that an expression folds to.
fn fold(expression: &Expr) -> Result<i64, Stop> {
    let overflow = Stop::Overflow(expression.location);
    match &expression.node {
        Node::Number(value) => Ok(*value),
        Node::Boolean(value) => Ok(i64::from(*value)),
        Node::One(One::Unary(op), operand) => fold_one(*op, fold(operand)?).ok_or(overflow),
        Node::Two(op, left, right) => {
            let left = fold(left)?;
            fold_two(*op, left, fold(right)?).ok_or(overflow)
        }
        _ => Err(Stop::NoValue),
    }
}

/// A unary operation, unless it leaves 64 bits.
fn fold_one(op: u8, value: i64) -> Option<i64> {
    match op {
        0 => value.checked_add(1),
        1 => value.checked_sub(1),
        2 => value.checked_neg(),
        3 => value.checked_abs(),
        _ => Some(i64::from(value == 0)),
    }
}

/// An operation on two numbers, unless it leaves 64 bits.
fn fold_two(op: Two, left: i64, right: i64) -> Option<i64> {
    let truth = |value: bool| Some(i64::from(value));
    match op {
        Two::Binary(0) => left.checked_add(right),
        Two::Binary(1) => left.checked_sub(right),
        Two::Binary(2) => Some(left.max(right)),
        Two::Binary(_) => Some(left.min(right)),
        Two::Logical(0) => truth(left != 0 || right != 0),
        Two::Logical(_) => truth(left != 0 && right != 0),
        Two::Compare(0 | 6) => truth(left == right),
        Two::Compare(1 | 7) => truth(left != right),
        Two::Compare(2) => truth(left > right),
        Two::Compare(3) => truth(left >= right),
        Two::Compare(4) => truth(left < right),
        Two::Compare(_) => truth(left <= right),
    }
}

/// Whether a test holds of an expression or of something in it.
fn holds(expression: &Expr, test: fn(&Node) -> bool) -> bool {
    test(&expression.node) || expression.operands().into_iter().any(|operand| holds(operand, test))
}

/// What translation makes of a path.
#[derive(Default)]
struct Atoms {
    sigs: Vec<Location>,
    frees: usize,
    /// Where folding first leaves 64 bits.
    overflow: Option<Location>,
}

impl Atoms {
    /// The atoms of a path's expressions.
    fn of(path: &[&Expr]) -> Atoms {
        let mut atoms = Atoms::default();
        path.iter().for_each(|root| atoms.add(root));
        atoms
    }

    /// Sig and Free atoms together.
    fn count(&self) -> usize {
        self.sigs.len() + self.frees
    }

    /// Adds the atoms of an expression.
    fn add(&mut self, expression: &Expr) {
        match &expression.node {
            Node::Variable => self.frees += 1,
            Node::Number(_) | Node::Boolean(_) | Node::Bytes(_) => {}
            Node::Checksig if self.sigs.contains(&expression.location) => {}
            Node::Checksig => self.sigs.push(expression.location),
            _ => match by_structure(expression) {
                Some(sides) => sides.into_iter().for_each(|side| self.add(side)),
                None => self.add_folded(expression),
            },
        }
    }

    /// Adds an operation that is not taken by structure.
    fn add_folded(&mut self, expression: &Expr) {
        let unknown = holds(expression, |node| matches!(node, Node::Variable | Node::Checksig));
        match fold(expression) {
            _ if unknown => self.frees += 1,
            Ok(_) => {}
            Err(Stop::NoValue) => self.frees += 1,
            Err(Stop::Overflow(location)) => self.overflow = self.overflow.or(Some(location)),
        }
    }
}

/// The sides of an operation that is taken by structure.
fn by_structure(expression: &Expr) -> Option<Vec<&Expr>> {
    match &expression.node {
        Node::One(One::Unary(4), operand) => Some(vec![operand]),
        Node::Two(Two::Logical(_), left, right) => Some(vec![left, right]),
        Node::Two(Two::Compare(0 | 1), left, right) if literal(right).is_some() => Some(vec![left]),
        Node::Two(Two::Compare(0 | 1), left, right) if literal(left).is_some() => Some(vec![right]),
        _ => None,
    }
}

/// The value of a boolean literal.
fn literal(expression: &Expr) -> Option<bool> {
    match expression.node {
        Node::Boolean(value) => Some(value),
        _ => None,
    }
}

/// An expression and what is taken by structure in it.
fn structured(expression: &Expr) -> Vec<&Expr> {
    let sides = by_structure(expression).unwrap_or_default();
    [expression].into_iter().chain(sides.into_iter().flat_map(structured)).collect()
}

/// The checksigs of an expression that are Sig atoms.
fn checksigs(expression: &Expr) -> Vec<&Expr> {
    structured(expression).into_iter().filter(|inner| inner.node == Node::Checksig).collect()
}

// ---- atoms

#[test]
fn no_path_has_more_atoms_than_were_asked_for() {
    for (most_atoms, most_bytes) in [(0, 1500), (3, 1500), (10, 1500), (10, 6000), (20, 6000)] {
        for (kind, contract) in contracts(&Request { random: 1500, most_atoms, most_bytes, ..Request::default() }) {
            let paths = if kind == "random: edge" { vec![] } else { paths_of(&contract) };
            for atoms in paths.iter().map(|path| Atoms::of(path)) {
                assert!(atoms.frees <= most_atoms || atoms.frees > 20, "{kind}: {} Free atoms", atoms.frees);
                assert!(atoms.count() <= most_atoms || atoms.count() > 22 || atoms.frees > 20, "{kind}: {} atoms", atoms.count());
            }
        }
    }
}

/// In how many contracts some path passes a test.
fn with_path(test: impl Fn(&[&Expr]) -> bool) -> usize {
    usual().iter().filter(|(_, contract)| paths_of(contract).iter().any(|path| test(path))).count()
}

#[test]
fn paths_at_and_over_each_bound_occur() {
    assert!(with_path(|path| Atoms::of(path).count() == 10) >= 15, "as many atoms as were asked for");
    assert!(with_path(|path| Atoms::of(path).frees > 21) >= 20, "well over 20 Free atoms");
    assert!(with_path(|path| Atoms::of(path).frees <= 20 && Atoms::of(path).count() > 23) >= 20, "well over 22 atoms, few of them Free");
    for bound in [20, 21] {
        assert!(with_path(|path| Atoms::of(path).frees == bound) >= 5, "{bound} Free atoms");
    }
    for bound in [22, 23] {
        assert!(with_path(|path| Atoms::of(path).sigs.len() == bound) >= 5, "{bound} Sig atoms");
    }
}

#[test]
fn folding_leaves_64_bits_on_a_path() {
    assert!(with_path(|path| Atoms::of(path).overflow.is_some()) >= 100);
}

#[test]
fn each_overflow_is_the_first_of_its_contract() {
    for case in [overflows(0), overflows(1)].concat() {
        let contract = read(&case.image).unwrap();
        let first = paths_of(&contract).iter().find_map(|path| Atoms::of(path).overflow);
        let bytes = first.map(|location| numbers(&location).map(u32::to_be_bytes).concat());
        match case.known {
            Known::Refused { number: 10, place } => assert_eq!(bytes.as_deref(), Some(&case.image[place + 1..place + 17]), "{}", case.kind),
            _ => assert_eq!((case.known, bytes), (Known::Accepted, None), "{}", case.kind),
        }
    }
}

// ---- locations

/// Whether two checksigs from different expressions of a path pass a test.
fn pair(path: &[&Expr], test: impl Fn(&Location, &Location) -> bool) -> bool {
    let sigs: Vec<Vec<&Expr>> = path.iter().map(|root| checksigs(root)).collect();
    let pairs = sigs.iter().enumerate().flat_map(|(index, these)| sigs[index + 1..].iter().map(move |those| (these, those)));
    let mut each = pairs.flat_map(|(these, those)| these.iter().flat_map(move |one| those.iter().map(move |other| (one, other))));
    each.any(|(one, other)| test(&one.location, &other.location))
}

/// A location's numbers.
fn numbers(location: &Location) -> [u32; 4] {
    [location.start, location.end, location.line, location.column]
}

/// The only one of a location's numbers in which another differs.
fn only_difference(one: &Location, other: &Location) -> Option<usize> {
    let differ: Vec<usize> = (0..4).filter(|index| numbers(one)[*index] != numbers(other)[*index]).collect();
    <[usize; 1]>::try_from(differ).ok().map(|[index]| index)
}

#[test]
fn checksigs_share_a_location_on_a_path() {
    assert!(with_path(|path| pair(path, |one, other| one == other)) >= 400);
}

#[test]
fn checksigs_differ_in_one_number_of_their_locations() {
    for index in 0..4 {
        let count = with_path(|path| pair(path, |one, other| only_difference(one, other) == Some(index)));
        assert!(count >= 60, "number {index}: {count}");
    }
}

/// Whether a checksig of one path has the location of one on another, and neither stands on both.
fn shared_between(one: &[&Expr], other: &[&Expr]) -> bool {
    let own = |path: &[&Expr], others: &[&Expr]| -> Vec<Location> {
        let own = path.iter().filter(|root| !others.iter().any(|shared| std::ptr::eq(**root, *shared)));
        own.flat_map(|root| checksigs(root)).map(|sig| sig.location).collect()
    };
    let those = own(other, one);
    own(one, other).iter().any(|location| those.contains(location))
}

#[test]
fn checksigs_of_two_paths_share_a_location() {
    let shared = |contract: &Contract| paths_of(contract).windows(2).any(|pair| shared_between(&pair[0], &pair[1]));
    assert!(usual().iter().filter(|(_, contract)| shared(contract)).count() >= 300);
}

/// The two locations of `c and not c`, on whichever sides they stand.
fn contradiction(expression: &Expr) -> Option<[Location; 2]> {
    let Node::Two(Two::Logical(1), left, right) = &expression.node else { return None };
    let negated = |side: &Expr| match &side.node {
        Node::One(One::Unary(4), operand) if operand.node == Node::Checksig => Some(operand.location),
        _ => None,
    };
    match (&left.node, &right.node) {
        (Node::Checksig, _) => Some([left.location, negated(right)?]),
        (_, Node::Checksig) => Some([right.location, negated(left)?]),
        _ => None,
    }
}

#[test]
fn dead_paths_have_a_checksig_and_its_negation() {
    let mut counts = [0, 0];
    for (_, contract) in usual().iter().filter(|(kind, _)| kind == "random: dead") {
        let roots: Vec<&Expr> = paths_of(contract).into_iter().flatten().collect();
        for [one, other] in roots.into_iter().flat_map(structured).filter_map(contradiction) {
            counts[usize::from(one == other)] += 1;
        }
    }
    let [different, same] = counts;
    assert!(same >= 100 && same > 20 * different, "at one location {same}, at two {different}");
}

// ---- comparisons with a boolean literal

/// What a comparison with one boolean literal is: its op, the literal, and whether it stands on the left.
fn comparison(expression: &Expr) -> Option<(u8, bool, bool)> {
    let Node::Two(Two::Compare(op), left, right) = &expression.node else { return None };
    match (literal(left), literal(right)) {
        (Some(value), None) => Some((*op, value, true)),
        (None, Some(value)) => Some((*op, value, false)),
        _ => None,
    }
}

#[test]
fn every_comparison_with_a_literal_occurs() {
    let mut counts: BTreeMap<(u8, bool, bool), usize> = BTreeMap::new();
    for (_, contract) in usual() {
        let roots: Vec<&Expr> = paths_of(&contract).into_iter().flatten().collect();
        for found in roots.into_iter().flat_map(structured).filter_map(comparison) {
            *counts.entry(found).or_default() += 1;
        }
    }
    let sides = [(false, false), (false, true), (true, false), (true, true)];
    for (op, (value, left)) in (0..ops::COMPARE).flat_map(|op| sides.map(|side| (op, side))) {
        let least = if op <= op::NOT_EQUAL { 250 } else { 5 };
        let count = counts.get(&(op, value, left)).copied().unwrap_or(0);
        assert!(count >= least, "op {op} with {value}, on the left {left}: {count}");
    }
}
