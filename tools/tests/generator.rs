//! The generator: the same stream for the same seed, every kind in it, what is known of each image as the reader tells it, and the counts.

use image::generator::census::{paths, Census};
use image::generator::random::{random, Plan, Shape};
use image::generator::rng::Rng;
use image::generator::{cases, cuts, formulas, overflow, rules, Case, Known, Request};
use image::reading::read;
use image::tree::{list_size, most, ops, size, tag, Stmt, StmtKind};
use image::writing::{write, write_fields, FieldKind};
use std::collections::{BTreeMap, BTreeSet};

const SEED: u64 = 20_240_607;

/// Everything, in numbers that a test can afford.
fn everything() -> Request {
    Request { random: 6000, damaged: 20_000, cuts: true, limits: true, rules: true, parts: true, formulas: true, ..Request::default() }
}

/// What is wrong with a case by the reader and the count of paths, if anything; 10 comes after both.
fn disagreement(case: &Case) -> Option<String> {
    let told = match read(&case.image) {
        Ok(contract) if paths(&contract.statements) > most::PATHS => Err((9, 0)),
        Ok(_) => Ok(()),
        Err(fault) => Err((fault.number(), fault.place())),
    };
    let agrees = match case.known {
        Known::Nothing => true,
        Known::Read => matches!(told, Ok(()) | Err((9, 0))),
        Known::Accepted | Known::Refused { number: 10, .. } => told.is_ok(),
        Known::Refused { number, place } => told == Err((number, place)),
    };
    (!agrees).then(|| format!("{}: known {:?}, read {told:?}", case.kind, case.known))
}

/// The counts of a request.
fn census(request: &Request) -> Census {
    let mut census = Census::default();
    cases(SEED, request).for_each(|case| census.add(&case));
    census
}

#[test]
fn the_same_seed_gives_the_same_stream() {
    let request = Request { random: 300, damaged: 300, cuts: true, limits: true, rules: true, ..Request::default() };
    assert!(cases(SEED, &request).eq(cases(SEED, &request)));
    let random = Request { random: 300, ..Request::default() };
    assert!(!cases(SEED, &random).eq(cases(SEED + 1, &random)));
}

#[test]
fn the_stream_is_the_same_on_every_machine() {
    let mut rng = Rng::new(1_234_567);
    let first: Vec<u64> = (0..3).map(|_| rng.number()).collect();
    assert_eq!(first, [6_457_827_717_110_365_317, 3_203_168_211_198_807_973, 9_817_491_932_198_370_423]);
}

#[test]
fn each_member_has_numbers_of_its_own() {
    let firsts: BTreeSet<u64> =
        [(1, 1, 0), (2, 1, 0), (1, 2, 0), (1, 1, 1), (1, 2, 1)].map(|(seed, part, index)| Rng::member(seed, part, index).number()).into();
    assert_eq!(firsts.len(), 5);
}

#[test]
fn a_longer_stream_goes_on_where_a_shorter_ends() {
    let stream = |random: usize, damaged: usize| cases(SEED, &Request { random, damaged, ..Request::default() }).collect::<Vec<Case>>();
    assert_eq!(stream(200, 0)[..50], stream(50, 0)[..]);
    assert_eq!(stream(0, 200)[..50], stream(0, 50)[..]);
}

#[test]
fn reading_agrees_with_what_is_known() {
    let wrong: Vec<String> = cases(SEED, &everything()).filter_map(|case| disagreement(&case)).collect();
    assert!(wrong.is_empty(), "{wrong:#?}");
}

#[test]
fn every_refusal_but_overflow_occurs() {
    let census = census(&everything());
    let numbers: Vec<u32> = census.numbers.keys().copied().collect();
    assert_eq!(numbers, (0..=9).collect::<Vec<u32>>());
}

#[test]
fn every_known_number_occurs() {
    let known: BTreeSet<u32> = cases(SEED, &everything())
        .filter_map(|case| match case.known {
            Known::Refused { number, .. } => Some(number),
            _ => None,
        })
        .collect();
    assert!(known.into_iter().eq(1..=10));
}

#[test]
fn every_tag_and_op_occurs() {
    let census = census(&Request { random: 6000, ..Request::default() });
    let tags: Vec<u8> = (tag::IF..=tag::RETURN).chain(tag::VARIABLE..=tag::LENGTH).collect();
    assert!(census.tags.keys().eq(&tags));
    let counts = [(tag::LOCKTIME, ops::LOCKTIME), (tag::LOGICAL, ops::LOGICAL), (tag::COMPARE, ops::COMPARE)];
    let counts = counts.into_iter().chain([(tag::UNARY, ops::UNARY), (tag::BINARY, ops::BINARY), (tag::HASH, ops::HASH)]);
    let all: Vec<(u8, u8)> = counts.flat_map(|(tag, count)| (0..count).map(move |op| (tag, op))).collect();
    assert!(census.ops.keys().eq(&all));
}

#[test]
fn every_plan_and_level_occurs() {
    let census = census(&Request { random: 6000, ..Request::default() });
    for plan in Plan::ALL {
        assert!(census.kinds.contains_key(&format!("random: {}", plan.name())), "{plan:?}");
    }
    for level in [1, 2, 3, 4, 8, 16, 24, 31, 32] {
        assert!(census.expression_levels.contains_key(&level), "expression level {level}");
    }
    assert!(census.statement_levels.contains_key(&16));
}

// ---- exact counts of what depends on no seed

/// The kinds of a request, cut short as the report does, each with how often it occurs.
fn kinds(request: Request) -> Vec<(String, usize)> {
    census(&Request { mode: Some(0), ..request }).kinds.into_iter().collect()
}

/// The same as a table has them, sorted.
fn sorted(table: &[(&str, usize)]) -> Vec<(String, usize)> {
    let table: BTreeMap<String, usize> = table.iter().map(|(kind, count)| (kind.to_string(), *count)).collect();
    table.into_iter().collect()
}

/// The sizes.
const LIMITS: [(&str, usize); 23] = [
    ("limit: 1024 nodes", 3),
    ("limit: 1025 nodes", 3),
    ("limit: 128 paths", 1),
    ("limit: 128 paths before a return", 1),
    ("limit: 128 paths before an if", 1),
    ("limit: 128 paths beside none", 1),
    ("limit: 129 paths", 2),
    ("limit: 129 returns", 1),
    ("limit: 256 paths", 1),
    ("limit: 32768 bytes", 5),
    ("limit: 32769 bytes", 4),
    ("limit: 512 statements", 7),
    ("limit: 513 statements", 7),
    ("limit: an empty else block below level 16", 1),
    ("limit: an empty if block below level 16", 1),
    ("limit: count 65535", 3),
    ("limit: else block 65535", 2),
    ("limit: if block 65535", 2),
    ("limit: level 16", 3),
    ("limit: level 17", 6),
    ("limit: level 32", 44),
    ("limit: level 33", 44),
    ("limit: string 65535", 2),
];

#[test]
fn every_limit_occurs() {
    let request = Request { limits: true, ..Request::default() };
    assert_eq!(kinds(request), sorted(&LIMITS));
    for case in cases(SEED, &request) {
        assert!(!case.kind.starts_with("limit: 32768 bytes") || case.image.len() == 32_768, "{}", case.kind);
        assert!(!case.kind.starts_with("limit: 32769 bytes") || case.image.len() == 32_769, "{}", case.kind);
    }
}

/// The groups of parts.
const PARTS: [(&str, usize); 7] = [
    ("part: codes", 51),
    ("part: counts", 80),
    ("part: head", 47),
    ("part: levels", 11),
    ("part: locations", 5),
    ("part: nodes", 2),
    ("part: tags", 73),
];

#[test]
fn every_part_occurs() {
    assert_eq!(kinds(Request { parts: true, ..Request::default() }), sorted(&PARTS));
}

/// The groups of formulas.
const FORMULAS: [(&str, usize); 10] = [
    ("formula: beside a literal", 126),
    ("formula: folded", 93),
    ("formula: joins", 62),
    ("formula: locations beside", 20),
    ("formula: many atoms", 85),
    ("formula: one location", 18),
    ("formula: statements", 14),
    ("formula: strings", 120),
    ("formula: variables", 8),
    ("formula: whole", 58),
];

#[test]
fn every_formula_occurs() {
    assert_eq!(kinds(Request { formulas: true, ..Request::default() }), sorted(&FORMULAS));
    let images: BTreeSet<Vec<u8>> = formulas::formulas(0).into_iter().map(|case| case.image).collect();
    assert_eq!(images.len(), formulas::formulas(0).len());
}

/// The groups of rules.
const RULES: [(&str, usize); 23] = [
    ("overflow: among atoms", 7),
    ("overflow: behind other items", 5),
    ("overflow: ends", 24),
    ("overflow: operand order", 14),
    ("overflow: path order", 9),
    ("overflow: statement order", 9),
    ("overflow: structure", 18),
    ("overflow: unreached operands", 12),
    ("overflow: unreached statements", 8),
    ("rule: after reading", 4),
    ("rule: expression level and count", 7),
    ("rule: fields", 49),
    ("rule: flags", 12),
    ("rule: head", 18),
    ("rule: item order", 6),
    ("rule: locations cut", 105),
    ("rule: places", 6),
    ("rule: statement level and count", 6),
    ("rule: strings", 7),
    ("rule: tags missing", 18),
    ("rule: tags of the other sort", 72),
    ("rule: tags unknown", 109),
    ("rule: too long", 5),
];

/// Rules that are easily lost.
const SOME_RULES: [&str; 19] = [
    "8 before 1",
    "1 before 2",
    "2 before a bad mode",
    "the version is cut",
    "a bad mode before the missing count",
    "level before count: a statement",
    "level before count: an expression",
    "count before a bad op: a statement",
    "count before a bad op: an expression",
    "a bad flag before its count is missing",
    "a bad item before bytes left over",
    "7 before 9",
    "7 before 10",
    "9 before 10",
    "a condition before an earlier verify",
    "an earlier path first",
    "the left side before the right",
    "the inner operation before the outer",
    "behind a path over its bound",
];

#[test]
fn every_rule_occurs() {
    assert_eq!(kinds(Request { rules: true, ..Request::default() }), sorted(&RULES));
    let names: Vec<String> = [rules::rules(0), overflow::overflows(0)].concat().into_iter().map(|case| case.kind).collect();
    for rule in SOME_RULES {
        assert!(names.iter().any(|name| name.ends_with(&format!(": {rule}"))), "{rule}");
    }
}

/// The places that document 01's item sizes give for some contracts whose marked operation overflows.
const OVERFLOWS: [(&str, usize); 5] = [
    ("not, a variable beside", 78),
    ("Equal with a literal on the left, a variable beside", 96),
    ("NotEqual with a literal on the right, a variable beside", 78),
    ("NotEqual with a literal on the left, a variable beside", 96),
    ("a locktime", 51),
];

#[test]
fn overflows_have_their_places() {
    let cases = overflow::overflows(0);
    for (rule, place) in OVERFLOWS {
        let case = cases.iter().find(|case| case.kind.ends_with(&format!(": {rule}"))).unwrap();
        assert_eq!(case.known, Known::Refused { number: 10, place }, "{rule}");
    }
}

/// The fields that are cut or unknown.
const CUTS: [(&str, usize); 19] = [
    ("cuts: boolean cut", 2),
    ("cuts: boolean unknown", 4),
    ("cuts: bytes cut", 3),
    ("cuts: count cut", 14),
    ("cuts: flag cut", 4),
    ("cuts: flag unknown", 8),
    ("cuts: length cut", 4),
    ("cuts: location cut", 416),
    ("cuts: mark cut", 3),
    ("cuts: mode cut", 1),
    ("cuts: mode unknown", 2),
    ("cuts: nothing cut", 1),
    ("cuts: number cut", 16),
    ("cuts: op cut", 7),
    ("cuts: op unknown", 14),
    ("cuts: tag cut", 26),
    ("cuts: tag of the other sort", 26),
    ("cuts: tag unknown", 26),
    ("cuts: version cut", 2),
];

#[test]
fn every_cut_occurs() {
    let request = Request { cuts: true, ..Request::default() };
    assert_eq!(kinds(request), sorted(&CUTS));
    for mode in [0, 1] {
        let (image, _) = write_fields(&cuts::whole(mode));
        let made: Vec<Case> = cases(SEED, &Request { mode: Some(mode), ..request }).collect();
        let shorter: Vec<&[u8]> = made.iter().map(|case| &case.image[..]).filter(|part| part.len() < image.len()).collect();
        assert!(shorter.into_iter().eq((0..image.len()).map(|length| &image[..length])));
        let spoiled = made.iter().filter(|case| case.image.len() == image.len() && case.known != Known::Accepted);
        let differ = |other: &[u8]| other.iter().zip(&image).filter(|(one, other)| one != other).count();
        assert!(spoiled.into_iter().all(|case| differ(&case.image) == 1));
    }
    assert_eq!(cases(SEED, &request).count(), 2 * cases(SEED, &Request { mode: Some(0), ..request }).count());
}

#[test]
fn the_contract_that_is_cut_holds_everything() {
    let contract = cuts::whole(0);
    let (image, fields) = write_fields(&contract);
    assert!(image.len() < 700);
    let found: BTreeSet<u8> = fields.iter().filter(|field| field.kind == FieldKind::Tag).map(|field| image[field.start]).collect();
    assert!(found.into_iter().eq((tag::IF..=tag::RETURN).chain(tag::VARIABLE..=tag::LENGTH)));
    assert!(fields.iter().any(|field| field.kind == FieldKind::Bytes && field.length > 0));
    let some = |test: fn(&StmtKind) -> bool| statements(&contract.statements, test) > 0;
    assert!(some(|kind| matches!(kind, StmtKind::If { then, otherwise: None, .. } if then.is_empty())));
    assert!(some(|kind| matches!(kind, StmtKind::If { then, otherwise: None, .. } if !then.is_empty())));
    assert!(some(|kind| matches!(kind, StmtKind::If { then, otherwise: Some(block), .. } if then.is_empty() && block.is_empty())));
    assert!(some(|kind| matches!(kind, StmtKind::If { then, otherwise: Some(block), .. } if !then.is_empty() && !block.is_empty())));
}

// ---- damaged copies

#[test]
fn every_damaged_kind_occurs() {
    const FIELDS: [&str; 12] =
        ["mark", "version", "mode", "tag", "location", "count", "flag", "op", "number", "boolean", "length", "bytes"];
    let fields = FIELDS.iter().flat_map(|field| [format!("cut: {field}"), format!("overwritten: {field}")]);
    let codes = ["mode", "tag", "flag", "op", "boolean"].map(|field| format!("unknown: {field}"));
    let counts = ["count: one more", "count: one fewer", "count: another"];
    let lengths = ["length: beyond the image", "length: one more", "length: one fewer"];
    let others = ["lengthened", "mark", "version", "too long", "flipped", "shifted"];
    let all: BTreeSet<String> = fields.chain(codes).chain(counts.into_iter().chain(lengths).chain(others).map(String::from)).collect();
    let census = census(&Request { damaged: 20_000, ..Request::default() });
    assert!(census.kinds.keys().eq(&all), "{:#?}", census.kinds);
}

#[test]
fn damaged_copies_are_damaged() {
    let mut counts: BTreeMap<String, (usize, usize)> = BTreeMap::new();
    for case in cases(SEED, &Request { damaged: 20_000, ..Request::default() }) {
        let name = case.kind.split(':').next().unwrap();
        let (all, readable) = counts.entry(name.to_string()).or_default();
        *all += 1;
        *readable += usize::from(read(&case.image).is_ok());
    }
    for (name, (all, readable)) in &counts {
        // most bits of an image are in its locations, which may hold anything
        let most = BTreeMap::from([("flipped", 85), ("overwritten", 50), ("count", 20)]).get(name.as_str()).copied().unwrap_or(2);
        assert!(100 * readable <= most * all, "{name}: {readable} of {all} read");
    }
    let readable: usize = counts.values().map(|(_, readable)| readable).sum();
    assert!((2_000..8_000).contains(&readable), "{readable} of 20000 read");
}

#[test]
fn one_mode_is_the_mode_of_every_contract() {
    for mode in [0, 1] {
        let request = Request { random: 200, limits: true, mode: Some(mode), ..Request::default() };
        let read = cases(SEED, &request).filter_map(|case| read(&case.image).ok());
        assert!(read.map(|contract| contract.mode).all(|other| other == mode));
    }
}

#[test]
fn writing_and_reading_give_the_same_tree() {
    let mut rng = Rng::new(SEED);
    for most_bytes in [8, 40, 100, 400, 1500, 6000, most::BYTES] {
        for plan in Plan::ALL {
            let shape = Shape { mode: rng.below(2) as u8, most_atoms: rng.below(12), most_bytes, plan };
            for _ in 0..40 {
                let contract = random(&mut rng, &shape);
                let image = write(&contract);
                assert!(image.len() <= most_bytes);
                assert_eq!(image.len(), size::HEAD + list_size(&contract.statements));
                assert_eq!(read(&image), Ok(contract));
            }
        }
    }
}

/// How many of a list's statements, and of those in its blocks, a test holds of.
fn statements(list: &[Stmt], test: fn(&StmtKind) -> bool) -> usize {
    let inner = |statement: &Stmt| match &statement.kind {
        StmtKind::If { then, otherwise, .. } => statements(then, test) + statements(otherwise.as_deref().unwrap_or(&[]), test),
        _ => 0,
    };
    list.iter().map(|statement| test(&statement.kind) as usize + inner(statement)).sum()
}

#[test]
fn blocks_of_every_kind_occur() {
    let contracts: Vec<_> = cases(SEED, &Request { random: 2000, ..Request::default() }).map(|case| read(&case.image).unwrap()).collect();
    let some = |test: fn(&StmtKind) -> bool| contracts.iter().any(|contract| statements(&contract.statements, test) > 0);
    assert!(contracts.iter().any(|contract| contract.statements.is_empty()), "an empty contract");
    assert!(some(|kind| matches!(kind, StmtKind::If { otherwise: None, .. })), "no else block");
    assert!(some(|kind| matches!(kind, StmtKind::If { then, .. } if then.is_empty())), "an empty if block");
    assert!(some(|kind| matches!(kind, StmtKind::If { otherwise: Some(block), .. } if block.is_empty())), "an empty else block");
    let ended = |kind: &StmtKind| matches!(kind, StmtKind::Return(_) | StmtKind::If { .. });
    let tails = |list: &[Stmt]| list.iter().rev().skip(1).any(|statement| ended(&statement.kind));
    assert!(contracts.iter().any(|contract| tails(&contract.statements)), "a statement after a return or an if");
}
