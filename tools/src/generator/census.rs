//! What a stream of images holds, as the reader tells it.

use super::{Case, Known};
use crate::reading::read;
use crate::text::words;
use crate::tree::*;
use crate::writing::tag_and_op;
use std::collections::BTreeMap;
use std::fmt;

/// How often something occurred.
type Counts<K> = BTreeMap<K, usize>;

/// Counts over a stream.
#[derive(Clone, Debug, Default)]
pub struct Census {
    pub images: usize,
    pub bytes: usize,
    /// Kinds, up to a comma or a second colon.
    pub kinds: Counts<String>,
    /// The refusal number 1 to 9, or 0 for an image that has none of them; 10 is not looked for.
    pub numbers: Counts<u32>,
    /// The refusal number 1 to 10 that an image was made for.
    pub made_for: Counts<u32>,
    /// The tags of the images that read.
    pub tags: Counts<u8>,
    /// A tag and its op.
    pub ops: Counts<(u8, u8)>,
    /// The greatest expression level of an image, rounded up to one of `BUCKETS`.
    pub expression_levels: Counts<usize>,
    /// The same of statement levels.
    pub statement_levels: Counts<usize>,
    /// An image's paths, rounded up in the same way.
    pub paths: Counts<usize>,
}

/// The upper ends of the buckets for levels and path counts.
const BUCKETS: [usize; 12] = [0, 1, 2, 3, 4, 8, 16, 24, 31, 32, 128, usize::MAX];

/// The upper end of a number's bucket.
fn bucket(number: usize) -> usize {
    BUCKETS.into_iter().find(|end| number <= *end).expect("the last bucket has no end")
}

/// One more of a key.
fn count<K: Ord>(counts: &mut Counts<K>, key: K) {
    *counts.entry(key).or_insert(0) += 1;
}

impl Census {
    /// Counts one image.
    pub fn add(&mut self, case: &Case) {
        self.images += 1;
        self.bytes += case.image.len();
        count(&mut self.kinds, short(&case.kind));
        if let Known::Refused { number, .. } = case.known {
            count(&mut self.made_for, number);
        }
        match read(&case.image) {
            Ok(contract) => self.contract(&contract),
            Err(fault) => count(&mut self.numbers, fault.number()),
        }
    }

    /// Counts a contract that was read.
    fn contract(&mut self, contract: &Contract) {
        let paths = paths(&contract.statements);
        count(&mut self.numbers, if paths > most::PATHS { 9 } else { 0 });
        let deepest = self.statements(&contract.statements);
        count(&mut self.expression_levels, bucket(deepest));
        count(&mut self.statement_levels, bucket(statement_level(&contract.statements)));
        count(&mut self.paths, bucket(paths));
    }

    /// Counts the items of a list, and gives the greatest expression level in it.
    fn statements(&mut self, list: &[Stmt]) -> usize {
        list.iter().map(|statement| self.statement(statement)).max().unwrap_or(0)
    }

    /// Counts the items of a statement, and gives the greatest expression level in it.
    fn statement(&mut self, statement: &Stmt) -> usize {
        match &statement.kind {
            StmtKind::If { condition, then, otherwise } => {
                count(&mut self.tags, tag::IF);
                let blocks = self.statements(then).max(self.statements(otherwise.as_deref().unwrap_or(&[])));
                self.expression(condition).max(blocks)
            }
            StmtKind::Locktime { op, .. } => {
                self.item(tag::LOCKTIME, Some(*op));
                0
            }
            StmtKind::Verify(expression) => {
                count(&mut self.tags, tag::VERIFY);
                self.expression(expression)
            }
            StmtKind::Return(expression) => {
                count(&mut self.tags, tag::RETURN);
                self.expression(expression)
            }
        }
    }

    /// Counts the nodes of an expression, and gives its level.
    fn expression(&mut self, expression: &Expr) -> usize {
        let (tag, op) = tag_and_op(&expression.node);
        self.item(tag, op);
        1 + expression.operands().into_iter().map(|operand| self.expression(operand)).max().unwrap_or(0)
    }

    /// Counts an item and its op.
    fn item(&mut self, tag: u8, op: Option<u8>) {
        count(&mut self.tags, tag);
        if let Some(op) = op {
            count(&mut self.ops, (tag, op));
        }
    }
}

/// A kind without what is particular to one case: what stands behind a comma or a second colon.
fn short(kind: &str) -> String {
    let end = kind.find(',').unwrap_or(kind.len());
    let second = kind.match_indices(": ").nth(1).map_or(kind.len(), |(place, _)| place);
    kind[..end.min(second)].to_string()
}

/// The greatest level of a statement; an empty list has none.
fn statement_level(list: &[Stmt]) -> usize {
    let inner = |statement: &Stmt| match &statement.kind {
        StmtKind::If { then, otherwise, .. } => statement_level(then).max(statement_level(otherwise.as_deref().unwrap_or(&[]))),
        _ => 0,
    };
    list.iter().map(|statement| 1 + inner(statement)).max().unwrap_or(0)
}

/// How many paths a list has: "walked until a return (one path) or an if (the if block's paths, then the else block's)".
pub fn paths(list: &[Stmt]) -> usize {
    for statement in list {
        match &statement.kind {
            StmtKind::Return(_) => return 1,
            StmtKind::If { then, otherwise, .. } => return paths(then) + paths(otherwise.as_deref().unwrap_or(&[])),
            _ => {}
        }
    }
    0
}

/// An item's name in document 01's words.
fn item_name(item: u8) -> &'static str {
    const STATEMENTS: [&str; 4] = ["if", "locktime", "verify", "return"];
    const EXPRESSIONS: [&str; 11] =
        ["variable", "number", "boolean", "string", "logical", "compare", "unary", "binary", "hash", "checksig", "length"];
    match item {
        tag::IF..=tag::RETURN => STATEMENTS[(item - tag::IF) as usize],
        _ => EXPRESSIONS[(item - tag::VARIABLE) as usize],
    }
}

/// An op's word in the text form.
fn op_word(item: u8, op: u8) -> &'static str {
    match item {
        tag::LOCKTIME => words::of_locktime(op),
        tag::LOGICAL => words::of_two(Two::Logical(op)),
        tag::COMPARE => words::of_two(Two::Compare(op)),
        tag::UNARY => words::of_one(One::Unary(op)),
        tag::BINARY => words::of_two(Two::Binary(op)),
        _ => words::of_one(One::Hash(op)),
    }
}

/// One heading, and a line for each count under it.
fn section<K>(f: &mut fmt::Formatter, heading: &str, counts: &Counts<K>, name: impl Fn(&K) -> String) -> fmt::Result {
    writeln!(f, "{heading}")?;
    counts.iter().try_for_each(|(key, count)| writeln!(f, "{count:>10}  {}", name(key)))
}

/// A bucket's numbers.
fn bucket_name(end: &usize) -> String {
    let before = BUCKETS.into_iter().take_while(|other| other < end).last();
    match (before, *end) {
        (Some(before), usize::MAX) => format!("over {before}"),
        (Some(before), end) if before + 1 < end => format!("{} to {end}", before + 1),
        _ => end.to_string(),
    }
}

impl fmt::Display for Census {
    /// The report: every count under its heading.
    fn fmt(&self, f: &mut fmt::Formatter) -> fmt::Result {
        writeln!(f, "{} images, {} bytes", self.images, self.bytes)?;
        section(f, "kinds", &self.kinds, String::clone)?;
        section(f, "refusals 1 to 9", &self.numbers, |number| match number {
            0 => "none of them".to_string(),
            _ => format!("refused {number}"),
        })?;
        section(f, "refusals that images were made for (whether 10 comes back, only the oracle tells)", &self.made_for, |number| {
            format!("refused {number}")
        })?;
        section(f, "items of the images that read", &self.tags, |tag| format!("{tag} {}", item_name(*tag)))?;
        section(f, "ops of the images that read", &self.ops, |(tag, op)| format!("{} {}", item_name(*tag), op_word(*tag, *op)))?;
        section(f, "greatest expression level", &self.expression_levels, bucket_name)?;
        section(f, "greatest statement level", &self.statement_levels, bucket_name)?;
        section(f, "paths", &self.paths, bucket_name)
    }
}
