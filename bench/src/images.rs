//! The images on which reading, surveying and slices are measured: at the greatest sizes, where they take longest.

use std::cell::Cell;

use image::generator::census::paths;
use image::generator::units::*;
use image::tree::*;
use image::writing::write;

/// A contract to be measured, and what it is.
pub struct Sample {
    pub name: &'static str,
    pub contract: Contract,
    pub image: Vec<u8>,
}

impl Sample {
    pub fn new(name: &'static str, statements: Vec<Stmt>) -> Sample {
        let contract = Contract { mode: 0, statements };
        let image = write(&contract);
        assert!(image.len() <= most::BYTES);
        Sample { name, contract, image }
    }

    /// Its name, and its bytes, statements, nodes and paths.
    pub fn sizes(&self) -> String {
        let list = &self.contract.statements;
        format!("{} {}/{}/{}/{}", self.name, self.image.len(), statements(list), nodes(list), paths(list))
    }
}

/// Samples at the greatest sizes, which reading takes longest on.
pub fn greatest() -> Vec<Sample> {
    vec![
        Sample::new("one string", one_string()),
        Sample::new("every size at once", every_size()),
        Sample::new("chains of one operand, 32 deep", chains_of_one()),
        Sample::new("chains of two operands, 32 deep", chains_of_two()),
    ]
}

/// Samples with much on every path, which surveying takes longest on, and so a slice: it makes the formula of each path.
pub fn shared() -> Vec<Sample> {
    vec![
        Sample::new("513 checksigs on every path", shared_checksigs(most::PATHS, 513)),
        Sample::new("601 checksigs on every path", shared_checksigs(84, 601)),
        Sample::new("12 chains of two on every path", shared_chains()),
    ]
}

/// One string that fills the image.
fn one_string() -> Vec<Stmt> {
    let length = most::BYTES - size::HEAD - size::ITEM - size::STRING;
    vec![ret(text(&vec![1; length]))]
}

/// 128 paths, 512 statements and 1,024 nodes: two verifies and a return at the end of each path, and one verify before all.
fn every_size() -> Vec<Stmt> {
    let leaf = vec![verify(not(x())), verify(not(x())), ret(not(c()))];
    let tree = (0..7).fold(leaf, |block, _| vec![ifelse(not(x()), block.clone(), block)]);
    [vec![verify(not(x()))], tree].concat()
}

/// How many operations stand around the leaf of an expression that is nested 32 deep.
const AROUND: usize = most::EXPRESSION_LEVEL - 1;

/// Expressions of operations with one operand, nested 32 deep: 1,024 nodes.
fn chains_of_one() -> Vec<Stmt> {
    one_path(vec![around(AROUND, One::Unary(op::NOT), x()); most::NODES / most::EXPRESSION_LEVEL])
}

/// Expressions of operations with two operands, nested 32 deep, all on the left but the last: 1,008 nodes.
fn chains_of_two() -> Vec<Stmt> {
    let (left, right) = (leftward(AROUND, Two::Logical(op::AND), x()), rightward(AROUND, Two::Logical(op::AND), x()));
    one_path([vec![left; 15], vec![right]].concat())
}

/// So many paths, by ifs one in another, each with a condition, and a return at the end of each path.
pub fn forking(paths: usize, condition: &dyn Fn() -> Expr, end: &dyn Fn() -> Expr) -> Vec<Stmt> {
    if paths == 1 {
        return vec![ret(end())];
    }
    let [then, otherwise] = [paths / 2, paths - paths / 2].map(|half| forking(half, condition, end));
    vec![ifelse(condition(), then, otherwise)]
}

/// Checksigs at locations that differ in the last number alone, each at another.
pub fn keys() -> impl Fn() -> Expr {
    let last = Cell::new(0);
    move || {
        last.set(last.get() + 1);
        c().at(Location { column: last.get(), ..Location::default() })
    }
}

/// So many checksigs in verifies before so many paths, whose conditions and returns are checksigs too, all at different locations: 1,024 nodes
/// in 512 statements.
fn shared_checksigs(paths: usize, shared: usize) -> Vec<Stmt> {
    let key = keys();
    let verifies = most::STATEMENTS - (2 * paths - 1);
    let pairs = shared - verifies;
    let first = (0..verifies).map(|number| verify(if number < pairs { or(key(), key()) } else { key() }));
    first.chain(forking(paths, &key, &key)).collect()
}

/// Sums of literals, nested 32 deep to the left, in verifies before 128 paths.
fn shared_chains() -> Vec<Stmt> {
    let chain = leftward(AROUND, Two::Binary(0), yes());
    let count = (most::NODES - (2 * most::PATHS - 1)) / chain.nodes();
    [vec![verify(chain); count], forking(most::PATHS, &x, &c)].concat()
}

/// A verify of each expression, but a return of the last: one path with all of them.
fn one_path(mut expressions: Vec<Expr>) -> Vec<Stmt> {
    let last = expressions.pop().map(ret);
    expressions.into_iter().map(verify).chain(last).collect()
}

/// How many statements stand in a list and in its blocks.
fn statements(list: &[Stmt]) -> usize {
    list.iter().map(|statement| 1 + blocks(statement).into_iter().map(statements).sum::<usize>()).sum()
}

/// How many expression nodes stand in a list and in its blocks.
fn nodes(list: &[Stmt]) -> usize {
    list.iter().map(|statement| root(statement).map_or(0, Expr::nodes) + blocks(statement).into_iter().map(nodes).sum::<usize>()).sum()
}

/// The blocks of a statement.
fn blocks(statement: &Stmt) -> Vec<&[Stmt]> {
    match &statement.kind {
        StmtKind::If { then, otherwise, .. } => [Some(then), otherwise.as_ref()].into_iter().flatten().map(Vec::as_slice).collect(),
        _ => vec![],
    }
}

/// The expression of a statement.
fn root(statement: &Stmt) -> Option<&Expr> {
    match &statement.kind {
        StmtKind::If { condition, .. } => Some(condition),
        StmtKind::Locktime { .. } => None,
        StmtKind::Verify(expression) | StmtKind::Return(expression) => Some(expression),
    }
}
