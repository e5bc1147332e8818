//! Images from a seed: random contracts, damaged copies, every cut of one contract, the size limits, faults that compete, and formulas. Each
//! comes with what document 01 says of it by the way it was made.

pub mod census;
pub mod cuts;
pub mod damage;
pub mod expressions;
pub mod formulas;
pub mod limits;
pub mod locations;
pub mod outcomes;
pub mod overflow;
pub mod parts;
pub mod random;
pub mod rng;
pub mod rules;
pub mod units;
pub mod values;

use crate::tree::{most, Contract};
use crate::writing::write;
use random::{random, Plan, Shape};
use rng::Rng;

/// An image, what kind it is, and what is known of it.
#[derive(Clone, Debug, PartialEq, Eq)]
pub struct Case {
    pub kind: String,
    pub image: Vec<u8>,
    pub known: Known,
}

/// What document 01 says of an image by the way it was made; no reader is asked.
#[derive(Clone, Copy, Debug, PartialEq, Eq)]
pub enum Known {
    Nothing,
    /// Reading accepts it; 9 or 10 may follow.
    Read,
    /// No number comes back.
    Accepted,
    Refused {
        number: u32,
        place: usize,
    },
}

/// What `cases` makes.
#[derive(Clone, Copy, Debug)]
pub struct Request {
    /// How many random contracts.
    pub random: usize,
    /// How many damaged copies.
    pub damaged: usize,
    /// Every cut and every unknown code of one contract.
    pub cuts: bool,
    /// Every size limit and one past it.
    pub limits: bool,
    /// Faults that compete, and literal arithmetic that leaves 64 bits.
    pub rules: bool,
    /// Each bit and each part of what the limits and the rules look at as a whole.
    pub parts: bool,
    /// Formulas of every kind.
    pub formulas: bool,
    /// The mode of every image, or both.
    pub mode: Option<u8>,
    /// The most atoms on a path that may have to be searched.
    pub most_atoms: usize,
    /// The greatest size of a random contract's image.
    pub most_bytes: usize,
}

impl Default for Request {
    /// Nothing, with the usual bounds.
    fn default() -> Request {
        Request {
            random: 0,
            damaged: 0,
            cuts: false,
            limits: false,
            rules: false,
            parts: false,
            formulas: false,
            mode: None,
            most_atoms: 10,
            most_bytes: 1500,
        }
    }
}

impl Case {
    /// An image of a kind.
    pub fn new(kind: impl Into<String>, image: Vec<u8>, known: Known) -> Case {
        Case { kind: kind.into(), image, known }
    }

    /// An image that is refused.
    pub fn refused(kind: impl Into<String>, image: Vec<u8>, number: u32, place: usize) -> Case {
        Case::new(kind, image, Known::Refused { number, place })
    }

    /// An image that is accepted.
    pub fn accepted(kind: impl Into<String>, image: Vec<u8>) -> Case {
        Case::new(kind, image, Known::Accepted)
    }
}

/// Cases with the name of their group before their kinds.
fn grouped(group: &str, cases: Vec<Case>) -> Vec<Case> {
    cases.into_iter().map(|case| Case { kind: format!("{group}: {}", case.kind), ..case }).collect()
}

/// The parts of a stream, each with random numbers of its own.
mod part {
    pub const RANDOM: u64 = 1;
    pub const DAMAGED: u64 = 2;
}

/// The images that a seed and a request give, in the same order on every machine.
pub fn cases(seed: u64, request: &Request) -> impl Iterator<Item = Case> {
    let request = *request;
    let modes: Vec<u8> = request.mode.map_or(vec![0, 1], |mode| vec![mode]);
    let randoms = (0..request.random).map(move |index| one_random(&mut Rng::member(seed, part::RANDOM, index as u64), &request));
    let damaged = (0..request.damaged).map(move |index| damage::one(&mut Rng::member(seed, part::DAMAGED, index as u64), &request));
    let cuts = when(request.cuts, &modes, cuts::cuts);
    let limits = when(request.limits, &modes, limits::limits);
    let rules = when(request.rules, &modes, |mode| [rules::rules(mode), overflow::overflows(mode)].concat());
    let parts = when(request.parts, &modes, parts::parts);
    let formulas = when(request.formulas, &modes, formulas::formulas);
    randoms.chain(damaged).chain(cuts).chain(limits).chain(rules).chain(parts).chain(formulas)
}

/// The cases of every mode, if they are wanted.
fn when(wanted: bool, modes: &[u8], make: fn(u8) -> Vec<Case>) -> Vec<Case> {
    match wanted {
        true => modes.iter().flat_map(|mode| make(*mode)).collect(),
        false => vec![],
    }
}

/// A random contract's image.
fn one_random(rng: &mut Rng, request: &Request) -> Case {
    let shape = shape(rng, request);
    let contract = random(rng, &shape);
    Case::new(format!("random: {}", shape.plan.name()), write(&contract), Known::Read)
}

/// A random contract's shape within a request.
fn shape(rng: &mut Rng, request: &Request) -> Shape {
    let mode = request.mode.unwrap_or_else(|| rng.below(2) as u8);
    Shape { mode, most_atoms: request.most_atoms, most_bytes: request.most_bytes.min(most::BYTES), plan: Plan::draw(rng) }
}

/// A contract for damaging, with an image of at most `most_bytes`.
fn base(rng: &mut Rng, request: &Request, most_bytes: usize) -> Contract {
    let shape = shape(rng, request);
    random(rng, &Shape { most_bytes: shape.most_bytes.min(most_bytes), ..shape })
}
