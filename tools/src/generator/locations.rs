//! Locations that are shared, that differ in exactly one of the four numbers, or that are all different.

use super::rng::Rng;
use crate::tree::Location;

/// Where a contract's items stand: some in a pool, the others each at a location of its own.
pub struct Locations {
    pool: Vec<Location>,
    /// How many of a hundred items stand in the pool.
    pooled: usize,
    used: u32,
}

impl Locations {
    /// A pool around one location, and how often it is used.
    pub fn draw(rng: &mut Rng) -> Locations {
        let first = first(rng);
        let mut pool = vec![first];
        for _ in 0..rng.pick(&[0, 0, 1, 2, 4]) {
            pool.push(beside(rng, first));
        }
        Locations { pool, pooled: rng.pick(&[0, 50, 90, 100]), used: 0 }
    }

    /// The next item's location.
    pub fn next(&mut self, rng: &mut Rng) -> Location {
        if rng.percent(self.pooled) {
            return rng.pick(&self.pool);
        }
        self.fresh()
    }

    /// A location that no other item has had: the lines go on from a number that no pool has.
    pub fn fresh(&mut self) -> Location {
        self.used += 1;
        Location { start: self.used * 7, end: self.used * 7 + 5, line: 0x1000_0000 + self.used, column: self.used % 80 }
    }
}

/// The pool's first location.
fn first(rng: &mut Rng) -> Location {
    let high = rng.pick(&[1, 9, 0x1000_0000]);
    let mut number = || rng.below(high) as u32;
    match high {
        9 => Location { start: u32::MAX, end: u32::MAX, line: 0x0FFF_FFFF, column: u32::MAX },
        _ => Location { start: number(), end: number(), line: number(), column: number() },
    }
}

/// A location that differs from another in exactly one number.
fn beside(rng: &mut Rng, mut location: Location) -> Location {
    let bit = 1 << rng.pick(&[0, 0, 7, 8, 15, 16, 24]);
    match rng.below(4) {
        0 => location.start ^= bit,
        1 => location.end ^= bit,
        2 => location.line ^= bit,
        _ => location.column ^= bit,
    }
    location
}
