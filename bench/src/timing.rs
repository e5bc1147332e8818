//! How long a work takes: rounds by turns with what stands beside it, the best of each.

use std::hint::black_box;
use std::time::Instant;

/// How many rounds each side has, by turns.
const ROUNDS: usize = 20;

/// About how long a round takes, in nanoseconds.
const ROUND: f64 = 10e6;

/// A work: done so often, how long it takes once, in nanoseconds.
pub type Work<'a> = Box<dyn FnMut(usize) -> f64 + 'a>;

/// The work that does this.
pub fn work<'a, T>(mut once: impl FnMut() -> T + 'a) -> Work<'a> {
    Box::new(move |often| {
        let start = Instant::now();
        for _ in 0..often {
            black_box(once());
        }
        start.elapsed().as_nanos() as f64 / often as f64
    })
}

/// The best time of each, in nanoseconds.
pub fn best<const SIDES: usize>(mut sides: [Work; SIDES]) -> [f64; SIDES] {
    let often = sides.each_mut().map(often);
    let mut best = [f64::MAX; SIDES];
    for _ in 0..ROUNDS {
        for ((side, often), best) in sides.iter_mut().zip(often).zip(&mut best) {
            *best = best.min(side(often));
        }
    }
    best
}

/// How often it is done in a round.
fn often(work: &mut Work) -> usize {
    let once = (0..3).map(|_| work(1)).fold(f64::MAX, f64::min);
    (ROUND / once.max(1.0)).clamp(1.0, 1e7) as usize
}
