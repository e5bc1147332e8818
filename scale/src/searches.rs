//! Contracts with long searches: every path at the bounds, and ends at a path's last assignment.

use image::generator::units::*;
use image::generator::Case;
use image::tree::{Expr, Location, Stmt};

/// The contracts; the first has two to that power of paths, and with 7 the greatest total that there is.
pub fn searches(power: usize) -> Vec<Case> {
    let behind = |first: Expr, rest: Vec<Stmt>| image(0, [vec![verify(first)], rest].concat());
    let signed = and(variables(20), c().at(Location { column: 1, ..Location::default() }));
    let second = vec![ifelse(no(), vec![ret(c())], vec![ret(or(c(), yes()))])];
    vec![
        Case::accepted("search: without end", behind(and(signed.clone(), no()), forks(power))),
        Case::accepted("search: paid out by the last assignment of a path", behind(signed, forks(power / 2))),
        Case::accepted("search: useless by the last assignment of the second path", behind(variables(20), second)),
    ]
}

#[cfg(test)]
mod tests {
    use super::*;
    use oracle::{answer, Answer};

    /// The verdict, path, mask and total of each, with one path in place of 128.
    #[test]
    fn searches_are_as_long_as_they_are_meant_to_be() {
        let ends = searches(0).into_iter().map(|case| match answer(&case.image).map(|said| said.answer) {
            Ok(Answer::Judged(judged)) => (judged.verdict, judged.path, judged.mask, judged.tried),
            other => panic!("{:?}", other),
        });
        let (frees, all) = (1 << 20, 1 << 22);
        assert_eq!(ends.collect::<Vec<_>>(), [(3, 0, 0, frees + all), (0, 0, 0, frees + all), (2, 1, frees - 1, 2 * frees)]);
    }
}
