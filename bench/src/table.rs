//! The table, printed row by row.

use crate::images::Sample;
use crate::timing::{best, Work};

/// A part of the table, the unit of its times, and by what a time in nanoseconds is divided for it.
pub struct Part {
    pub name: &'static str,
    pub unit: &'static str,
    pub divisor: f64,
}

/// What stands beside what.
const ABOVE: &str = "\
Rust: the reader of tools/; and the original, on a tree at hand: count_paths and path_free_atoms, its search of a path without a signature
for each assignment that it tries, check_necessity. This: from the bytes on. Ratio: Rust by this; above 1 this is faster.
-: nothing stands beside it, or the original is not at hand. Images, with bytes/statements/nodes/paths:";

/// What stands beside what, what the images are, a line for each group, and the names of the columns.
pub fn above(groups: &[&[Sample]]) {
    println!("{ABOVE}");
    for group in groups {
        println!("  {}", group.iter().map(Sample::sizes).collect::<Vec<_>>().join("; "));
    }
    println!();
    columns("part", "image", "unit", ["Rust", "this", "ratio"].map(str::to_string));
}

/// A row of the table.
pub fn row(part: &Part, image: &str, rust: Option<Work>, ours: Work) {
    let figures = match rust {
        Some(rust) => {
            let [rust, ours] = best([rust, ours]);
            [figure(rust / part.divisor), figure(ours / part.divisor), format!("{:.2}", rust / ours)]
        }
        None => {
            let [ours] = best([ours]);
            ["-".to_string(), figure(ours / part.divisor), "-".to_string()]
        }
    };
    columns(part.name, image, part.unit, figures);
}

fn columns(part: &str, image: &str, unit: &str, [rust, ours, ratio]: [String; 3]) {
    println!("{part:<19}{image:<33}{unit:<8}{rust:>10}{ours:>10}{ratio:>8}");
}

/// A number with three digits that count, or more where it is greater.
fn figure(number: f64) -> String {
    let digits = (2.0 - number.log10().floor()).clamp(0.0, 6.0) as usize;
    format!("{number:.digits$}")
}
