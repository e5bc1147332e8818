//! What is printed.

use std::fmt::Write;

use image::samples::Sample;

use crate::tally::{Difference, Tally, LONG};

/// Every answer that must occur.
pub fn answers() -> Vec<String> {
    let refusals = (1..=10).map(|number| format!("refused {number:2}"));
    let verdicts = [(0, 0), (1, 1), (1, 2), (2, 2), (3, 0)].map(|(verdict, reason)| format!("verdict {verdict} reason {reason}"));
    refusals.chain(verdicts).collect()
}

/// How often each answer came in each group.
pub fn table(groups: &[(&str, Tally)], all: &Tally) -> String {
    let columns = || groups.iter().map(|(name, tally)| (*name, tally)).chain([("all", all)]);
    let mut text = format!("{:<24}", "answer");
    columns().for_each(|(name, _)| text += &format!("{name:>10}"));
    let answers = answers().into_iter().map(|answer| line(&answer, columns().map(|(_, tally)| tally.answers.of(&answer))));
    let totals = LONG.map(|(name, _)| line(name, columns().map(|(_, tally)| tally.totals.of(name))));
    let greatest = line("greatest total", columns().map(|(_, tally)| tally.greatest_total));
    let images = line("images", columns().map(|(_, tally)| tally.images));
    text.extend(answers.chain(totals).chain([greatest, images, "\n".to_string()]));
    text
}

/// A line of the table.
fn line(name: &str, counts: impl Iterator<Item = u64>) -> String {
    counts.fold(format!("\n{name:<24}"), |text, count| text + &format!("{count:>10}"))
}

/// The last line of the recorded answers to document 01's runs R1 to R6.
pub fn runs(samples: &[Sample]) -> Result<String, String> {
    let mut text = String::new();
    for name in ["R1", "R2", "R3", "R4", "R5", "R6"] {
        let sample = samples.iter().find(|sample| sample.name == name).ok_or_else(|| format!("there is no sample {name}"))?;
        writeln!(text, "{name}: {}", sample.answer.lines().last().unwrap_or_default()).map_err(|error| error.to_string())?;
    }
    Ok(text)
}

/// A difference: the image, and what each side says.
pub fn difference(group: &str, difference: &Difference) -> String {
    let Difference { index, kind, image, told } = difference;
    let hex: String = image.iter().map(|byte| format!("{byte:02x}")).collect();
    format!("{group} {index} ({kind}): {told}\nimage {hex}\n")
}
