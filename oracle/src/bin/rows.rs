//! `rows FOLDER` writes a crate of Rattle, called as the folder, into FOLDER: tables of the images on standard input with the original's
//! answers, each with the statement that the definition computes the same. `rows FOLDER spoilt` writes a table for each number of each answer,
//! with that number one too high: statements that must all be refused. oracle/against-definition has the checker judge both.

use std::fmt::Write as _;
use std::io::{self, Write as _};
use std::path::Path;
use std::process::ExitCode;

use image::reading;
use image::stream::Images;
use image::writing::write_fields;
use oracle::answering::Counts;
use oracle::{answer, program, Answer, Judged};

/// Rows of one table: few, so that a table that fails names few images.
const ROWS: usize = 20;

/// The greatest cost, as `cost` reckons it, of a table of several rows, and of a row at all: the checker gives up a statement after so many steps of
/// its own. It computed a row of 74 million and gave up one of 109 million.
const MOST_TOGETHER: usize = 20_000_000;
const MOST_COST: usize = 75_000_000;

/// The greatest total that the checker is asked to compute.
const MOST_TRIED: u64 = 4_000;

fn main() -> ExitCode {
    program::run("rows", "rows FOLDER [spoilt] < STREAM", |words| match words {
        [folder] => Some(write_crate(Path::new(folder), as_told)),
        [folder, "spoilt"] => Some(write_crate(Path::new(folder), spoilt)),
        _ => None,
    })
}

/// A row: about how many steps it costs the checker, and its text.
struct Row {
    cost: usize,
    text: String,
}

/// Reads the stream, writes the tables and tells how many images there are of each answer.
fn write_crate(folder: &Path, tables: fn(Vec<(Vec<u8>, Answer)>) -> Vec<Vec<Row>>) -> Result<(), String> {
    let mut asked = vec![];
    let mut counts = Counts::default();
    for (number, image) in Images::new(io::stdin().lock()).enumerate() {
        let image = image.map_err(|error| format!("image {number}: {error}"))?;
        let answer = answer(&image)?.answer;
        let left_out = left_out(&image, &answer);
        counts.add(left_out.map_or_else(|| answer.name(), str::to_string), 1);
        if left_out.is_none() {
            asked.push((image, answer));
        }
    }
    let tables = tables(asked);
    put(folder, "src/lib.rt", "// No function: images with the original's answers, computed by the definition.\n#![tactic(auto)]\n")?;
    put(folder, "proofs/Row.antt", ROW)?;
    let modules: String = (0..tables.len()).map(|number| format!("pub mod T{number}\n")).collect();
    put(folder, "proofs/Lib.antt", &("pub mod Row\n".to_string() + &modules))?;
    let name = folder.file_name().and_then(|name| name.to_str()).ok_or("the folder's name is the crate's")?;
    for (number, rows) in tables.iter().enumerate() {
        put(folder, &format!("proofs/T{number}.antt"), &table(name, rows))?;
    }
    io::stdout().write_all(counts.to_string().as_bytes()).map_err(|error| error.to_string())
}

/// Every image with its answer, in tables of few rows and of bounded cost.
fn as_told(asked: Vec<(Vec<u8>, Answer)>) -> Vec<Vec<Row>> {
    let mut tables: Vec<Vec<Row>> = vec![];
    let mut total = 0;
    for (image, answer) in asked {
        let row = row(&image, &answer);
        total += row.cost;
        match tables.last_mut() {
            Some(table) if table.len() < ROWS && total <= MOST_TOGETHER => table.push(row),
            _ => {
                total = row.cost;
                tables.push(vec![row]);
            }
        }
    }
    tables
}

/// For each number of each answer a table of one row in which it is one too high.
fn spoilt(asked: Vec<(Vec<u8>, Answer)>) -> Vec<Vec<Row>> {
    let wrong = asked.iter().flat_map(|(image, answer)| one_too_high(answer).into_iter().map(move |wrong| row(image, &wrong)));
    wrong.map(|row| vec![row]).collect()
}

fn one_too_high(answer: &Answer) -> Vec<Answer> {
    match answer {
        Answer::Refused { number, place } => {
            vec![Answer::Refused { number: number + 1, place: *place }, Answer::Refused { number: *number, place: place + 1 }]
        }
        Answer::Judged(judged) => {
            let changes: [fn(&mut Judged); 12] = [
                |j| j.atoms.push((0, 0)),
                |j| j.atoms.iter_mut().for_each(|atoms| atoms.0 += 1),
                |j| j.atoms.iter_mut().for_each(|atoms| atoms.1 += 1),
                |j| j.verdict += 1,
                |j| j.reason += 1,
                |j| j.path += 1,
                |j| j.location.start += 1,
                |j| j.location.end += 1,
                |j| j.location.line += 1,
                |j| j.location.column += 1,
                |j| j.mask += 1,
                |j| j.tried += 1,
            ];
            let wrong = changes.map(|change| {
                let mut wrong = judged.clone();
                change(&mut wrong);
                wrong
            });
            wrong.into_iter().filter(|wrong| wrong != judged).map(Answer::Judged).collect()
        }
    }
}

fn row(image: &[u8], answer: &Answer) -> Row {
    Row { cost: cost(image), text: format!("    (row ({})\n        ({}))", given(answer), list(image)) }
}

/// Why the checker is not asked about an image, if so.
fn left_out(image: &[u8], answer: &Answer) -> Option<&'static str> {
    match answer {
        Answer::Judged(judged) if judged.tried > MOST_TRIED => Some("left out, too long a search"),
        _ if cost(image) > MOST_COST => Some("left out, too long a reading"),
        _ => None,
    }
}

/// What reading costs the checker: at each field it goes through the bytes that are left. Of an image that cannot be read
/// only the fields up to the fault count, each taken as three bytes long.
fn cost(image: &[u8]) -> usize {
    match reading::read(image) {
        Ok(contract) => write_fields(&contract).1.iter().map(|field| image.len() - field.start).sum(),
        Err(fault) => (0..fault.place().min(image.len())).step_by(3).map(|start| image.len() - start).sum(),
    }
}

fn put(folder: &Path, name: &str, text: &str) -> Result<(), String> {
    let file = folder.join(name);
    let made = std::fs::create_dir_all(file.parent().unwrap_or(folder)).and_then(|()| std::fs::write(&file, text));
    made.map_err(|error| format!("{}: {error}", file.display()))
}

/// What a row is, and what the definition gives for its bytes, in Rattle.
const ROW: &str = include_str!("row.txt");

/// A table of the crate `name`, and its statement.
fn table(name: &str, rows: &[Row]) -> String {
    let rows: String = rows.iter().map(|row| format!("{} ∷\n", row.text)).collect();
    format!(
        "\
use Rattle.std.proofs.Common.{{◌≡◌, refl, List, [], ◌∷◌, map}}
use Rattle.{name}.proofs.Row.{{Row, row, atoms, location, refused, judged, again, computed}}

unfoldable pub table : List Row
unfolding again
table =
{rows}    []

pub holds : map computed table ≡ map (λ (r : Row). r.gives) table
unfolding table computed
holds = refl
"
    )
}

/// The answer as a `Given`.
fn given(answer: &Answer) -> String {
    match answer {
        Answer::Refused { number, place } => format!("refused {number} {place}"),
        Answer::Judged(Judged { atoms, verdict, reason, path, location, mask, tried }) => {
            let atoms: String = atoms.iter().map(|(sigs, frees)| format!("atoms {sigs} {frees} ∷ ")).collect();
            let location = format!("location {} {} {} {}", location.start, location.end, location.line, location.column);
            format!("judged ({atoms}[]) {verdict} {reason} {path} ({location}) {mask} {tried}")
        }
    }
}

/// The bytes as a list, units that come again and again written once.
fn list(bytes: &[u8]) -> String {
    let mut text = String::new();
    let mut open = 0;
    let mut at = 0;
    while at < bytes.len() {
        let (period, times) = repetition(&bytes[at..]);
        if period * (times - 1) > 64 {
            let unit: String = bytes[at..at + period].iter().map(|byte| format!("{byte} ∷ ")).collect();
            write!(text, "again {times} ({unit}[]) (").unwrap();
            open += 1;
            at += period * times;
        } else {
            write!(text, "{} ∷ ", bytes[at]).unwrap();
            at += 1;
        }
    }
    text + "[]" + &")".repeat(open)
}

/// The unit at the front that saves most when written once: its length, and how often it comes.
fn repetition(bytes: &[u8]) -> (usize, usize) {
    let longest = (bytes.len() / 2).min(128);
    let times = |period: usize| 1 + bytes.iter().zip(&bytes[period..]).take_while(|(left, right)| left == right).count() / period;
    (1..=longest).map(|period| (period, times(period))).max_by_key(|(period, times)| period * (times - 1)).unwrap_or((1, 1))
}
