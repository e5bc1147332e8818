//! The same declarations stand in crates/exports/src/lib.rt, bindings/c/bayekosh.h and bindings/rust/src/raw.rs, and no compiler sees more than one of
//! them. Here the three texts are compared, name by name and type by type, and how C and Rust lay the answers out; and the comparison itself is tried
//! on spoilt texts.

mod common;
mod declared;

use common::{built, here, printed, text};
use declared::{c, rattle, rust, Declared};

/// The three texts, each with its reader.
fn texts() -> [(&'static str, fn(&str) -> Result<Declared, String>, String); 3] {
    let [exports, header, raw] = ["crates/exports/src/lib.rt", "bindings/c/bayekosh.h", "bindings/rust/src/raw.rs"];
    [(exports, rattle, text(exports)), (header, c, text(header)), (raw, rust, text(raw))]
}

/// What the exports declare.
fn declared() -> Declared {
    rattle(&text("crates/exports/src/lib.rt")).expect("the exports are read")
}

/// Nine structs and ten functions, in one order.
#[test]
fn the_declarations_agree() {
    let exports = declared();
    assert_eq!((exports.structs.len(), exports.functions.len()), (9, 10));
    for (name, read, text) in texts() {
        assert_eq!(read(&text).as_ref(), Ok(&exports), "{name}");
    }
}

/// The header's numbers are the package's.
#[test]
fn constants_agree() {
    let header = text("bindings/c/bayekosh.h");
    for (name, value) in [("MOST_BYTES", bayekosh::MOST_BYTES), ("CHECKPOINT_HEAD", bayekosh::CHECKPOINT_HEAD)] {
        let line = format!("#define BAYEKOSH_{name} {value}");
        assert!(header.lines().any(|found| found == line), "{line}");
    }
    assert_eq!(bayekosh::MOST_BYTES, image::tree::most::BYTES);
}

/// Whether a line declares a field.
fn is_field(line: &str) -> bool {
    let line = line.split("/*").next().unwrap_or(line).trim_end();
    let rust = line.starts_with("    pub ") && line.ends_with(',') && !line.contains('(');
    let c = line.starts_with("    ") && line.ends_with(';') && !line.contains(['(', '=']);
    rust || (c && !line.contains("pub ") && !line.contains("let "))
}

/// The text once for each field with another field behind it, the two exchanged.
fn exchanged(text: &str) -> Vec<String> {
    let lines: Vec<&str> = text.lines().collect();
    let pairs = (1..lines.len()).filter(|at| is_field(lines[at - 1]) && is_field(lines[*at]));
    let spoilt = pairs.map(|at| {
        let mut spoilt = lines.clone();
        spoilt.swap(at - 1, at);
        spoilt.join("\n")
    });
    spoilt.collect()
}

/// No two fields of a struct stand in another order in one of the texts.
#[test]
fn exchanged_fields_are_noticed() {
    let exports = declared();
    let fields: usize = exports.structs.iter().map(|(_, fields)| fields.len() - 1).sum();
    for (name, read, text) in texts() {
        let spoilt = exchanged(&text);
        let unnoticed: Vec<&String> = spoilt.iter().filter(|text| read(text).as_ref() == Ok(&exports)).collect();
        assert_eq!((spoilt.len(), unnoticed), (fields, vec![]), "{name}");
    }
}

/// Some damage to each of the texts: what stands there, and what then does in its place.
const DAMAGE: [[(&str, &str); 4]; 3] = [
    [
        ("    pub path: u16", "    pub path: u32"),
        ("#[repr(C)]\n#[derive(Clone, Copy)]\npub struct ImagePart", "#[derive(Clone, Copy)]\npub struct ImagePart"),
        ("#[unsafe(no_mangle)]\npub extern \"C\" fn bayekosh_start", "pub extern \"C\" fn bayekosh_start"),
        (
            "fn bayekosh_slice(examination: Standing, image: &[u8], budget: u64)",
            "fn bayekosh_slice(image: &[u8], examination: Standing, budget: u64)",
        ),
    ],
    [
        ("uint16_t path;", "uint32_t path;"),
        ("    size_t frees;", "    size_t free;"),
        ("uint8_t *buffer,", "const uint8_t *buffer,"),
        ("BayekoshOpenedAnswer bayekosh_start", "BayekoshCountedAnswer bayekosh_start"),
    ],
    [
        ("pub found: u32,", ""),
        ("#[repr(C)]\n#[derive(Clone, Copy, Debug, PartialEq, Eq)]\npub struct ImagePart", "#[derive(Clone)]\npub struct ImagePart"),
        ("budget: u64", "budget: u32"),
        ("bayekosh_count_paths(image: *const u8, image_length: usize)", "bayekosh_count_paths(image_length: usize, image: *const u8)"),
    ],
];

/// A type, a name, an attribute, the order of parameters, a result.
#[test]
fn other_damage_is_noticed() {
    let exports = declared();
    for ((name, read, text), edits) in texts().into_iter().zip(DAMAGE) {
        edits.into_iter().for_each(|(old, new)| {
            assert_eq!(text.matches(old).count(), 1, "{name}: {old}");
            assert_ne!(read(&text.replace(old, new)).as_ref(), Ok(&exports), "{name}: {old}");
        });
    }
}

/// The size of what a field holds.
fn size_of_field<S, F>(_: fn(&S) -> &F) -> usize {
    size_of::<F>()
}

/// A line for each struct with its size, and for each field with its offset and its size.
macro_rules! layout {
    ($($name:ident { $($field:ident),* })*) => {
        [$(
            format!("{} {}\n", stringify!($name), size_of::<bayekosh::raw::$name>()),
            $({
                let size = size_of_field(|answer: &bayekosh::raw::$name| &answer.$field);
                let offset = std::mem::offset_of!(bayekosh::raw::$name, $field);
                format!("{}.{} {offset} {size}\n", stringify!($name), stringify!($field))
            },)*
        )*].concat()
    };
}

/// Sizes and offsets, as the C compiler and the Rust compiler have them.
#[test]
fn answers_are_laid_out_alike() {
    let rust = layout! {
        Standing { phase, path, mask, count }
        OpenedAnswer { number, place, examination }
        WrittenAnswer { number, place, length, examination }
        ImagePart { offset, length }
        CountedAnswer { number, place, paths }
        NumberedAnswer { number, place, sigs, frees }
        SatisfiableAnswer { number, place, found, mask }
        CheckedAnswer { number, place, verdict, reason, path, start, end, line, column, mask, total }
        SlicedAnswer { ended, said, examination }
    };
    let printed = printed(&built("layout", &here("bindings/c/layout.c"), &[]), &[]);
    assert_eq!(printed, rust);
    // none is left out
    let mut expected: Vec<String> = declared().names();
    let mut found: Vec<String> = printed.lines().filter_map(|line| line.split(' ').next()).map(str::to_string).collect();
    expected.sort();
    found.sort();
    assert_eq!(found, expected);
}
