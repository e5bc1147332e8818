//! The declarations of a text, in one notation for the three languages: a slice is a pointer and a length, and C's names of types are Rust's.

/// A name and its type.
pub type Named = (String, String);

/// A struct's name and fields.
pub type Struct = (String, Vec<Named>);

/// A function's name, parameters and result.
pub type Function = (String, Vec<Named>, String);

/// The structs and the functions, in order.
#[derive(Debug, PartialEq, Eq)]
pub struct Declared {
    pub structs: Vec<Struct>,
    pub functions: Vec<Function>,
}

impl Declared {
    /// The name of each struct and of each of its fields.
    pub fn names(&self) -> Vec<String> {
        let of = |(name, fields): &Struct| {
            let fields = fields.iter().map(|(field, _)| format!("{name}.{field}"));
            [name.clone()].into_iter().chain(fields).collect::<Vec<_>>()
        };
        self.structs.iter().flat_map(of).collect()
    }
}

/// The declarations of crates/exports.
pub fn rattle(text: &str) -> Result<Declared, String> {
    let text = in_one_line(text, "//", "\n");
    let functions = rust_functions(&text, "pub extern \"C\" fn ", "#[unsafe(no_mangle)]")?;
    Ok(Declared { structs: rust_structs(&text)?, functions })
}

/// The declarations of the Rust wrapper.
pub fn rust(text: &str) -> Result<Declared, String> {
    let text = in_one_line(text, "//", "\n");
    let (_, block) = text.split_once("extern \"C\" {").ok_or("there is no block of C functions")?;
    Ok(Declared { structs: rust_structs(&text)?, functions: rust_functions(block, "pub fn ", "")? })
}

/// The declarations of the C header.
pub fn c(text: &str) -> Result<Declared, String> {
    let code: Vec<&str> = text.lines().filter(|line| !line.starts_with('#')).collect();
    let text = in_one_line(&code.join("\n"), "/*", "*/").replace("extern \"C\" {", "");
    let (structs, rest) = c_structs(text.trim_end_matches([' ', '}']))?;
    let functions = rest.split(';').filter(|line| !line.trim().is_empty()).map(c_function).collect::<Result<_, _>>()?;
    Ok(Declared { structs, functions })
}

/// The structs that a text of C begins with, and the text behind them.
fn c_structs(text: &str) -> Result<(Vec<Struct>, &str), String> {
    let mut structs = vec![];
    let mut rest = text;
    while let Some(behind) = rest.trim_start().strip_prefix("typedef struct {") {
        let (body, behind) = behind.split_once('}').ok_or("a struct has no end")?;
        let (name, behind) = behind.split_once(';').ok_or("a struct has no name")?;
        let fields = body.split(';').filter(|field| !field.trim().is_empty()).map(c_named).collect::<Result<_, _>>()?;
        structs.push((c_type(name)?, fields));
        rest = behind;
    }
    Ok((structs, rest))
}

/// A function of C.
fn c_function(line: &str) -> Result<Function, String> {
    let (front, parameters) = line.split_once('(').ok_or_else(|| format!("this is no function: {line}"))?;
    let (name, result) = c_named(front)?;
    let parameters = parameters.trim_end().strip_suffix(')').ok_or_else(|| format!("this is no function: {line}"))?;
    Ok((name, parameters.split(',').map(c_named).collect::<Result<_, _>>()?, result))
}

/// A text without comments, in one line with one space between words.
fn in_one_line(text: &str, from: &str, to: &str) -> String {
    let mut kept = String::new();
    let mut rest = text;
    while let Some((front, comment)) = rest.split_once(from) {
        kept += front;
        kept += " ";
        rest = comment.split_once(to).map_or("", |(_, behind)| behind);
    }
    kept += rest;
    kept.split_whitespace().collect::<Vec<_>>().join(" ")
}

/// The texts behind each mark; the attribute must stand before it.
fn behind<'a>(text: &'a str, mark: &str, attribute: &str) -> Result<Vec<&'a str>, String> {
    let starts = text.match_indices(mark).map(|(at, _)| at);
    let checked = starts.map(|at| {
        let before = &text[..at];
        let since = before.rfind([';', '}', '{']).map_or(0, |end| end + 1);
        match before[since..].contains(attribute) {
            true => Ok(&text[at + mark.len()..]),
            false => Err(format!("{attribute} is missing: {}", text[at..].chars().take(60).collect::<String>())),
        }
    });
    checked.collect()
}

/// The structs of a text of Rust, each laid out as in C.
fn rust_structs(text: &str) -> Result<Vec<Struct>, String> {
    behind(text, "pub struct ", "#[repr(C)]")?.into_iter().map(rust_struct).collect()
}

/// A struct, from its name on; each field is public.
fn rust_struct(found: &str) -> Result<Struct, String> {
    let (name, body) = found.split_once(" {").ok_or("a struct has no fields")?;
    let (body, _) = body.split_once('}').ok_or("a struct has no end")?;
    let fields: Vec<&str> = listed(body).map(public).collect::<Result<_, _>>()?;
    Ok((name.to_string(), rust_list(fields.into_iter())?))
}

/// A field without its `pub`.
fn public(field: &str) -> Result<&str, String> {
    field.trim().strip_prefix("pub ").ok_or_else(|| format!("not public: {field}"))
}

/// The functions of a text of Rust.
fn rust_functions(text: &str, mark: &str, attribute: &str) -> Result<Vec<Function>, String> {
    behind(text, mark, attribute)?.into_iter().map(rust_function).collect()
}

/// A function, from its name on.
fn rust_function(found: &str) -> Result<Function, String> {
    let (name, rest) = found.split_once('(').ok_or("a function has no parameters")?;
    let (list, rest) = rest.split_once(')').ok_or("a list of parameters has no end")?;
    let result = rest.trim_start().strip_prefix("-> ").ok_or("a function has no result")?;
    let result = result.split([' ', ';', '{']).next().unwrap_or(result);
    Ok((name.to_string(), rust_list(listed(list))?, result.to_string()))
}

/// What stands between the commas.
fn listed(list: &str) -> impl Iterator<Item = &str> {
    list.split(',').filter(|part| !part.trim().is_empty())
}

/// The fields or parameters of a list.
fn rust_list<'a>(list: impl Iterator<Item = &'a str>) -> Result<Vec<Named>, String> {
    let named = list.map(rust_named).collect::<Result<Vec<_>, _>>()?;
    Ok(named.concat())
}

/// A field or a parameter, two for a slice.
fn rust_named(text: &str) -> Result<Vec<Named>, String> {
    let (name, kind) = text.trim().split_once(": ").ok_or_else(|| format!("this has no type: {text}"))?;
    let pointed = match kind {
        "&[u8]" => "*const u8",
        "&mut [u8]" => "*mut u8",
        _ => return Ok(vec![(name.to_string(), kind.to_string())]),
    };
    Ok(vec![(name.to_string(), pointed.to_string()), (format!("{name}_length"), "usize".to_string())])
}

/// A field, a parameter, or a function's name with its result.
fn c_named(text: &str) -> Result<Named, String> {
    let text = text.trim();
    let at = text.rfind([' ', '*']).ok_or_else(|| format!("this has no type: {text}"))?;
    Ok((text[at + 1..].to_string(), c_type(&text[..=at])?))
}

/// A type of C by Rust's name.
fn c_type(text: &str) -> Result<String, String> {
    let name = match text.trim() {
        "uint8_t" => "u8",
        "uint16_t" => "u16",
        "uint32_t" => "u32",
        "uint64_t" => "u64",
        "size_t" => "usize",
        "const uint8_t *" => "*const u8",
        "uint8_t *" => "*mut u8",
        other => other.strip_prefix("Bayekosh").ok_or_else(|| format!("this type is not known: {other}"))?,
    };
    Ok(name.to_string())
}
