//! Finds the original through BITHOVEN_SRC and makes sure that it is the one. The three modules are compiled where they lie; beside them the
//! build folder gets a copy of necessity.rs with `probe.rs` behind it, since only a module within sees its private functions.

use std::fmt::Display;
use std::path::{Path, PathBuf};
use std::process::Command;
use std::{env, fs, process};

const WANTED: &str = "BITHOVEN_SRC names the folder that holds the original's necessity.rs, ast.rs and source.rs";

fn main() {
    println!("cargo:rerun-if-env-changed=BITHOVEN_SRC");
    println!("cargo:rerun-if-changed=probe.rs");
    println!("cargo:rerun-if-changed=SHA256SUMS");
    let folder = env::var_os("BITHOVEN_SRC").unwrap_or_else(|| fail(format!("{WANTED}; it is not set")));
    let folder = fs::canonicalize(&folder).unwrap_or_else(|error| fail(format!("{WANTED}; {}: {error}", folder.display())));
    is_the_original(&folder);
    let built = PathBuf::from(env::var_os("OUT_DIR").unwrap());
    let probed = built.join("probed.rs");
    write(&probed, &(read(&folder.join("necessity.rs")) + "\npub mod probe {\n" + &read(Path::new("probe.rs")) + "}\n"));
    let mut modules = String::new();
    for name in ["ast", "source", "necessity"] {
        let file = folder.join(format!("{name}.rs"));
        println!("cargo:rerun-if-changed={}", file.display());
        modules += &module(name, &file);
    }
    write(&built.join("modules.rs"), &(modules + &module("probed", &probed)));
}

/// The files have the sums of those of ChrisCho-H/bithoven 18e70df710.
fn is_the_original(folder: &Path) {
    let sums = fs::canonicalize("SHA256SUMS").unwrap_or_else(|error| fail(format!("SHA256SUMS: {error}")));
    let checked = Command::new("sha256sum").arg("--check").arg("--status").arg(sums).current_dir(folder).status();
    match checked {
        Ok(status) if status.success() => {}
        Ok(_) => fail(format!("{WANTED}; those in {} are not the original's", folder.display())),
        Err(error) => fail(format!("sha256sum: {error}")),
    }
}

fn fail<T>(message: impl Display) -> T {
    eprintln!("{message}");
    process::exit(1)
}

fn read(file: &Path) -> String {
    fs::read_to_string(file).unwrap_or_else(|error| fail(format!("{}: {error}", file.display())))
}

fn write(file: &Path, text: &str) {
    fs::write(file, text).unwrap_or_else(|error| fail(format!("{}: {error}", file.display())))
}

/// A module that is compiled where its file lies. What it leaves unused is the original's business.
fn module(name: &str, file: &Path) -> String {
    format!("#[allow(unused)]\n#[path = {file:?}]\npub mod {name};\n")
}
