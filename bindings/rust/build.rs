//! Links the static library that `rt lib` makes of crates/exports. bindings/run makes it first; where it is not there, the package
//! can be checked but not linked, which a warning tells.

use std::path::Path;

/// Names the library and its folder to the linker.
fn main() {
    let folder = Path::new(env!("CARGO_MANIFEST_DIR")).join("../../crates/exports/out");
    let library = folder.join("libexports.a");
    println!("cargo:rerun-if-changed={}", library.display());
    if !library.exists() {
        println!("cargo:warning=crates/exports/out/libexports.a is not there, so nothing can be linked: bindings/library makes it");
        return;
    }
    println!("cargo:rustc-link-search=native={}", folder.display());
    println!("cargo:rustc-link-lib=static=exports");
}
