//! Links the static library that `rt lib` makes of crates/bench. bench/run makes it first; where it is not there, the package can
//! be checked but not linked, which a warning tells.

use std::path::Path;

fn main() {
    let folder = Path::new(env!("CARGO_MANIFEST_DIR")).join("../crates/bench/out");
    let library = folder.join("libbench.a");
    println!("cargo:rerun-if-changed={}", library.display());
    if !library.exists() {
        println!("cargo:warning=crates/bench/out/libbench.a is not there, so nothing can be linked: bench/run makes it, and then this");
        return;
    }
    println!("cargo:rustc-link-search=native={}", folder.display());
    println!("cargo:rustc-link-lib=static=bench");
}
