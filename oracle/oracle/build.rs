//! Finds the Rust that is the judge. MINIRUST_SRC names the folder that holds `crates/minirust-rs/src`;
//! without it, it is looked for beside the project, in ../shared/docs/src.

use std::path::PathBuf;

fn main() {
    println!("cargo:rerun-if-env-changed=MINIRUST_SRC");
    let here = PathBuf::from(std::env::var("CARGO_MANIFEST_DIR").expect("cargo sets it"));
    let beside = here.join("../../../shared/docs/src");
    let root = std::env::var("MINIRUST_SRC").map_or(beside, PathBuf::from);
    let source = root.join("crates/minirust-rs/src");
    let source = source
        .canonicalize()
        .unwrap_or_else(|_| panic!("{} is not there: set MINIRUST_SRC", source.display()));
    for file in ["mem.rs", "prelude.rs"] {
        println!("cargo:rerun-if-changed={}", source.join(file).display());
    }
    println!("cargo:rustc-env=MINIRUST_FILES={}", source.display());
}
