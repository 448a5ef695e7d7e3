//! Links the proved library. TREE_BORROWS_LIB names the folder that holds libtree_borrows.a; without it, it is looked
//! for where `rt lib` leaves it in crates/tree_borrows.

use std::path::PathBuf;

fn main() {
    println!("cargo:rerun-if-env-changed=TREE_BORROWS_LIB");
    let here = PathBuf::from(std::env::var("CARGO_MANIFEST_DIR").expect("cargo sets it"));
    let folder = std::env::var("TREE_BORROWS_LIB").map_or(here.join("../../crates/tree_borrows/out"), PathBuf::from);
    let archive = folder.join("libtree_borrows.a");
    assert!(archive.exists(), "{} is not there: rt lib in crates/tree_borrows", archive.display());
    println!("cargo:rerun-if-changed={}", archive.display());
    println!("cargo:rustc-link-search=native={}", folder.display());
    println!("cargo:rustc-link-lib=static=tree_borrows");
}
