//! Links crates/boundary/out/libboundary.a, which `rt lib` makes in crates/boundary.

use std::path::Path;

fn main() {
    let folder = Path::new(env!("CARGO_MANIFEST_DIR")).join("../../crates/boundary/out");
    let library = folder.join("libboundary.a");
    assert!(library.exists(), "{} is not there: run `rt lib` in crates/boundary first", library.display());
    println!("cargo::rerun-if-changed={}", library.display());
    println!("cargo::rustc-link-search=native={}", folder.display());
    println!("cargo::rustc-link-lib=static=boundary");
}
