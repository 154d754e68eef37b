//! Finds the proved library in the repository that this crate stands in.
use std::path::Path;

fn main() {
    let folder = Path::new(env!("CARGO_MANIFEST_DIR")).join("../../target/staticlib");
    let library = folder.join("libpaumelu.a");
    println!("cargo::rerun-if-changed={}", library.display());
    if library.is_file() {
        println!("cargo::rustc-link-search=native={}", folder.display());
        println!("cargo::rustc-link-lib=static=paumelu");
    } else {
        println!("cargo::error=target/staticlib/libpaumelu.a is missing: run host/library at the top of the repository");
    }
}
