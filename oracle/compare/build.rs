//! Links our functions for comparisons, from the static libraries that `tools/library` makes.

use std::path::{Path, PathBuf};

fn main() {
    let here = PathBuf::from(std::env::var("CARGO_MANIFEST_DIR").unwrap());
    let repository = here.parent().and_then(Path::parent).expect("oracle/compare stands in a repository");
    let folder = repository.join("target/staticlib");
    println!("cargo:rerun-if-changed=build.rs");
    println!("cargo:rustc-link-search=native={}", folder.display());
    let archive = folder.join("libprobe.a");
    println!("cargo:rerun-if-changed={}", archive.display());
    if !archive.exists() {
        let told = archive.display();
        eprintln!("oracle: {told} is not there: `bash oracle/run` makes it, or `bash tools/library probe`");
        std::process::exit(1);
    }
    println!("cargo:rustc-link-lib=static=probe");
}
