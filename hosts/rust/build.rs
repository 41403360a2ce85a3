//! Links the proved static library libraimsklo.a: from the folder that RAIMSKLO_ARCHIVE names, or else from
//! target/staticlib of the nearest folder above this one that has it.

use std::path::{Path, PathBuf};
use std::{env, process};

fn archive_in(folder: &Path) -> PathBuf {
    folder.join("libraimsklo.a")
}

fn main() {
    println!("cargo:rerun-if-env-changed=RAIMSKLO_ARCHIVE");
    let here = PathBuf::from(env::var_os("CARGO_MANIFEST_DIR").expect("cargo says where the crate is"));
    let folder = match env::var_os("RAIMSKLO_ARCHIVE") {
        Some(named) => {
            // a relative path is read from here, so it is told and handed on as a whole
            let folder = here.join(named);
            if !archive_in(&folder).exists() {
                missing(&format!("RAIMSKLO_ARCHIVE names {}, which has no libraimsklo.a", folder.display()));
            }
            folder
        }
        None => here
            .ancestors()
            .map(|above| above.join("target/staticlib"))
            .find(|folder| archive_in(folder).exists())
            .unwrap_or_else(|| missing(&format!("no target/staticlib/libraimsklo.a from {} upwards", here.display()))),
    };
    println!("cargo:rerun-if-changed={}", archive_in(&folder).display());
    println!("cargo:rustc-link-search=native={}", folder.display());
    println!("cargo:rustc-link-lib=static=raimsklo");
}

fn missing(what: &str) -> ! {
    eprintln!("raimsklo: the proved static library is missing: {what}.");
    eprintln!("In the repository `bash tools/library raimsklo` makes it; RAIMSKLO_ARCHIVE=FOLDER names another place.");
    process::exit(1);
}
