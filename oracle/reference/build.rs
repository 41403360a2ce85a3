//! Reads the published source where it lies and writes it, with the changes stated here, to OUT_DIR.
//! Each replacement and each cut must match exactly as often as it says; otherwise the build stops.
//! The folder is ../shared/docs/src beside the repository, or what RAIMSKLO_REFERENCE names.

use std::path::{Path, PathBuf};
use std::{env, fs, process};

/// The modules that are built, and where each stands: the published ones beside this file in OUT_DIR.
const MODULES: &str = "\
pub mod dense;
pub mod error;
pub mod ivp;
#[allow(dead_code)]
pub mod methods;
pub mod solout;
pub mod status;
pub mod matrix {
    mod base;
    pub use base::{Matrix, MatrixStorage};
}
pub mod solve {
    mod options;
    pub use options::JacobianSource;
    pub mod event {
        pub use crate::stand_ins::EventConfig;
    }
}
";

/// Taken as they are published.
const UNCHANGED: [&str; 6] = ["dense.rs", "error.rs", "ivp.rs", "matrix/base.rs", "solout.rs", "status.rs"];

/// The places where lsoda.rs calls `powf`.
const POWERS: usize = 11;

fn main() {
    let here = PathBuf::from(env::var("CARGO_MANIFEST_DIR").unwrap());
    let repository = here.parent().and_then(Path::parent).expect("oracle/reference stands in a repository");
    println!("cargo:rerun-if-changed=build.rs");
    println!("cargo:rerun-if-env-changed=RAIMSKLO_REFERENCE");
    let published = match env::var_os("RAIMSKLO_REFERENCE") {
        Some(folder) => PathBuf::from(folder),
        None => repository.join("../shared/docs/src"),
    };
    let out = PathBuf::from(env::var("OUT_DIR").unwrap());

    for name in UNCHANGED {
        write(&out, name, read(&published, name).text);
    }
    write(&out, "methods/lsoda.rs", lsoda(&published, &here));
    write(&out, "methods/mod.rs", methods(&published));
    write(&out, "solve/options.rs", options(&published));
    write(&out, "published.rs", MODULES.to_string());
    link(repository, "raimsklo");
}

/// The loop of `stoda` that adds the correction to the history's columns, which is no function there, and what
/// follows it.
const CORRECTION: [&str; 2] = [
    "for j in 0..state.l {\n            for i in 0..state.n {\n                work.yh[i + j * state.n] +=",
    "\n\n        state.icount -= 1;\n",
];

/// The solver: each `powf` is served by our root, and the comparisons reach its private functions through `reach`.
/// The lines that add the correction stand a second time, as a function.
fn lsoda(published: &Path, here: &Path) -> String {
    let mut source = read(published, "methods/lsoda.rs");
    source.must_have("powf", POWERS);
    source.replace(".powf(", ".power_by_root(", POWERS);
    source.must_have("mod reach", 0);
    source.must_have("correct_columns", 0);
    let correction = source.from_to(CORRECTION[0], CORRECTION[1]).to_string();
    source.text.push_str(&format!(
        "\nuse crate::root::PowerByRoot as _;\n\n\
        fn correct_columns(state: &Common, work: &mut Work) {{\n        {correction}\n}}\n\n\
        #[path = {:?}]\npub mod reach;\n",
        here.join("src/reach.rs")
    ));
    println!("cargo:rerun-if-changed=src/reach.rs");
    source.text
}

/// The shared types of the methods, without the methods that are not to be had.
fn methods(published: &Path) -> String {
    let mut source = read(published, "methods/mod.rs");
    source.must_have("\nmod lsoda;\n", 1);
    source.must_have("\npub use lsoda::LSODA;\n", 1);
    let declarations = "pub mod lsoda;\npub use lsoda::LSODA;\n\n";
    source.replace_from_to("// First-order methods.\n", "use crate::{Float,", declarations);
    source.text
}

/// Of the options only the choice of the Jacobian's source: the rest names methods that are not to be had.
fn options(published: &Path) -> String {
    let mut source = read(published, "solve/options.rs");
    source.replace_from_to("use crate::{\n", "/// Selects how a first-order solver", "");
    let rest = source.only("/// Internal options for first-order solving.\n");
    source.text.truncate(rest);
    source.must_have("pub enum JacobianSource", 1);
    source.text
}

struct Source {
    name: String,
    text: String,
}

impl Source {
    fn must_have(&self, what: &str, times: usize) {
        let found = self.text.matches(what).count();
        if found != times {
            stop(&format!("{}: {what:?} occurs {found} times, and {times} were expected", self.name));
        }
    }

    fn replace(&mut self, old: &str, new: &str, times: usize) {
        self.must_have(old, times);
        self.text = self.text.replace(old, new);
    }

    /// Where the only occurrence begins.
    fn only(&self, what: &str) -> usize {
        self.must_have(what, 1);
        self.text.find(what).unwrap()
    }

    /// Where what stands from one marker up to the next begins and ends. Each occurs once.
    fn range(&self, from: &str, to: &str) -> std::ops::Range<usize> {
        let (start, end) = (self.only(from), self.only(to));
        if end < start {
            stop(&format!("{}: {to:?} stands before {from:?}", self.name));
        }
        start..end
    }

    fn from_to(&self, from: &str, to: &str) -> &str {
        &self.text[self.range(from, to)]
    }

    /// What stands from one marker up to the next, which stays, is replaced.
    fn replace_from_to(&mut self, from: &str, to: &str, new: &str) {
        let range = self.range(from, to);
        self.text.replace_range(range, new);
    }
}

fn read(published: &Path, name: &str) -> Source {
    let path = published.join("src").join(name);
    println!("cargo:rerun-if-changed={}", path.display());
    match fs::read_to_string(&path) {
        Ok(text) => Source { name: name.to_string(), text },
        Err(error) => stop(&format!("the published source is not there: {}: {error}", path.display())),
    }
}

fn write(out: &Path, name: &str, text: String) {
    let path = out.join(name);
    fs::create_dir_all(path.parent().unwrap()).unwrap();
    fs::write(path, text).unwrap();
}

/// Our own functions, from the static library that `tools/library` makes.
fn link(repository: &Path, library: &str) {
    let folder = repository.join("target/staticlib");
    let archive = folder.join(format!("lib{library}.a"));
    println!("cargo:rerun-if-changed={}", archive.display());
    if !archive.exists() {
        let told = archive.display();
        stop(&format!("{told} is not there: `bash oracle/run` makes it, or `bash tools/library {library}`"));
    }
    println!("cargo:rustc-link-search=native={}", folder.display());
    println!("cargo:rustc-link-lib=static={library}");
}

fn stop(message: &str) -> ! {
    eprintln!("oracle: {message}");
    process::exit(1);
}
