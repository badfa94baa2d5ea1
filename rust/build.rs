//! Finds the C library: in the folder that `RDFAX_LIB_DIR` names, or by `pkg-config`.
//!
//! A folder's static library is taken before its shared one; of an installed library the shared one is, unless
//! `RDFAX_STATIC` is set. `PKG_CONFIG` names another program in `pkg-config`'s place.

use std::env;
use std::path::Path;
use std::process::{self, Command};

/// The first version that has the calls of this crate.
const LIBRARY: &str = "rdfax >= 0.1";

const HOW: &str =
    "install rdfax's C library (./install in its sources, or the package librdfax-dev), or set RDFAX_LIB_DIR to the folder of librdfax.a";

fn main() {
    for name in ["RDFAX_LIB_DIR", "RDFAX_STATIC", "PKG_CONFIG", "PKG_CONFIG_PATH"] {
        println!("cargo:rerun-if-env-changed={name}");
    }
    println!("cargo:rerun-if-changed=build.rs");
    match env::var("RDFAX_LIB_DIR") {
        Ok(folder) => link_folder(Path::new(&folder)),
        Err(_) => link_installed(),
    }
}

fn link_folder(folder: &Path) {
    let kind = if folder.join("librdfax.a").is_file() {
        "static"
    } else if folder.join("librdfax.so").is_file() {
        "dylib"
    } else {
        fail(&format!("RDFAX_LIB_DIR is {}, where neither librdfax.a nor librdfax.so is", folder.display()));
    };
    println!("cargo:rerun-if-changed={}", folder.display());
    println!("cargo:rustc-link-search=native={}", folder.display());
    println!("cargo:rustc-link-lib={kind}=rdfax");
}

fn link_installed() {
    let flags = pkg_config(&["--libs", LIBRARY]);
    let kind = if env::var_os("RDFAX_STATIC").is_some() { "static" } else { "dylib" };
    for folder in flags.split_whitespace().filter_map(|flag| flag.strip_prefix("-L")) {
        println!("cargo:rustc-link-search=native={folder}");
    }
    if kind == "static" {
        // (pkg-config leaves out the system's folders, in which rustc looks for no static library)
        println!("cargo:rustc-link-search=native={}", pkg_config(&["--variable=libdir", "rdfax"]).trim());
    }
    println!("cargo:rustc-link-lib={kind}=rdfax");
}

/// What `pkg-config` answers to these words.
fn pkg_config(words: &[&str]) -> String {
    let program = env::var("PKG_CONFIG").unwrap_or_else(|_| "pkg-config".into());
    let answer = Command::new(&program).args(words).output().unwrap_or_else(|error| fail(&format!("{program}: {error}")));
    if !answer.status.success() {
        fail(&format!("{program} finds no {LIBRARY}"));
    }
    String::from_utf8_lossy(&answer.stdout).into_owned()
}

/// Ends the build with one line.
fn fail(why: &str) -> ! {
    eprintln!("{why}; {HOW}");
    process::exit(70)
}
