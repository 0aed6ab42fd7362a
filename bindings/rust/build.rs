//! Links libfendruscla.a, from the folder that FENDRUSCLA_LIB names or from target/ of the repository, where `make archive` puts it. Where it
//! is missing a warning says what to do: checking, documentation and lints do without it, and what is linked fails after the warning.

use std::env;
use std::path::PathBuf;

fn main() {
    println!("cargo:rerun-if-env-changed=FENDRUSCLA_LIB");
    println!("cargo:rerun-if-changed=build.rs");
    let here = env::var("CARGO_MANIFEST_DIR").expect("cargo names the package's folder");
    let folder = match env::var("FENDRUSCLA_LIB") {
        Ok(named) => PathBuf::from(named),
        Err(_) => PathBuf::from(here).join("../../target"),
    };
    let archive = folder.join("libfendruscla.a");
    println!("cargo:rerun-if-changed={}", archive.display());
    if !archive.is_file() {
        println!("cargo:warning=there is no {}: `make archive` in the repository's root makes it", archive.display());
        println!("cargo:warning=FENDRUSCLA_LIB names another folder; without the archive the crate is checked and documented, but not linked");
    }
    println!("cargo:rustc-link-search=native={}", folder.display());
    println!("cargo:rustc-link-lib=static=fendruscla");
}
