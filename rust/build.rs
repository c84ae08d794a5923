//! Links the archive that `crates/kusillaqe_c/archive` makes.

use std::path::PathBuf;

fn main() {
    let here = PathBuf::from(std::env::var("CARGO_MANIFEST_DIR").expect("cargo sets it"));
    let repository = here.parent().expect("the wrapper stands in the repository");
    let folder = repository.join("target/staticlib");
    let archive = folder.join("libkusillaqe.a");
    println!("cargo::rerun-if-changed={}", archive.display());
    if !archive.is_file() {
        let (archive, repository) = (archive.display(), repository.display());
        println!("cargo::error={archive} is not there: `{repository}/crates/kusillaqe_c/archive` proves and makes it");
        return;
    }
    println!("cargo::rustc-link-search=native={}", folder.display());
    println!("cargo::rustc-link-lib=static=kusillaqe");
}
