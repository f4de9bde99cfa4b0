//! Links libironsimmer.a, from the folder that IRONSIMMER_LIB names or else from where ./archive writes it.

use std::env;
use std::path::PathBuf;

const VARIABLE: &str = "IRONSIMMER_LIB";

fn folder() -> PathBuf {
    let crate_folder = PathBuf::from(env::var_os("CARGO_MANIFEST_DIR").expect("Cargo names the crate's folder"));
    match env::var_os(VARIABLE) {
        Some(named) => crate_folder.join(named),
        None => crate_folder.join("../../target/staticlib"),
    }
}

fn main() {
    let folder = folder();
    let archive = folder.join("libironsimmer.a");
    println!("cargo:rerun-if-env-changed={VARIABLE}");
    println!("cargo:rerun-if-changed={}", archive.display());
    assert!(
        archive.is_file(),
        "{} is not there: run ./archive at the repository's root, or name the archive's folder in {VARIABLE}",
        archive.display()
    );
    println!("cargo:rustc-link-search=native={}", folder.display());
    println!("cargo:rustc-link-lib=static=ironsimmer");
}
