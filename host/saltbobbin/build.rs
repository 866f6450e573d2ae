//! Finds libexports.a, the proved library of crates/exports, and has cargo link it.
use std::{
    env,
    path::{Path, PathBuf},
};

/// The variable that names another folder for the archive than the repository's crates/exports/out.
const FOLDER: &str = "SALTBOBBIN_STATICLIB";

fn main() {
    println!("cargo::rerun-if-env-changed={FOLDER}");
    let named = env::var_os(FOLDER).map(PathBuf::from);
    // a folder that is named may have the bridge of host/emulated, which is for other processors
    if named.is_none() && [target("ARCH"), target("OS")] != ["x86_64", "linux"] {
        println!(
            "cargo::error=The proved libexports.a links into programs for x86-64 Linux alone: \
             host/emulated/README.md says how to call it from another processor."
        );
        return;
    }
    let folder = named.unwrap_or_else(default_folder);
    let archive = folder.join("libexports.a");
    println!("cargo::rerun-if-changed={}", archive.display());
    if !archive.is_file() {
        println!(
            "cargo::error=There is no {}: run `make exports` (or `rt lib` in crates/exports) in the repository, \
             or set {FOLDER} to the folder that has it.",
            archive.display()
        );
        return;
    }
    println!("cargo::rustc-link-search=native={}", folder.display());
    println!("cargo::rustc-link-lib=static=exports");
    // tests/declarations.rs looks for the archive's sources from here
    println!("cargo::rustc-env={FOLDER}={}", folder.display());
}

/// host/saltbobbin stands in the repository, and `rt lib` in its crates/exports writes to out/ there.
fn default_folder() -> PathBuf {
    let package = variable("CARGO_MANIFEST_DIR");
    let repository = Path::new(&package).ancestors().nth(2).expect("two folders up");
    repository.join("crates/exports/out")
}

fn target(what: &str) -> String {
    variable(&format!("CARGO_CFG_TARGET_{what}"))
}

fn variable(name: &str) -> String {
    env::var(name).unwrap_or_else(|_| panic!("cargo sets {name}"))
}
