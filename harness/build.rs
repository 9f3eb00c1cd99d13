//! Finds what the harness compares with: the Rust rule checker (the oracle) and the Rattle library.
//! Each may be missing; the package builds without it, and what needs it says that it is skipped.

use std::path::{Path, PathBuf};
use std::{env, fs};

fn main() {
    println!("cargo::rustc-check-cfg=cfg(keel)");
    println!("cargo::rustc-check-cfg=cfg(sarwymp)");
    println!("cargo::rerun-if-env-changed=KEEL_SRC");
    println!("cargo::rerun-if-env-changed=SARWYMP_LIB");
    println!("cargo::rerun-if-changed=build.rs");
    let here = PathBuf::from(env::var_os("CARGO_MANIFEST_DIR").unwrap());
    let root = here.parent().unwrap();
    oracle(root);
    library(root);
}

/// The oracle's files are compiled where they lie: KEEL_SRC names their folder (seen from the repository's root).
fn oracle(root: &Path) {
    let folder = env::var_os("KEEL_SRC").map_or("../shared/docs/src/keel/src".into(), PathBuf::from);
    let folder = root.join(folder);
    let names = ["model", "derive", "charset", "check"];
    let paths = names.map(|name| folder.join(format!("{name}.rs")));
    let mut modules = String::new();
    for (name, path) in names.iter().zip(&paths) {
        println!("cargo::rerun-if-changed={}", path.display());
        modules += &format!("#[allow(warnings, clippy::all)]\n#[path = {path:?}]\npub mod {name};\n");
    }
    if paths.iter().all(|path| path.is_file()) {
        println!("cargo::rustc-cfg=keel");
        let out = PathBuf::from(env::var_os("OUT_DIR").unwrap()).join("keel.rs");
        fs::write(out, modules).unwrap();
    }
}

/// SARWYMP_LIB names the folder that holds libexports.a (seen from the repository's root).
fn library(root: &Path) {
    let Some(folder) = env::var_os("SARWYMP_LIB") else { return };
    let folder = root.join(folder);
    let file = folder.join("libexports.a");
    println!("cargo::rerun-if-changed={}", file.display());
    assert!(file.is_file(), "SARWYMP_LIB: there is no {}", file.display());
    println!("cargo::rustc-cfg=sarwymp");
    println!("cargo::rustc-link-search=native={}", folder.display());
    println!("cargo::rustc-link-lib=static=exports");
}
