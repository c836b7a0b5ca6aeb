//! Links `libcapi.a`, `libcapi_keeper.a` and `libcapi_values.a`, the proved library: from the folder that `KITSORIQU_LIB_DIR` names,
//! else from where `tools/archives` writes them.
use std::env;
use std::path::{Path, PathBuf};
use std::process::exit;

/// Links an archive of the folder, and names it to the tests that compile C.
fn link(dir: &Path, name: &str, variable: &str) {
    let archive = dir.join(format!("lib{name}.a"));
    println!("cargo:rerun-if-changed={}", archive.display());
    if !archive.is_file() {
        eprintln!("{} is missing.", archive.display());
        eprintln!("Run `tools/archives {name}` in the repository's root to build it, or name its folder in KITSORIQU_LIB_DIR.");
        exit(1);
    }
    println!("cargo:rustc-link-lib=static={name}");
    println!("cargo:rustc-env={variable}={}", archive.display());
}

fn main() {
    println!("cargo:rerun-if-env-changed=KITSORIQU_LIB_DIR");
    let dir = match env::var_os("KITSORIQU_LIB_DIR") {
        Some(dir) => PathBuf::from(dir),
        None => PathBuf::from(env::var_os("CARGO_MANIFEST_DIR").unwrap()).join("../../target/staticlib"),
    };
    println!("cargo:rustc-link-search=native={}", dir.display());
    link(&dir, "capi", "KITSORIQU_ARCHIVE");
    link(&dir, "capi_keeper", "KITSORIQU_KEEPER_ARCHIVE");
    link(&dir, "capi_values", "KITSORIQU_VALUES_ARCHIVE");
}
