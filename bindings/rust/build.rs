//! Links libaccudrina.a, from ACCUDRINA_LIB_DIR or from where `scripts/archive accudrina` puts it.
use std::{env, path::PathBuf};

fn main() {
    println!("cargo:rerun-if-env-changed=ACCUDRINA_LIB_DIR");
    let dir = env::var_os("ACCUDRINA_LIB_DIR")
        .map_or_else(|| PathBuf::from(env::var_os("CARGO_MANIFEST_DIR").unwrap()).join("../../target/staticlib"), PathBuf::from);
    let archive = dir.join("libaccudrina.a");
    if !archive.exists() {
        panic!("{} is missing: run `scripts/archive accudrina`, or set ACCUDRINA_LIB_DIR", archive.display());
    }
    println!("cargo:rerun-if-changed={}", archive.display());
    println!("cargo:rustc-link-search=native={}", dir.display());
    println!("cargo:rustc-link-lib=static=accudrina");
}
