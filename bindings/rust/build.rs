//! Finds libkendwyra.a: in the folder that KENDWYRA_LIB names, else in the repository's target/staticlib.

use std::env;
use std::path::{Path, PathBuf};
use std::process::exit;

fn folder() -> PathBuf {
    let here = env::var_os("CARGO_MANIFEST_DIR").unwrap_or_default();
    let named = env::var_os("KENDWYRA_LIB").unwrap_or_else(|| "../../target/staticlib".into());
    Path::new(&here).join(named)
}

fn main() {
    let library = folder().join("libkendwyra.a");
    println!("cargo:rerun-if-env-changed=KENDWYRA_LIB");
    println!("cargo:rerun-if-changed={}", library.display());
    if !library.is_file() {
        eprintln!("kendwyra: there is no {}.", library.display());
        eprintln!("Run `tools/archives` at the repository's top, or set KENDWYRA_LIB to the folder of libkendwyra.a.");
        exit(1);
    }
    println!("cargo:rustc-link-search=native={}", folder().display());
    println!("cargo:rustc-link-lib=static=kendwyra");
}
