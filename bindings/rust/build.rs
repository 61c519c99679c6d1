//! Links libstation.a: from the folder that `KAORI_ARCHIVE` names, or from where bindings/archive writes it.
use std::{env, path::PathBuf};

fn main() {
    println!("cargo::rerun-if-env-changed=KAORI_ARCHIVE");
    let folder = match env::var_os("KAORI_ARCHIVE") {
        Some(folder) => PathBuf::from(folder),
        None => PathBuf::from(env::var_os("CARGO_MANIFEST_DIR").unwrap()).join("../../target/archive"),
    };
    let archive = folder.join("libstation.a");
    assert!(archive.is_file(), "{} is missing: bindings/archive writes it", archive.display());
    println!("cargo::rerun-if-changed={}", archive.display());
    println!("cargo::rustc-link-search=native={}", folder.display());
    println!("cargo::rustc-link-lib=static=station");
}
