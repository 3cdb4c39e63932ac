//! Links `libsefgrunn.a` from the directory that SEFGRUNN_LIB_DIR names, or else from where
//! `tools/library` writes it beside this package.

use std::env;
use std::path::{Path, PathBuf};

fn main() {
    println!("cargo:rerun-if-changed=build.rs");
    println!("cargo:rerun-if-env-changed=SEFGRUNN_LIB_DIR");
    let package = env::var_os("CARGO_MANIFEST_DIR").expect("cargo names the package's directory");
    let dir = match env::var_os("SEFGRUNN_LIB_DIR") {
        Some(dir) => PathBuf::from(dir),
        None => Path::new(&package).join("../target/staticlib"),
    };
    let library = dir.join("libsefgrunn.a");
    assert!(
        library.is_file(),
        "{} does not exist: run 'tools/library', or name its directory in SEFGRUNN_LIB_DIR",
        library.display()
    );
    let dir = dir.canonicalize().expect("a directory that exists has a path");
    println!("cargo:rustc-link-search=native={}", dir.display());
    println!("cargo:rustc-link-lib=static=sefgrunn");
    println!("cargo:rerun-if-changed={}", library.display());
}
