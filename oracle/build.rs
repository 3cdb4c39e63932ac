//! Links the port's static library, only where the feature `linked` asks for it.

use std::env;

fn main() {
    println!("cargo:rerun-if-changed=build.rs");
    println!("cargo:rerun-if-env-changed=SEFGRUNN_LIB_DIR");
    if env::var_os("CARGO_FEATURE_LINKED").is_some() {
        let dir = env::var("SEFGRUNN_LIB_DIR")
            .expect("SEFGRUNN_LIB_DIR must name the directory of libsefgrunn.a");
        println!("cargo:rustc-link-search=native={dir}");
        println!("cargo:rustc-link-lib=static=sefgrunn");
        println!("cargo:rerun-if-changed={dir}/libsefgrunn.a");
    }
}
