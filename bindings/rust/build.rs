//! Links libfikzarn.a, from the directory that FIKZARN_LIB_DIR names or else from the repository's target/staticlib.
use std::env;

fn main() {
    let here = env::var("CARGO_MANIFEST_DIR").expect("cargo sets it");
    let directory = env::var("FIKZARN_LIB_DIR").unwrap_or_else(|_| format!("{here}/../../target/staticlib"));
    println!("cargo:rustc-link-search=native={directory}");
    println!("cargo:rustc-link-lib=static=fikzarn");
    println!("cargo:rerun-if-changed={directory}/libfikzarn.a");
    println!("cargo:rerun-if-env-changed=FIKZARN_LIB_DIR");
}
