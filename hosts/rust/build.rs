//! Links the static library that `tools/library` builds. SHOFRAKIN_LIB names another folder with a libexports.a; the default is
//! the repository's crates/exports/out.
use std::{env, path::Path};

fn main() {
    println!("cargo:rerun-if-changed=build.rs");
    println!("cargo:rerun-if-env-changed=SHOFRAKIN_LIB");
    let lib = env::var("SHOFRAKIN_LIB").unwrap_or_else(|_| format!("{}/../../crates/exports/out", env!("CARGO_MANIFEST_DIR")));
    let archive = format!("{lib}/libexports.a");
    println!("cargo:rerun-if-changed={archive}");
    assert!(Path::new(&archive).exists(), "no {archive}: run tools/library first, or name its folder in SHOFRAKIN_LIB");
    println!("cargo:rustc-link-search=native={lib}");
    println!("cargo:rustc-link-lib=static=exports");
}
