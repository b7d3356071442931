//! Links libwolamivens.a from the folder that WOLAMIVENS_DIR names, or from where
//! bindings/library.sh writes it.

use std::env;
use std::path::Path;

fn main() {
    let own = concat!(env!("CARGO_MANIFEST_DIR"), "/../../target/staticlib");
    let folder = env::var("WOLAMIVENS_DIR").unwrap_or_else(|_| own.into());
    let library = format!("{folder}/libwolamivens.a");
    assert!(
        Path::new(&library).exists(),
        "{library} is not there: bindings/library.sh writes it"
    );
    println!("cargo:rerun-if-env-changed=WOLAMIVENS_DIR");
    println!("cargo:rerun-if-changed={library}");
    println!("cargo:rustc-link-search=native={folder}");
    println!("cargo:rustc-link-lib=static=wolamivens");
}
