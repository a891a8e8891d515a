//! Hands libghozrembu.a to the linker, for the binary `second` alone: the library of references, its tests
//! and the binary `files` are built without it. The archive's folder is GHOZREMBU_LIB, or target/lib of the
//! repository, where `./ghozrembu library` leaves it.

use std::env;
use std::path::PathBuf;

fn main() {
    let here = PathBuf::from(env::var("CARGO_MANIFEST_DIR").expect("cargo sets it"));
    let folder = match env::var("GHOZREMBU_LIB") {
        Ok(given) => PathBuf::from(given),
        Err(_) => here.join("../../target/lib"),
    };
    let archive = folder.join("libghozrembu.a");
    println!("cargo:rerun-if-env-changed=GHOZREMBU_LIB");
    println!("cargo:rerun-if-changed=build.rs");
    println!("cargo:rerun-if-changed={}", archive.display());
    println!("cargo:rustc-link-arg-bin=second={}", archive.display());
}
