//! Tells the linker where libcertis.a is: the directory in CERTIS_LIB, which `./library` makes.
//!
//! `src/face.rs` asks for the library itself (`static=certis`), so only the two
//! runners link it; the reference and its tests build without CERTIS_LIB.

use std::env;
use std::path::Path;
use std::process;

fn main() {
    println!("cargo:rerun-if-changed=build.rs");
    println!("cargo:rerun-if-env-changed=CERTIS_LIB");
    let Ok(directory) = env::var("CERTIS_LIB") else {
        return;
    };
    let archive = Path::new(&directory).join("libcertis.a");
    if !archive.is_file() {
        eprintln!("CERTIS_LIB ({directory}) has no libcertis.a; it must be an absolute path");
        process::exit(1);
    }
    // A rebuilt archive has to be linked again.
    println!("cargo:rerun-if-changed={}", archive.display());
    println!("cargo:rustc-link-search=native={directory}");
}
