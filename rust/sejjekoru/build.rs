//! Links the library: from the folder that SEJJEKORU_LIBRARY_DIR names, as a packaged copy needs it, else from where `./build-library` writes it.

use std::env;
use std::path::{Path, PathBuf};

fn main() {
    let named = env::var_os("SEJJEKORU_LIBRARY_DIR").map(PathBuf::from);
    let folder = named.unwrap_or_else(|| Path::new(env!("CARGO_MANIFEST_DIR")).join("../../build"));
    let library = folder.join("libsejjekoru.a");
    println!("cargo:rerun-if-env-changed=SEJJEKORU_LIBRARY_DIR");
    println!("cargo:rerun-if-changed={}", library.display());
    if !library.exists() {
        println!("cargo:warning={} is not there: run ./build-library, or name its folder in SEJJEKORU_LIBRARY_DIR", library.display());
    }
    println!("cargo:rustc-link-search=native={}", folder.display());
    println!("cargo:rustc-link-lib=static=sejjekoru");
}
