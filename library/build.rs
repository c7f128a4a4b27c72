//! Links the proved library, `libregister.a`, which `.ci/archive` writes.

use std::env;
use std::path::PathBuf;

/// Names another folder that has `libregister.a`.
const FOLDER: &str = "REGISTER_LIBRARY";

fn main() {
    let manifest = env::var("CARGO_MANIFEST_DIR").expect("cargo says where the package is");
    let folder = match env::var(FOLDER) {
        Ok(folder) => PathBuf::from(folder),
        Err(_) => PathBuf::from(manifest).join("../target/staticlib"),
    };
    let archive = folder.join("libregister.a");
    println!("cargo:rerun-if-env-changed={FOLDER}");
    println!("cargo:rerun-if-changed={}", archive.display());
    if !archive.is_file() {
        eprintln!("error: {} is missing", archive.display());
        eprintln!("       make it with `.ci/archive`, or name its folder in {FOLDER}");
        std::process::exit(1);
    }
    println!("cargo:rustc-link-search=native={}", folder.display());
    println!("cargo:rustc-link-lib=static=register");
}
