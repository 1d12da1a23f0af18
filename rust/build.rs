//! Links the proved library: rust/archive writes it to target/staticlib of the repository, for x86-64. PELDAROX_ARCHIVE names
//! another archive.
use std::{env, path::Path, path::PathBuf, process::exit};

fn main() {
    println!("cargo:rerun-if-env-changed=PELDAROX_ARCHIVE");
    let archive = match env::var_os("PELDAROX_ARCHIVE") {
        Some(path) => PathBuf::from(path),
        None => Path::new(env!("CARGO_MANIFEST_DIR")).join("../target/staticlib/libpeldarox.a"),
    };
    println!("cargo:rerun-if-changed={}", archive.display());
    if !archive.is_file() {
        eprintln!("{} is missing: rust/archive proves and writes it", archive.display());
        exit(1);
    }
    println!("cargo:rustc-link-search=native={}", archive.parent().unwrap_or(Path::new(".")).display());
    println!("cargo:rustc-link-lib=static=peldarox");
}
