//! Links the proved library where it has been built: rust/archive writes it to target/staticlib of the repository.
//! PELDAROX_ARCHIVE names another archive. Without one for this machine, the crate and the model are compared alone.
use std::{env, fs, path::Path, path::PathBuf};

fn main() {
    println!("cargo:rustc-check-cfg=cfg(ours)");
    println!("cargo:rustc-check-cfg=cfg(ours_print)");
    println!("cargo:rustc-check-cfg=cfg(ours_lex)");
    println!("cargo:rustc-check-cfg=cfg(ours_store)");
    println!("cargo:rerun-if-env-changed=PELDAROX_ARCHIVE");
    let archive = match env::var_os("PELDAROX_ARCHIVE") {
        Some(path) => PathBuf::from(path),
        None => Path::new(env!("CARGO_MANIFEST_DIR")).join("../target/staticlib/libpeldarox.a"),
    };
    println!("cargo:rerun-if-changed={}", archive.display());
    let Ok(bytes) = fs::read(&archive) else { return };
    if !names(&bytes, "peldarox_read_replacements") {
        return;
    }
    if !is_for_this_machine(&bytes) {
        println!("cargo:warning={} is for another machine, and not linked", archive.display());
        return;
    }
    println!("cargo:rustc-cfg=ours");
    if names(&bytes, "peldarox_print") && names(&bytes, "peldarox_name") {
        println!("cargo:rustc-cfg=ours_print");
    }
    if names(&bytes, "peldarox_lex_start") {
        println!("cargo:rustc-cfg=ours_lex");
    }
    if names(&bytes, "peldarox_store") && names(&bytes, "peldarox_load") {
        println!("cargo:rustc-cfg=ours_store");
    }
    println!("cargo:rustc-link-search=native={}", archive.parent().unwrap().display());
    println!("cargo:rustc-link-lib=static=peldarox");
}

/// Whether an archive has a symbol of this name.
fn names(archive: &[u8], symbol: &str) -> bool {
    find(archive, format!("{}\0", symbol).as_bytes()).is_some()
}

/// Whether an archive's first object is for the machine that is compiled for.
fn is_for_this_machine(archive: &[u8]) -> bool {
    let machine = match env::var("CARGO_CFG_TARGET_ARCH").as_deref() {
        Ok("x86_64") => 62,
        Ok("aarch64") => 183,
        _ => return false,
    };
    find(archive, b"\x7FELF").is_some_and(|at| archive.get(at + 18) == Some(&machine))
}

fn find(bytes: &[u8], wanted: &[u8]) -> Option<usize> {
    bytes.windows(wanted.len()).position(|part| part == wanted)
}
