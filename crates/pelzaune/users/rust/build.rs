//! Links libpelzaune.a from the folder PELZAUNE_LIB, or else from lib, or from where `make -C crates/pelzaune` builds
//! it.
use std::path::{Path, PathBuf};

fn main() {
    let here = Path::new(env!("CARGO_MANIFEST_DIR"));
    let folder = match std::env::var_os("PELZAUNE_LIB") {
        Some(folder) => PathBuf::from(folder),
        None if here.join("lib").is_dir() => here.join("lib"),
        None => here.join("../../out"),
    };
    let archive = folder.join("libpelzaune.a");
    println!("cargo:rerun-if-env-changed=PELZAUNE_LIB");
    println!("cargo:rerun-if-changed={}", archive.display());
    assert!(archive.is_file(), "no {}: run make in crates/pelzaune, or set PELZAUNE_LIB", archive.display());
    println!("cargo:rustc-link-search=native={}", folder.display());
    println!("cargo:rustc-link-lib=static=pelzaune");
}
