//! Finds the archive of the proved engine, and stops where it is missing.
use std::env;
use std::path::{Path, PathBuf};

fn main() {
    println!("cargo::rerun-if-env-changed=WIPTURAY_LIB");
    let folder = match env::var_os("WIPTURAY_LIB") {
        Some(folder) => PathBuf::from(folder),
        None => Path::new(env!("CARGO_MANIFEST_DIR")).join("../../crates/llc_exports/out"),
    };
    let archive = folder.join("libllc_exports.a");
    let Ok(archive) = archive.canonicalize() else {
        println!(
            "cargo::error=there is no {}: make it by `python3 tools/build llc_exports` in the repository, or set WIPTURAY_LIB to \
             the folder that has it",
            archive.display()
        );
        return;
    };
    println!("cargo::rerun-if-changed={}", archive.display());
    println!("cargo::rustc-link-search=native={}", archive.parent().unwrap().display());
    println!("cargo::rustc-link-lib=static=llc_exports");
}
