//! Finds libclvm_allocator.a: where CLVM_ALLOCATOR_LIB says (the archive or its folder), else in ../target/staticlib.
use std::env;
use std::path::{Path, PathBuf};
use std::process::exit;

const ARCHIVE: &str = "libclvm_allocator.a";
const VARIABLE: &str = "CLVM_ALLOCATOR_LIB";

/// The folder that should hold the archive.
fn folder() -> PathBuf {
    match env::var_os(VARIABLE) {
        Some(given) => {
            let path = PathBuf::from(given);
            if path.is_dir() {
                path
            } else {
                path.parent().map_or_else(PathBuf::new, Path::to_path_buf)
            }
        }
        None => Path::new(&env::var_os("CARGO_MANIFEST_DIR").unwrap_or_default())
            .join("../target/staticlib"),
    }
}

fn main() {
    println!("cargo:rerun-if-env-changed={VARIABLE}");
    let folder = folder();
    let archive = folder.join(ARCHIVE);
    println!("cargo:rerun-if-changed={}", archive.display());
    if !archive.is_file() {
        eprintln!("error: {} is missing", archive.display());
        eprintln!("help: write it with `tools/archive` in the repository's root,");
        eprintln!("help: or name the archive, or its folder, by the variable {VARIABLE}");
        exit(1);
    }
    println!("cargo:rustc-link-search=native={}", folder.display());
    println!("cargo:rustc-link-lib=static=clvm_allocator");
}
