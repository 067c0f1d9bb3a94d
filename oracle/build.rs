//! Copies the files of the Rust and the shims beside each other into one tree, so that the Rust
//! is compiled as it stands, and tells the linker where the archive is.
//! Without the feature `rust` only the latter.

use std::path::{Path, PathBuf};
use std::{env, fs};

const RUST_FILES: &str = "rust-files.txt";
const ARCHIVE: &str = "libinterface.a";

fn main() {
    if env::var_os("CARGO_FEATURE_RUST").is_some() {
        lay_out(&given_folder("RONAKVESH_RUST"));
    }
    let archives = given_folder("RONAKVESH_ARCHIVES");
    println!("cargo:rerun-if-changed=build.rs");
    println!("cargo:rustc-link-search=native={}", archives.display());
    println!("cargo:rerun-if-changed={}", archives.join(ARCHIVE).display());
}

/// Lays out the tree in which the Rust is compiled.
fn lay_out(rust: &Path) {
    let out = PathBuf::from(env::var_os("OUT_DIR").expect("cargo sets OUT_DIR"));
    let tree = out.join("kernel");
    if tree.exists() {
        fs::remove_dir_all(&tree).expect("the old tree can be removed");
    }
    for file in fs::read_to_string(RUST_FILES).expect(RUST_FILES).lines() {
        copy(&rust.join(file), &out.join(file));
    }
    copy_folder(&fs::canonicalize("shims").expect("shims"), &tree.join("src"));
    println!("cargo:rerun-if-changed={RUST_FILES}");
}

/// The folder that an environment variable names.
fn given_folder(variable: &str) -> PathBuf {
    println!("cargo:rerun-if-env-changed={variable}");
    match env::var_os(variable) {
        Some(folder) => PathBuf::from(folder),
        None => panic!("{variable} is not set; start the comparison by oracle/run"),
    }
}

/// Copies one file into the tree, and has a change of it noticed.
fn copy(file: &Path, place: &Path) {
    println!("cargo:rerun-if-changed={}", file.display());
    fs::create_dir_all(place.parent().expect("a place in the tree")).expect("a folder of the tree");
    fs::copy(file, place).unwrap_or_else(|error| panic!("{}: {error}", place.display()));
}

/// Copies every file of a folder, and of the folders in it, to the same place in the tree.
fn copy_folder(folder: &Path, place: &Path) {
    println!("cargo:rerun-if-changed={}", folder.display());
    for found in fs::read_dir(folder).expect("a folder of shims") {
        let path = found.expect("a shim").path();
        let there = place.join(path.file_name().expect("a name"));
        if path.is_dir() {
            copy_folder(&path, &there);
        } else {
            copy(&path, &there);
        }
    }
}
