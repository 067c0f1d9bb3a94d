//! Tells the linker where libinterface.a is, and refuses to build where it is not there.

use std::env;
use std::path::{Path, PathBuf};
use std::process::exit;

const FOLDER: &str = "RONAKVESH_ARCHIVES";
const ARCHIVE: &str = "libinterface.a";

fn main() {
    let folder = folder();
    let archive = folder.join(ARCHIVE);
    println!("cargo:rerun-if-changed={}", archive.display());
    if !archive.is_file() {
        refuse(&format!(
            "no archive {}: make it by `tools/archive interface`, or set {FOLDER} to its folder",
            archive.display()
        ));
    }
    println!("cargo:rustc-link-search=native={}", folder.display());
}

/// The folder that the variable names, or else the one in which tools/archive puts archives for this machine.
fn folder() -> PathBuf {
    println!("cargo:rerun-if-env-changed={FOLDER}");
    let here = PathBuf::from(given("CARGO_MANIFEST_DIR"));
    match env::var_os(FOLDER) {
        Some(folder) => here.join(folder),
        None if given("TARGET") == given("HOST") => beside(&here).join("target/archive/host"),
        None => refuse(&format!(
            "set {FOLDER} to the folder of an archive for {}, made by `tools/archive interface TARGET`",
            given("TARGET")
        )),
    }
}

/// The folder that this crate's folder stands in.
fn beside(here: &Path) -> &Path {
    here.parent().unwrap_or(here)
}

/// A variable that cargo sets for build scripts.
fn given(variable: &str) -> String {
    env::var(variable).unwrap_or_else(|error| refuse(&format!("{variable}: {error}")))
}

/// Ends the build with a message.
fn refuse(reason: &str) -> ! {
    eprintln!("ronakvesh: {reason}");
    exit(1)
}
