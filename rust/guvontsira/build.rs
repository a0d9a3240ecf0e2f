//! Finds the archive of the proved gate and links it.

use std::env;
use std::io;
use std::path::{Path, PathBuf};

const VARIABLE: &str = "GUVONTSIRA_LIB";
const ARCHIVE: &str = "libguvontsira.a";

fn main() {
    println!("cargo::rerun-if-env-changed={VARIABLE}");
    match folder() {
        Ok(folder) => link(&folder),
        Err(error) => println!("cargo::error=no folder to look for {ARCHIVE} in: {error}"),
    }
}

/// The variable's folder, else `target/staticlib` of the whole project.
fn folder() -> io::Result<PathBuf> {
    if let Some(folder) = env::var_os(VARIABLE).map(PathBuf::from) {
        // Cargo runs this script and the linker in different folders, neither
        // of them the one that the variable was set in.
        if folder.is_relative() {
            let message = format!("{VARIABLE} must be an absolute path");
            return Err(io::Error::new(io::ErrorKind::InvalidInput, message));
        }
        return Ok(folder);
    }
    let package = env::var_os("CARGO_MANIFEST_DIR").expect("cargo sets it for build scripts");
    let project = Path::new(&package).join("../..").canonicalize()?;
    Ok(project.join("target/staticlib"))
}

fn link(folder: &Path) {
    let archive = folder.join(ARCHIVE);
    println!("cargo::rerun-if-changed={}", archive.display());
    if !archive.is_file() {
        println!(
            "cargo::error={} is missing: make it with `./build library`, \
             or set {VARIABLE} to the folder that has it",
            archive.display()
        );
        return;
    }
    println!("cargo::rustc-link-search=native={}", folder.display());
    println!("cargo::rustc-link-lib=static=guvontsira");
}
