//! Links `libbixorgun.a`, from the directory that `BIXORGUN_LIB_DIR` names or else from the repository's `crates/bixorgun/out`. The
//! archive's path is `BIXORGUN_ARCHIVE` for the tests.

use std::env;
use std::path::{Path, PathBuf};
use std::process::exit;

const VARIABLE: &str = "BIXORGUN_LIB_DIR";
const ARCHIVE: &str = "libbixorgun.a";

fn main() {
    println!("cargo:rerun-if-changed=build.rs");
    println!("cargo:rerun-if-env-changed={VARIABLE}");
    if let Err(message) = link() {
        eprintln!("error: {message}");
        exit(1);
    }
}

fn link() -> Result<(), String> {
    let arch = env::var("CARGO_CFG_TARGET_ARCH").unwrap_or_default();
    if arch != "x86_64" {
        return Err(format!("{ARCHIVE} is for x86-64, and this build is for {arch}"));
    }
    let crate_dir = env::var_os("CARGO_MANIFEST_DIR").map(PathBuf::from).ok_or("CARGO_MANIFEST_DIR is not set")?;
    let (dir, whence) = match env::var_os(VARIABLE) {
        Some(dir) => (crate_dir.join(dir), format!("the directory of {VARIABLE}")),
        None => (crate_dir.join("../../crates/bixorgun/out"), format!("the place without {VARIABLE}")),
    };
    let dir = dir.canonicalize().unwrap_or(dir);
    let archive = dir.join(ARCHIVE);
    println!("cargo:rerun-if-changed={}", archive.display());
    if !archive.is_file() {
        return Err(missing(&archive, &whence));
    }
    println!("cargo:rustc-link-search=native={}", dir.display());
    println!("cargo:rustc-link-lib=static=bixorgun");
    println!("cargo:rustc-env=BIXORGUN_ARCHIVE={}", archive.display());
    Ok(())
}

fn missing(archive: &Path, whence: &str) -> String {
    format!(
        "{} is not there ({whence}).\n\
         Make it with `rt lib` in the repository's crates/bixorgun, which writes out/{ARCHIVE} there,\n\
         or name the directory that has it: {VARIABLE}=DIRECTORY cargo build",
        archive.display()
    )
}
