//! Finds libpadcheck.a: in the folder that `PADCHECK_LIB_DIR` names, else where `sh tools/build.sh lib` writes it.

use std::env;
use std::path::{Path, PathBuf};
use std::process::ExitCode;

const VARIABLE: &str = "PADCHECK_LIB_DIR";
const ARCHIVE: &str = "libpadcheck.a";

fn main() -> ExitCode {
    println!("cargo::rerun-if-env-changed={VARIABLE}");
    let folder = env::var_os(VARIABLE).map_or_else(default_folder, PathBuf::from);
    let archive = folder.join(ARCHIVE);
    if !archive.is_file() {
        println!(
            "cargo::error={ARCHIVE} is not in {}: make it with `sh tools/build.sh lib`, or name its folder in {VARIABLE}",
            folder.display()
        );
        return ExitCode::FAILURE;
    }
    println!("cargo::rerun-if-changed={}", archive.display());
    println!("cargo::rustc-link-search=native={}", folder.display());
    println!("cargo::rustc-link-lib=static=padcheck");
    ExitCode::SUCCESS
}

/// `target/staticlib` of the repository that this package stands in.
fn default_folder() -> PathBuf {
    let package = env::var_os("CARGO_MANIFEST_DIR").unwrap_or_default();
    Path::new(&package).join("../../target/staticlib")
}
