//! Links the proved archive, of target/staticlib or of the folder that TUFFALEEN_STATICLIB names. It is for x86-64.

use std::env::var_os;
use std::path::{Path, PathBuf};
use std::process::exit;

const FOLDER: &str = "TUFFALEEN_STATICLIB";
const ARCHIVE: &str = "libtuffaleen_c.a";

fn main() {
    let package = var_os("CARGO_MANIFEST_DIR").unwrap();
    let usual = Path::new(&package).join("../../target/staticlib");
    let folder = var_os(FOLDER).map_or(usual, PathBuf::from);
    let archive = folder.join(ARCHIVE);
    println!("cargo:rerun-if-env-changed={FOLDER}");
    println!("cargo:rerun-if-changed={}", archive.display());
    if !archive.exists() {
        eprintln!("{} is missing: tests/native-library", archive.display());
        exit(1);
    }
    println!("cargo:rustc-link-search=native={}", folder.display());
    println!("cargo:rustc-link-lib=static=tuffaleen_c");
}
