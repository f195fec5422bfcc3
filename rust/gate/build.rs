//! Links `libffi.a`, the archive of the proved calls, which `tools/build ffi` writes.
//!
//! `ROOSTERYORE_LIB` names its folder; without it, `target/staticlib` of this repository is taken.
use std::env;
use std::path::PathBuf;
use std::process::exit;

const VARIABLE: &str = "ROOSTERYORE_LIB";
const ARCHIVE: &str = "libffi.a";

fn main() {
    println!("cargo:rerun-if-env-changed={VARIABLE}");
    let folder = archive_folder();
    let archive = folder.join(ARCHIVE);
    println!("cargo:rerun-if-changed={}", archive.display());
    if !archive.is_file() {
        eprintln!("The proved calls are not built: there is no {}.", archive.display());
        eprintln!(
            "Run `tools/build ffi` at the top of the repository, or name the folder of {ARCHIVE} in {VARIABLE}."
        );
        exit(1);
    }
    println!("cargo:rustc-link-search=native={}", folder.display());
    println!("cargo:rustc-link-lib=static=ffi");
    // for the test that builds the sample in C
    println!("cargo:rustc-env=ROOSTERYORE_ARCHIVE={}", archive.display());
}

fn archive_folder() -> PathBuf {
    match env::var_os(VARIABLE) {
        Some(folder) => PathBuf::from(folder),
        None => PathBuf::from(env!("CARGO_MANIFEST_DIR")).join("../../target/staticlib"),
    }
}
