//! Says where the library's archive stands, so that the crate is linked with it.

use std::env;
use std::ffi::OsString;
use std::path::Path;
use std::process::exit;

/// The archive.
const ARCHIVE: &str = "libowfs.a";

/// The variable that names the archive's folder.
const VARIABLE: &str = "OWFS_LIB_DIR";

/// The folder where the archive is made, from that of the crate.
const FOLDER: &str = "../target/staticlib";

fn main() {
    let folder = env::var_os(VARIABLE).unwrap_or(OsString::from(FOLDER));
    let folder = Path::new(env!("CARGO_MANIFEST_DIR")).join(folder);
    let archive = folder.join(ARCHIVE);
    println!("cargo:rerun-if-env-changed={VARIABLE}");
    println!("cargo:rerun-if-changed={}", archive.display());
    if !archive.is_file() {
        eprintln!("{ARCHIVE} is not in {}", folder.display());
        eprintln!("`tools/build` in the repository's root makes target/staticlib/{ARCHIVE}");
        eprintln!("the variable {VARIABLE} can name another folder");
        exit(1);
    }
    println!("cargo:rustc-link-search=native={}", folder.display());
    println!("cargo:rustc-link-lib=static=owfs");
}
