//! Links the proved library. It is not built here: proving it takes minutes, and `rt` is not on every machine.

use std::env;
use std::path::PathBuf;

/// The environment variable that names another folder with the archive.
const FOLDER_VARIABLE: &str = "CABINET_LIB_DIR";

/// Where `./library` leaves the archive.
const BUILT_FOLDER: &str = "../../target";

fn main() {
    let folder = library_folder();
    let archive = folder.join("libcabinet.a");
    println!("cargo::rerun-if-env-changed={FOLDER_VARIABLE}");
    println!("cargo::rerun-if-changed={}", archive.display());
    if archive.is_file() {
        println!("cargo::rustc-link-search=native={}", folder.display());
        println!("cargo::rustc-link-lib=static=cabinet");
    } else {
        let remedy = format!("run `./library` in the repository's root, or set {FOLDER_VARIABLE}");
        println!("cargo::error={} is not there: {remedy}", archive.display());
    }
}

/// The folder of the archive. A relative one is seen from this package, and made absolute: rustc may run elsewhere.
fn library_folder() -> PathBuf {
    let folder = env::var_os(FOLDER_VARIABLE).unwrap_or(BUILT_FOLDER.into());
    PathBuf::from(env!("CARGO_MANIFEST_DIR")).join(folder)
}
