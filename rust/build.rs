//! Finds the proved library's archive and tells the linker of it. NOSINGGINGER_LIB_DIR names its folder where that is not the
//! repository's own target/staticlib.

use std::env;
use std::path::{Path, PathBuf};
use std::process::exit;

const VARIABLE: &str = "NOSINGGINGER_LIB_DIR";
const ARCHIVE: &str = "libnosingginger_c.a";

fn main() {
    let repository = Path::new(env!("CARGO_MANIFEST_DIR")).join("..");
    let folder = env::var_os(VARIABLE).map_or(repository.join("target/staticlib"), PathBuf::from);
    let archive = folder.join(ARCHIVE);
    println!("cargo:rerun-if-env-changed={VARIABLE}");
    println!("cargo:rerun-if-changed={}", archive.display());
    if !archive.is_file() {
        eprintln!("{} is not there.", archive.display());
        eprintln!("Run `make` in the repository, or set {VARIABLE} to the folder that has {ARCHIVE}.");
        exit(1);
    }
    println!("cargo:rustc-link-search=native={}", folder.display());
    println!("cargo:rustc-link-lib=static=nosingginger_c");
}
