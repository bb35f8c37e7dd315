//! Links the archive that `tools/archive` writes. STRUNDEVI_LIB names its folder; else it is the repository's target/staticlib.

use std::env;
use std::path::PathBuf;

fn main() {
    let folder = match env::var_os("STRUNDEVI_LIB") {
        Some(folder) => PathBuf::from(folder),
        None => PathBuf::from(env::var_os("CARGO_MANIFEST_DIR").unwrap()).join("../../target/staticlib"),
    };
    let archive = folder.join("libstrundevi.a");
    if !archive.is_file() {
        panic!("no {}: run `tools/archive` first, or set STRUNDEVI_LIB to the folder that has it", archive.display());
    }
    println!("cargo:rustc-link-search=native={}", folder.display());
    println!("cargo:rustc-link-lib=static=strundevi");
    println!("cargo:rerun-if-env-changed=STRUNDEVI_LIB");
    println!("cargo:rerun-if-changed={}", archive.display());
}
