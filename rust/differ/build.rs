//! Compiles src/header.c, the C header's calls under names that Rust can link. CC and AR name the compiler and the archiver; else they are `cc` and `ar`.

use std::env;
use std::path::PathBuf;
use std::process::Command;

fn run(program: &str, or: &str, words: &[&str]) {
    let name = env::var(program).unwrap_or_else(|_| or.to_string());
    let status = Command::new(&name).args(words).status();
    assert!(status.as_ref().is_ok_and(|status| status.success()), "{name} {words:?}: {status:?}");
}

fn main() {
    let here = PathBuf::from(env::var_os("CARGO_MANIFEST_DIR").unwrap());
    let out = PathBuf::from(env::var_os("OUT_DIR").unwrap());
    let include = here.join("../../include");
    let (source, object, archive) = (here.join("src/header.c"), out.join("header.o"), out.join("libheader.a"));
    let [include_text, source_text, object_text, archive_text] = [&include, &source, &object, &archive].map(|path| path.to_str().unwrap());
    run("CC", "cc", &["-std=c99", "-pedantic", "-Wall", "-Wextra", "-Werror", "-O2", "-I", include_text, "-c", source_text, "-o", object_text]);
    run("AR", "ar", &["crs", archive_text, object_text]);
    println!("cargo:rustc-link-search=native={}", out.display());
    println!("cargo:rustc-link-lib=static=header");
    println!("cargo:rerun-if-changed={}", source.display());
    println!("cargo:rerun-if-changed={}", include.join("strundevi.h").display());
}
