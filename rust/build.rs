//! Writes the C declarations of src/ffi.rs from include/symcache.h, and finds the proved library,
//! libexports.a: in the folder that SYMCACHE_LIB_DIR names, or else in crates/exports/out of the
//! repository.

mod header;

use std::path::{Path, PathBuf};
use std::process::exit;
use std::{env, fs};

fn main() {
    let here = PathBuf::from(env::var_os("CARGO_MANIFEST_DIR").unwrap());
    declare(&here.join("../include/symcache.h"));
    link(&here.join("../crates/exports/out"));
}

fn declare(header: &Path) {
    println!("cargo:rerun-if-changed={}", header.display());
    let text = fs::read_to_string(header).unwrap_or_else(|e| panic!("{}: {e}", header.display()));
    let out = PathBuf::from(env::var_os("OUT_DIR").unwrap()).join("symcache.rs");
    fs::write(out, header::Header::read(&text).to_rust()).unwrap();
}

fn link(made: &Path) {
    println!("cargo:rerun-if-env-changed=SYMCACHE_LIB_DIR");
    let target = env::var("TARGET").unwrap();
    if !(target.starts_with("x86_64") && target.contains("linux")) {
        eprintln!("libexports.a is made for x86-64 Linux only, not for {target}.");
        exit(1);
    }
    let dir = env::var_os("SYMCACHE_LIB_DIR").map_or(made.to_path_buf(), PathBuf::from);
    let library = dir.join("libexports.a");
    println!("cargo:rerun-if-changed={}", library.display());
    if !library.is_file() {
        eprintln!("There is no {}.", library.display());
        eprintln!("Run `rt lib` in crates/exports, which proves the library and writes it to crates/exports/out,");
        eprintln!("or name the folder that holds libexports.a in the variable SYMCACHE_LIB_DIR.");
        exit(1);
    }
    println!("cargo:rustc-link-search=native={}", dir.display());
    println!("cargo:rustc-link-lib=static=exports");
}
