//! Copies the original source under OUT_DIR byte for byte. To three files one `mod` line is
//! appended after the original's last byte, so that wrappers which live beside them can see
//! private items. lib.rs is taken in by `include!`, which allows no inner attributes: its leading
//! `//!` lines and its `#![warn(missing_docs)]` become plain comments, nothing else changes.
//! Files that aren't among the papers come from `extra/`.

use std::fs;
use std::path::{Path, PathBuf};

const COPIED: &[(&str, &str)] = &[
    ("error.rs", ""),
    ("lib.rs", "\n#[doc(hidden)]\npub mod oracle;\n"),
    ("lookup.rs", ""),
    ("raw.rs", ""),
    ("transform/mod.rs", ""),
    ("v9/convert.rs", ""),
    ("v9/lookup.rs", "\npub mod access;\n"),
    ("v9/mod.rs", ""),
    ("v9/raw.rs", ""),
    ("writer.rs", "\npub mod access;\n"),
];

const EXTRA: &[&str] = &[
    "oracle.rs",
    "transform/bcsymbolmap.rs",
    "utils.rs",
    "v9/lookup/access.rs",
    "writer/access.rs",
];

fn put(path: &Path, bytes: &[u8]) {
    fs::create_dir_all(path.parent().unwrap()).unwrap();
    fs::write(path, bytes).unwrap();
}

fn without_inner(text: &str) -> String {
    let mut out = String::new();
    for line in text.split_inclusive('\n') {
        if let Some(rest) = line.strip_prefix("//!") {
            out.push_str("// ");
            out.push_str(rest);
        } else if line.starts_with("#![") {
            out.push_str("// ");
            out.push_str(line);
        } else {
            out.push_str(line);
        }
    }
    out
}

fn main() {
    let here = PathBuf::from(std::env::var_os("CARGO_MANIFEST_DIR").unwrap());
    println!("cargo:rerun-if-env-changed=SYMBOLIC_SRC");
    let sources = std::env::var_os("SYMBOLIC_SRC").map(PathBuf::from);
    let sources = sources.expect("SYMBOLIC_SRC names the original's source: the folder that holds symbolic-symcache/src");
    let from = sources.join("symbolic-symcache/src");
    let to = PathBuf::from(std::env::var_os("OUT_DIR").unwrap()).join("original");

    println!("cargo:rerun-if-changed=build.rs");
    for (name, tail) in COPIED {
        let path = from.join(name);
        println!("cargo:rerun-if-changed={}", path.display());
        let mut bytes = fs::read(&path)
            .unwrap_or_else(|e| panic!("original source {} not readable: {e}", path.display()));
        if *name == "lib.rs" {
            bytes = without_inner(std::str::from_utf8(&bytes).unwrap()).into_bytes();
        }
        bytes.extend_from_slice(tail.as_bytes());
        put(&to.join(name), &bytes);
    }
    for name in EXTRA {
        let path = here.join("extra").join(name);
        println!("cargo:rerun-if-changed={}", path.display());
        put(&to.join(name), &fs::read(&path).unwrap());
    }
}
