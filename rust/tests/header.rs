//! include/symcache.h, where the C functions are declared by hand, against the source of the library:
//! the exported functions of the crate `exports` and the rows that they take.

#[path = "../header.rs"]
#[allow(dead_code)] // what only build.rs uses
mod header;

use std::fs;
use std::path::{Path, PathBuf};

use header::{Function, Header, Typed};

fn repository() -> PathBuf {
    Path::new(env!("CARGO_MANIFEST_DIR")).join("..")
}

fn header() -> Header {
    Header::read(&fs::read_to_string(repository().join("include/symcache.h")).unwrap())
}

/// The source of a crate of the library.
fn source(name: &str) -> String {
    let folder = repository().join("crates").join(name).join("src");
    let files = fs::read_dir(&folder)
        .unwrap()
        .map(|file| file.unwrap().path());
    files
        .map(|file| fs::read_to_string(file).unwrap())
        .collect()
}

/// `NAME: TYPE, ..`
fn typed(list: &str) -> Vec<Typed> {
    let parts = list
        .split(',')
        .map(str::trim)
        .filter(|part| !part.is_empty());
    parts
        .map(|part| {
            let (name, library) = part.split_once(": ").expect(part);
            let name = name.trim_start_matches("pub ");
            Typed(name.to_string(), library.to_string())
        })
        .collect()
}

/// The exported functions.
fn exported() -> Vec<Function> {
    let source = source("exports");
    let first = "#[unsafe(no_mangle)]\npub extern \"C\" fn ";
    assert_eq!(
        source.matches("extern \"C\"").count(),
        source.matches(first).count()
    );
    let functions = source.split(first).skip(1);
    functions
        .map(|function| {
            let (name, rest) = function.split_once('(').unwrap();
            let (parameters, rest) = rest.split_once(')').unwrap();
            let (answer, _) = rest.strip_prefix(" -> ").unwrap().split_once('\n').unwrap();
            Function {
                name: name.to_string(),
                parameters: typed(parameters).into_iter().flat_map(as_passed).collect(),
                answer: answer.to_string(),
            }
        })
        .collect()
}

/// A lent slice passes as a pointer and a length.
fn as_passed(Typed(name, library): Typed) -> Vec<Typed> {
    let slice = |pointer: &str, element: &str| {
        let element = element.strip_suffix(']').unwrap();
        let pointer = Typed(name.clone(), format!("{pointer} {}", c_name(element)));
        vec![pointer, Typed(format!("{name}_len"), "usize".to_string())]
    };
    if let Some(element) = library.strip_prefix("&mut [") {
        slice("*mut", element)
    } else if let Some(element) = library.strip_prefix("&[") {
        slice("*const", element)
    } else {
        vec![Typed(name, library)]
    }
}

/// `LineRow` is `symcache_line_row` in the header; numbers keep their names.
fn c_name(library: &str) -> String {
    if !library.starts_with(char::is_uppercase) {
        return library.to_string();
    }
    let lower = |c: char| {
        if c.is_uppercase() {
            format!("_{}", c.to_ascii_lowercase())
        } else {
            c.to_string()
        }
    };
    format!("symcache{}", library.chars().map(lower).collect::<String>())
}

#[test]
fn the_library_has_the_functions_of_the_header() {
    let mut declared = header().functions;
    let mut exported = exported();
    declared.sort_by(|a, b| a.name.cmp(&b.name));
    exported.sort_by(|a, b| a.name.cmp(&b.name));
    for (header, library) in declared.iter().zip(&exported) {
        assert_eq!(header, library);
    }
    assert_eq!(declared.len(), exported.len());
}

#[test]
fn the_library_takes_the_rows_of_the_header() {
    let source = source("rows");
    for (name, fields) in header().structs {
        let row = source
            .split("#[repr(C)]\n")
            .skip(1)
            .map(|row| row.split_once("pub struct ").unwrap().1)
            .map(|row| row.split_once(" {").unwrap())
            .find(|(library, _)| c_name(library) == name);
        let (_, rest) = row.expect(&name);
        let (list, _) = rest.split_once('}').unwrap();
        let library = typed(list).into_iter();
        let library: Vec<_> = library
            .map(|Typed(name, library)| Typed(name, c_name(&library)))
            .collect();
        assert_eq!(fields, library, "{name}");
    }
}

/// A constant of the library with the name of one of the header's, with or without its prefix, has
/// its value.
#[test]
fn the_library_has_the_numbers_of_the_header() {
    let header = header();
    let crates = fs::read_dir(repository().join("crates")).unwrap();
    let names = crates.map(|folder| folder.unwrap().file_name().into_string().unwrap());
    for name in names.filter(|name| !name.ends_with("_test")) {
        for constant in source(&name).split("const ").skip(1) {
            let (constant, rest) = constant.split_once(": u32 = ").unwrap_or_default();
            let full = format!("SYMCACHE_{}", constant.trim_start_matches("SYMCACHE_"));
            let declared = header.numbers.iter().find(|(header, _)| *header == full);
            if let Some((_, number)) = declared {
                let value = rest.split_once(';').unwrap().0;
                let value = value.replace("u32::MAX", &u32::MAX.to_string());
                assert_eq!(value, number.to_string(), "{constant} of {name}");
            }
        }
    }
}
