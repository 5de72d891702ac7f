//! SymCache version 9, from function trees to inline frames, over a library that is proved.
//!
//! [`Converter`] collects functions, with their lines and what is inlined into them, and symbols,
//! and writes them as a file. [`SymCache`] reads such a file and gives, for an address, the frames
//! at it, innermost first; at most [`MAX_FRAMES`] in a file that a converter wrote. What both do is
//! proved, for every input, of the library `libexports.a`;
//! this crate lends it memory and gives its answers Rust's types.
//!
//! # Example
//!
//! ```
//! use symcache::debuginfo::{FileInfo, Function, LineInfo};
//! use symcache::{Converter, SymCache};
//!
//! // `trk` has sixteen addresses; `pos` is inlined into its line 10.
//! let line = |address, size, line, name| LineInfo { address, size: Some(size), line, file: FileInfo::new(name, "src") };
//! let trk = Function {
//!     address: 0x1000,
//!     size: 16,
//!     name: "trk".into(),
//!     language: 2,
//!     compilation_dir: b"/b"[..].into(),
//!     lines: vec![line(0x1000, 8, 10, "a.rs"), line(0x1008, 8, 11, "a.rs")],
//!     inlinees: vec![Function {
//!         address: 0x1002,
//!         size: 4,
//!         name: "pos".into(),
//!         language: 2,
//!         compilation_dir: b"/b"[..].into(),
//!         lines: vec![line(0x1002, 4, 50, "p.rs")],
//!         inline: true,
//!         ..Function::default()
//!     }],
//!     ..Function::default()
//! };
//!
//! let mut converter = Converter::builder().build();
//! converter.process_symbolic_function(&trk)?;
//! let bytes = converter.serialize()?;
//! assert_eq!(bytes.len(), 305);
//!
//! let cache = SymCache::parse(&bytes)?;
//! let frames: Vec<(&str, &str, u32)> = cache
//!     .lookup(0x1003)
//!     .map(|frame| (frame.function().name(), frame.file().map_or("", |file| file.name()), frame.line()))
//!     .collect();
//! assert_eq!(frames, [("pos", "p.rs", 50), ("trk", "a.rs", 10)]);
//! assert_eq!(cache.lookup(0x1010).count(), 0);
//! # Ok::<(), symcache::Error>(())
//! ```
//!
//! # What is proved
//!
//! Of the library: each function takes every input, always ends, and gives one answer, by an
//! equation; and over whole lists of calls, that a written file gives back the frames that were put
//! in. The repository's docs/CLAIMS.md says it all. Not proved, but tested: this crate, which lays a
//! tree out as rows ([`Rows`]), lends the memory, makes calls again in larger tables
//! ([`ConverterBuilder::keep_calls`]) and reads the version, debug identifier and architecture from
//! the header.
//!
//! # Linking
//!
//! `rt lib`, in the repository's folder crates/exports, proves the library and writes it to
//! crates/exports/out. The variable SYMCACHE_LIB_DIR names another folder that holds it.

#![deny(missing_docs)]
#![deny(unsafe_code)]
#![warn(rust_2018_idioms)]

pub mod debuginfo;
#[doc(hidden)]
pub mod ffi;

mod converter;
mod error;
mod lookup;
mod rows;

pub use converter::{Capacity, Converter, ConverterBuilder, MAX_DEPTH, MAX_ROWS, MAX_STRING_BYTES};
pub use error::Error;
pub use lookup::{
    File, Files, Frames, Function, Functions, Layout, Section, SourceLocation, SourceLocations,
    SymCache, MAX_FRAMES,
};
pub use rows::{Columns, LineRow, LineRows, OptionalPart, Rows, TextPart};
