//! What a converter is given: functions with their lines and inlinees, and symbols. The names are
//! those of the crate `symbolic_debuginfo`.

use std::borrow::Cow;

/// A function with its lines and the functions inlined into it.
///
/// A function of size 0, or at an address above `u32::MAX`, is skipped with its inlinees, yet its
/// lines still take their addresses from its caller.
#[derive(Clone, Debug, Default, PartialEq, Eq)]
pub struct Function<'data> {
    /// The first address.
    pub address: u64,
    /// How many addresses it has. An address plus size above 2^64 - 1 is refused
    /// ([`Error::AddressOverflow`](crate::Error::AddressOverflow)).
    pub size: u64,
    /// The name. An empty one reads as absent.
    pub name: Cow<'data, str>,
    /// The number of the language, as `symbolic_common::Language` has it; stored as given.
    pub language: u32,
    /// The directory in which it was compiled. Bytes that aren't UTF-8 count as absent.
    pub compilation_dir: Cow<'data, [u8]>,
    /// The line records, sorted by address.
    pub lines: Vec<LineInfo<'data>>,
    /// The functions inlined into this one, in order.
    pub inlinees: Vec<Function<'data>>,
    /// Whether this function was inlined. An inlined function has no entry.
    pub inline: bool,
}

/// A line record: so many addresses belong to this line of this file.
#[derive(Clone, Debug, Default, PartialEq, Eq)]
pub struct LineInfo<'data> {
    /// The first address.
    pub address: u64,
    /// How many addresses it has; `None` counts as 1.
    pub size: Option<u64>,
    /// The source file.
    pub file: FileInfo<'data>,
    /// The line number; its lower 32 bits are stored.
    pub line: u64,
}

/// The texts of a source file. An empty text reads as absent.
#[derive(Clone, Debug, Default, PartialEq, Eq)]
pub struct FileInfo<'data> {
    /// The file's name.
    pub name: Cow<'data, str>,
    /// Its directory.
    pub dir: Cow<'data, str>,
    /// Its name on the source server.
    pub srcsrv_name: Option<Cow<'data, str>>,
    /// Its directory on the source server.
    pub srcsrv_dir: Option<Cow<'data, str>>,
    /// Its revision on the source server.
    pub srcsrv_revision: Option<Cow<'data, str>>,
}

impl<'data> FileInfo<'data> {
    /// A file of this name and directory, without source server texts.
    pub fn new(name: impl Into<Cow<'data, str>>, dir: impl Into<Cow<'data, str>>) -> Self {
        FileInfo {
            name: name.into(),
            dir: dir.into(),
            ..FileInfo::default()
        }
    }
}

/// A symbol of a symbol table.
#[derive(Clone, Debug, Default, PartialEq, Eq)]
pub struct Symbol<'data> {
    /// The name. A symbol without one changes nothing.
    pub name: Option<Cow<'data, str>>,
    /// The address. A symbol above `u32::MAX` changes nothing.
    pub address: u64,
    /// How many addresses it has. With 0 it reaches up to the next start.
    pub size: u64,
}
