//! Reading a file, and looking addresses up in it. The names are those of the crate
//! `symbolic_symcache`.

use std::fmt;
use std::iter::FusedIterator;
use std::ops::Deref;

use crate::ffi::{self, c};
use crate::Error;

/// The most frames that a lookup gives in a file that a converter wrote: 42, one for each depth up
/// to [`MAX_DEPTH`](crate::MAX_DEPTH).
pub const MAX_FRAMES: usize = c::SYMCACHE_MAX_FRAMES as usize;

/// Where a table of a file lies.
#[derive(Clone, Copy, Debug, PartialEq, Eq)]
pub struct Section {
    /// The offset of its first byte in the file.
    pub offset: u64,
    /// How many rows it has; for texts, how many bytes.
    pub count: u64,
}

/// Where the tables of a file lie, as its header tells.
#[derive(Clone, Copy, Debug, PartialEq, Eq)]
pub struct Layout {
    /// The source files.
    pub files: Section,
    /// The functions.
    pub functions: Section,
    /// The source locations.
    pub source_locations: Section,
    /// The starts of the ranges.
    pub ranges: Section,
    /// The texts.
    pub strings: Section,
}

impl Layout {
    /// Reads the header alone, in constant time. Unlike [`SymCache::parse`] it takes files whose
    /// ranges are unordered.
    ///
    /// Refused with 1 to 11, in that order.
    pub fn parse(bytes: &[u8]) -> Result<Self, Error> {
        let mut cache = [0; ffi::CACHE_WORDS];
        let number = ffi::parse(bytes, &mut cache);
        Error::check_file(number, cache[0], cache[1])?;
        Ok(Layout::of(&cache))
    }

    fn of(cache: &[u64; ffi::CACHE_WORDS]) -> Self {
        let section = |offset: usize, count: usize| Section {
            offset: cache[offset],
            count: cache[count],
        };
        Layout {
            files: section(c::SYMCACHE_CACHE_FILES, c::SYMCACHE_CACHE_NUM_FILES),
            functions: section(c::SYMCACHE_CACHE_FUNCTIONS, c::SYMCACHE_CACHE_NUM_FUNCTIONS),
            source_locations: section(
                c::SYMCACHE_CACHE_SOURCE_LOCATIONS,
                c::SYMCACHE_CACHE_NUM_SOURCE_LOCATIONS,
            ),
            ranges: section(c::SYMCACHE_CACHE_RANGES, c::SYMCACHE_CACHE_NUM_RANGES),
            strings: section(c::SYMCACHE_CACHE_STRINGS, c::SYMCACHE_CACHE_STRING_BYTES),
        }
    }
}

/// A SymCache file, read in place.
///
/// It is tested once, when it is parsed; a lookup then is a binary search.
///
/// ```
/// # use symcache::debuginfo::{FileInfo, Function, LineInfo};
/// # let mut converter = symcache::Converter::builder().build();
/// # converter.process_symbolic_function(&Function {
/// #     address: 0x1000, size: 16, name: "main".into(), language: 2,
/// #     lines: vec![LineInfo { address: 0x1000, size: Some(16), line: 10, file: FileInfo::new("a.c", "src") }],
/// #     ..Function::default()
/// # })?;
/// # let bytes = converter.serialize()?;
/// use symcache::SymCache;
///
/// let cache = SymCache::parse(&bytes)?;
/// for location in cache.lookup(0x1008) {
///     println!("{} {}", location.function().name(), location.line());
/// }
/// assert_eq!(cache.lookup(0x1008).count(), 1);
/// assert_eq!(cache.lookup(0x1010).count(), 0);
/// # Ok::<(), symcache::Error>(())
/// ```
#[derive(Clone, Copy)]
pub struct SymCache<'data> {
    bytes: &'data [u8],
    cache: [u64; ffi::CACHE_WORDS],
}

impl<'data> SymCache<'data> {
    /// Reads a file and tests that its ranges are in order. Bytes after its texts are ignored, and
    /// the bytes may begin at any address.
    ///
    /// Refused with 1 to 12, in that order.
    pub fn parse(bytes: &'data [u8]) -> Result<Self, Error> {
        let mut cache = [0; ffi::CACHE_WORDS];
        let number = ffi::open(bytes, &mut cache);
        Error::check_file(number, cache[0], cache[1])?;
        Ok(SymCache { bytes, cache })
    }

    /// The version of the file format: 9, the only one that is read.
    pub fn version(&self) -> u32 {
        self.header_word(4)
    }

    /// The debug identifier in the header.
    pub fn debug_id(&self) -> [u8; 32] {
        std::array::from_fn(|i| self.bytes[8 + i])
    }

    /// The number of the architecture in the header, as stored.
    pub fn arch(&self) -> u32 {
        self.header_word(40)
    }

    /// Where the tables lie.
    pub fn layout(&self) -> Layout {
        Layout::of(&self.cache)
    }

    /// Looks an instruction address up: the source locations at it, innermost first, each inlined
    /// into the next.
    ///
    /// There are none above `u32::MAX`, below the first range, and where a function or symbol has
    /// ended. In a file that a converter wrote from well nested trees and symbols that are apart, an
    /// address in none of their extents has no source location, and one in a symbol's extent has the
    /// symbol's alone (docs/INTERFACE.md, "No frame", says of which files this is proved).
    pub fn lookup(&self, addr: u64) -> SourceLocations<'data> {
        let mut cursor = [0; ffi::CURSOR_WORDS];
        ffi::walk(self.bytes, &self.cache, addr, &mut cursor);
        SourceLocations {
            bytes: self.bytes,
            cursor,
        }
    }

    /// Looks an instruction address up as [`SymCache::lookup`] does, into memory that was laid out
    /// in advance. Nothing is allocated.
    pub fn lookup_into(&self, addr: u64, frames: &mut Frames<'data>) {
        let mut all = self.lookup(addr);
        frames.len = 0;
        for (room, frame) in frames.frames.iter_mut().zip(&mut all) {
            *room = frame;
            frames.len += 1;
        }
        frames.rest = Some(all);
    }

    /// The index of the source location whose range holds an address. It may be that of the end of
    /// a function, which [`SymCache::lookup`] gives no frame for.
    pub fn find(&self, addr: u64) -> Option<u32> {
        present(ffi::find(self.bytes, &self.cache, addr))
    }

    /// The function at an index.
    pub fn get_function(&self, function_idx: u32) -> Option<Function<'data>> {
        let mut row = [0; ffi::FUNCTION_WORDS];
        read(ffi::get_function(self.bytes, function_idx, &mut row));
        (row[0] != 0).then(|| Function {
            name: function_name(self.bytes, function_idx),
            entry_pc: row[3],
            language: row[4],
        })
    }

    /// The file at an index.
    pub fn get_file(&self, file_idx: u32) -> Option<File<'data>> {
        let mut row = [0; ffi::FILE_WORDS];
        read(ffi::get_file(self.bytes, file_idx, &mut row));
        (row[0] != 0).then(|| File::new(self.bytes, &row[1..]))
    }

    /// The text at an offset of the string section. Absent where there is none, or it is cut off or
    /// not UTF-8.
    pub fn get_string(&self, offset: u32) -> Option<&'data str> {
        string(self.bytes, offset)
    }

    /// The functions that have an entry, that is, weren't only inlined, in the order in which they
    /// were added.
    pub fn functions(&self) -> Functions<'data> {
        Functions {
            bytes: self.bytes,
            cursor: [0; ffi::LIST_CURSOR_WORDS],
        }
    }

    /// The source files, in the order in which they were added.
    pub fn files(&self) -> Files<'data> {
        Files {
            bytes: self.bytes,
            cursor: [0; ffi::LIST_CURSOR_WORDS],
        }
    }

    /// A 32-bit word of the first 80 bytes, which every file that was read has.
    fn header_word(&self, at: usize) -> u32 {
        u32::from_le_bytes(std::array::from_fn(|i| self.bytes[at + i]))
    }
}

impl fmt::Debug for SymCache<'_> {
    fn fmt(&self, f: &mut fmt::Formatter<'_>) -> fmt::Result {
        let layout = self.layout();
        f.debug_struct("SymCache")
            .field("version", &self.version())
            .field("debug_id", &self.debug_id())
            .field("arch", &self.arch())
            .field("files", &layout.files.count)
            .field("functions", &layout.functions.count)
            .field("source_locations", &layout.source_locations.count)
            .field("ranges", &layout.ranges.count)
            .field("string_bytes", &layout.strings.count)
            .finish()
    }
}

/// A line of a function, at an address or at a call on the way to it.
#[derive(Clone, Copy)]
pub struct SourceLocation<'data> {
    bytes: &'data [u8],
    frame: [u32; ffi::FRAME_WORDS],
}

impl<'data> SourceLocation<'data> {
    /// The line. 0 where it isn't known.
    pub fn line(&self) -> u32 {
        self.frame[c::SYMCACHE_FRAME_LINE]
    }

    /// The source file, if there is one.
    pub fn file(&self) -> Option<File<'data>> {
        (self.frame[c::SYMCACHE_FRAME_KIND] == c::SYMCACHE_FRAME_WITH_FILE)
            .then(|| File::new(self.bytes, &self.frame[c::SYMCACHE_FRAME_COMP_DIR..]))
    }

    /// The function. Where the file has none of this index, it has no name, entry `u32::MAX` and
    /// language `u32::MAX`.
    pub fn function(&self) -> Function<'data> {
        Function {
            name: function_name(self.bytes, self.function_idx()),
            entry_pc: self.frame[c::SYMCACHE_FRAME_ENTRY],
            language: self.frame[c::SYMCACHE_FRAME_LANGUAGE],
        }
    }

    /// The index of this source location.
    pub fn location_idx(&self) -> u32 {
        self.frame[c::SYMCACHE_FRAME_LOCATION]
    }

    /// The index of its function, as stored.
    pub fn function_idx(&self) -> u32 {
        self.frame[c::SYMCACHE_FRAME_FUNCTION]
    }

    /// The index of its file, as stored; `u32::MAX` where there is none.
    pub fn file_idx(&self) -> u32 {
        self.frame[c::SYMCACHE_FRAME_FILE]
    }
}

impl fmt::Debug for SourceLocation<'_> {
    fn fmt(&self, f: &mut fmt::Formatter<'_>) -> fmt::Result {
        f.debug_struct("SourceLocation")
            .field("location_idx", &self.location_idx())
            .field("function", &self.function())
            .field("line", &self.line())
            .field("file", &self.file())
            .finish()
    }
}

/// The source locations at an address; from [`SymCache::lookup`].
#[derive(Clone, Copy, Debug)]
pub struct SourceLocations<'data> {
    bytes: &'data [u8],
    cursor: [u32; ffi::CURSOR_WORDS],
}

impl<'data> Iterator for SourceLocations<'data> {
    type Item = SourceLocation<'data>;

    fn next(&mut self) -> Option<Self::Item> {
        let mut frame = [0; ffi::FRAME_WORDS];
        read(ffi::next(self.bytes, &mut self.cursor, &mut frame));
        (frame[c::SYMCACHE_FRAME_KIND] != c::SYMCACHE_FRAME_END).then_some(SourceLocation {
            bytes: self.bytes,
            frame,
        })
    }
}

impl FusedIterator for SourceLocations<'_> {}

/// Room for the [`MAX_FRAMES`] frames of a lookup, laid out in advance; filled by
/// [`SymCache::lookup_into`] and read as a slice, innermost first.
///
/// ```
/// # use symcache::debuginfo::{FileInfo, Function, LineInfo};
/// # let mut converter = symcache::Converter::builder().build();
/// # converter.process_symbolic_function(&Function {
/// #     address: 0x1000, size: 16, name: "main".into(), language: 2,
/// #     lines: vec![LineInfo { address: 0x1000, size: Some(16), line: 10, file: FileInfo::new("a.c", "src") }],
/// #     ..Function::default()
/// # })?;
/// # let bytes = converter.serialize()?;
/// use symcache::{Frames, SymCache};
///
/// let cache = SymCache::parse(&bytes)?;
/// let mut frames = Frames::new();
/// cache.lookup_into(0x1008, &mut frames);
/// assert_eq!(frames.len(), 1);
/// assert_eq!(frames[0].function().name(), "main");
/// cache.lookup_into(0x1010, &mut frames);
/// assert!(frames.is_empty());
/// # Ok::<(), symcache::Error>(())
/// ```
#[derive(Clone, Copy)]
pub struct Frames<'data> {
    frames: [SourceLocation<'data>; MAX_FRAMES],
    len: usize,
    /// The walk from there on, after a lookup.
    rest: Option<SourceLocations<'data>>,
}

impl<'data> Frames<'data> {
    /// Room without a frame in it.
    pub const fn new() -> Self {
        let none = SourceLocation {
            bytes: &[],
            frame: [0; ffi::FRAME_WORDS],
        };
        Frames {
            frames: [none; MAX_FRAMES],
            len: 0,
            rest: None,
        }
    }

    /// The frames that come after these. A file that a converter wrote has none; a file of another
    /// maker may.
    pub fn rest(&self) -> impl Iterator<Item = SourceLocation<'data>> {
        self.rest.into_iter().flatten()
    }
}

impl Default for Frames<'_> {
    fn default() -> Self {
        Frames::new()
    }
}

impl<'data> Deref for Frames<'data> {
    type Target = [SourceLocation<'data>];

    fn deref(&self) -> &Self::Target {
        &self.frames[..self.len]
    }
}

impl fmt::Debug for Frames<'_> {
    fn fmt(&self, f: &mut fmt::Formatter<'_>) -> fmt::Result {
        f.debug_list().entries(self.iter()).finish()
    }
}

/// A function of a file.
#[derive(Clone, Copy, Debug, PartialEq, Eq)]
pub struct Function<'data> {
    name: Option<&'data str>,
    entry_pc: u32,
    language: u32,
}

impl<'data> Function<'data> {
    /// The name, possibly mangled; `"?"` where there is none.
    pub fn name(&self) -> &'data str {
        self.name.unwrap_or("?")
    }

    /// The name, if there is one.
    pub fn stored_name(&self) -> Option<&'data str> {
        self.name
    }

    /// The first address; `u32::MAX` for one that is only inlined.
    pub fn entry_pc(&self) -> u32 {
        self.entry_pc
    }

    /// The number of the language, as stored; `u32::MAX` for a symbol.
    pub fn language(&self) -> u32 {
        self.language
    }
}

/// A source file of a file, with its six texts.
#[derive(Clone, Copy, Debug, PartialEq, Eq)]
pub struct File<'data> {
    comp_dir: Option<&'data str>,
    directory: Option<&'data str>,
    name: &'data str,
    srcsrv_name: Option<&'data str>,
    srcsrv_dir: Option<&'data str>,
    srcsrv_revision: Option<&'data str>,
}

impl<'data> File<'data> {
    /// The file whose texts are at six offsets.
    fn new(bytes: &'data [u8], offsets: &[u32]) -> Self {
        File {
            comp_dir: string(bytes, offsets[0]),
            directory: string(bytes, offsets[1]),
            name: string(bytes, offsets[2]).unwrap_or_default(),
            srcsrv_name: string(bytes, offsets[3]),
            srcsrv_dir: string(bytes, offsets[4]),
            srcsrv_revision: string(bytes, offsets[5]),
        }
    }

    /// The directory in which it was compiled.
    pub fn comp_dir(&self) -> Option<&'data str> {
        self.comp_dir
    }

    /// Its directory.
    pub fn directory(&self) -> Option<&'data str> {
        self.directory
    }

    /// Its name; empty where there is none.
    pub fn name(&self) -> &'data str {
        self.name
    }

    /// Its name on the source server.
    pub fn srcsrv_name(&self) -> Option<&'data str> {
        self.srcsrv_name
    }

    /// Its directory on the source server.
    pub fn srcsrv_dir(&self) -> Option<&'data str> {
        self.srcsrv_dir
    }

    /// Its revision on the source server.
    pub fn srcsrv_revision(&self) -> Option<&'data str> {
        self.srcsrv_revision
    }
}

/// The functions of a file that have an entry; from [`SymCache::functions`].
#[derive(Clone, Copy, Debug)]
pub struct Functions<'data> {
    bytes: &'data [u8],
    cursor: [u32; ffi::LIST_CURSOR_WORDS],
}

impl<'data> Iterator for Functions<'data> {
    type Item = Function<'data>;

    fn next(&mut self) -> Option<Self::Item> {
        let mut row = [0; ffi::LISTED_FUNCTION_WORDS];
        read(ffi::functions_next(self.bytes, &mut self.cursor, &mut row));
        (row[0] != 0).then(|| Function {
            name: function_name(self.bytes, row[1]),
            entry_pc: row[4],
            language: row[5],
        })
    }
}

impl FusedIterator for Functions<'_> {}

/// The source files of a file; from [`SymCache::files`].
#[derive(Clone, Copy, Debug)]
pub struct Files<'data> {
    bytes: &'data [u8],
    cursor: [u32; ffi::LIST_CURSOR_WORDS],
}

impl<'data> Iterator for Files<'data> {
    type Item = File<'data>;

    fn next(&mut self) -> Option<Self::Item> {
        let mut row = [0; ffi::LISTED_FILE_WORDS];
        read(ffi::files_next(self.bytes, &mut self.cursor, &mut row));
        (row[0] != 0).then(|| File::new(self.bytes, &row[2..]))
    }
}

impl FusedIterator for Files<'_> {}

/// A call on bytes that were parsed: they are borrowed, so they are the same still, and nothing
/// refuses them now.
fn read(number: u32) {
    debug_assert_eq!(number, 0);
}

fn present(index: u32) -> Option<u32> {
    (index != c::SYMCACHE_MAX).then_some(index)
}

/// A function's name, if it has one.
fn function_name(bytes: &[u8], function_idx: u32) -> Option<&str> {
    let mut part = [0; ffi::PART_WORDS];
    read(ffi::function_name(bytes, function_idx, &mut part));
    text(bytes, part)
}

/// The text at an offset.
fn string(bytes: &[u8], offset: u32) -> Option<&str> {
    let mut part = [0; ffi::PART_WORDS];
    read(ffi::read_string(bytes, offset, &mut part));
    text(bytes, part)
}

/// A part of the file, if there is one. The library gives UTF-8 only; `from_utf8` tests it once
/// more, so that this needs no unsafe code.
fn text(bytes: &[u8], part: [u64; ffi::PART_WORDS]) -> Option<&str> {
    let [present, start, len] = part;
    if present == 0 {
        return None;
    }
    let (start, len) = (start as usize, len as usize);
    std::str::from_utf8(&bytes[start..start + len]).ok()
}
