//! The converter, with memory of its own.

use std::fmt;

use crate::debuginfo::{Function, Symbol};
use crate::ffi::{self, c, TablesMut, TablesRef, LINES32_WORDS, LINES64_WORDS};
use crate::{Columns, Error, LineRows, Rows};

/// The most rows that a table can have: 16,777,216.
pub const MAX_ROWS: usize = c::SYMCACHE_MAX_ROWS as usize;
/// The most bytes that all texts together can have: 268,435,456.
pub const MAX_STRING_BYTES: usize = c::SYMCACHE_MAX_STRING_BYTES as usize;
/// The depth of the deepest inlinee that a tree may have, with the root at 0: 41.
pub const MAX_DEPTH: u32 = c::SYMCACHE_MAX_DEPTH;

/// How much a converter has room for. A row takes 32 bytes of memory. More than the ceilings
/// ([`MAX_ROWS`], [`MAX_STRING_BYTES`]) counts as the ceiling.
#[derive(Clone, Copy, Debug, PartialEq, Eq)]
pub struct Capacity {
    /// Bytes of all texts, each stored once with a length before it.
    pub string_bytes: usize,
    /// Rows of the index of texts, one for each. Half as many as there are text bytes are always
    /// enough.
    pub strings: usize,
    /// Different source files.
    pub files: usize,
    /// Different functions.
    pub functions: usize,
    /// Different lines into which something is inlined.
    pub call_locations: usize,
    /// Different starts of address ranges.
    pub ranges: usize,
}

impl Default for Capacity {
    /// Room for a few thousand functions: about 1.1 MB.
    fn default() -> Self {
        Capacity {
            string_bytes: 1 << 18,
            strings: 1 << 13,
            files: 1 << 10,
            functions: 1 << 12,
            call_locations: 1 << 12,
            ranges: 1 << 13,
        }
    }
}

impl Capacity {
    /// Enough for so many functions (inlinees too), lines and symbols in all, however they lie,
    /// with texts of so many bytes in all, each counted where it is used.
    ///
    /// Equal files, functions and texts are stored once, so far less is usually needed.
    ///
    /// ```
    /// use symcache::Capacity;
    ///
    /// assert_eq!(Capacity::for_input(2, 3, 1, 100).functions, 3);
    /// assert_eq!(Capacity::for_input(2, 3, 1, 100).ranges, 12);
    /// ```
    pub fn for_input(functions: usize, lines: usize, symbols: usize, text_bytes: usize) -> Self {
        // A function has a name, a line up to six texts. A text's length is stored before it, in
        // five bytes at most.
        let strings = functions
            .saturating_add(symbols)
            .saturating_add(lines.saturating_mul(6));
        // A line is cut once at each range inlined into it, and each inlinee's line is such a range
        // of one caller. Functions and symbols have a start and an end.
        let ends = functions.saturating_add(symbols).saturating_add(lines);
        Capacity {
            string_bytes: text_bytes.saturating_add(strings.saturating_mul(5)),
            strings,
            files: lines,
            functions: functions.saturating_add(symbols),
            call_locations: lines,
            ranges: ends.saturating_mul(2),
        }
        .limited()
    }

    /// Twice as much of everything.
    fn doubled(self) -> Self {
        let double = |n: usize| n.saturating_mul(2).max(16);
        Capacity {
            string_bytes: double(self.string_bytes),
            strings: double(self.strings),
            files: double(self.files),
            functions: double(self.functions),
            call_locations: double(self.call_locations),
            ranges: double(self.ranges),
        }
        .limited()
    }

    /// Not above the ceilings.
    fn limited(self) -> Self {
        Capacity {
            string_bytes: self.string_bytes.min(MAX_STRING_BYTES),
            strings: self.strings.min(MAX_ROWS),
            files: self.files.min(MAX_ROWS),
            functions: self.functions.min(MAX_ROWS),
            call_locations: self.call_locations.min(MAX_ROWS),
            ranges: self.ranges.min(MAX_ROWS),
        }
    }
}

/// Makes a [`Converter`]; from [`Converter::builder`].
#[derive(Clone, Debug, Default)]
#[must_use]
pub struct ConverterBuilder {
    setup: Setup,
    capacity: Capacity,
    keep_calls: bool,
}

impl ConverterBuilder {
    /// The debug identifier that the file's header gets: 32 bytes, all 0 if not set.
    pub fn debug_id(mut self, debug_id: [u8; 32]) -> Self {
        self.setup.debug_id = debug_id;
        self
    }

    /// The number of the architecture that the file's header gets, as `symbolic_common::Arch` has
    /// it; 0 if not set.
    pub fn arch(mut self, arch: u32) -> Self {
        self.setup.arch = arch;
        self
    }

    /// Whether names of functions lose their Windows decorations (`_foo@4` is `foo`), as is right
    /// for PDB; off if not set.
    pub fn undecorate_functions(mut self, on: bool) -> Self {
        self.setup.undecorate_functions = on;
        self
    }

    /// Whether names of symbols lose their Windows decorations, as is right for PE and PDB; off if
    /// not set.
    pub fn undecorate_symbols(mut self, on: bool) -> Self {
        self.setup.undecorate_symbols = on;
        self
    }

    /// Room in all tables at once. [`Capacity::default`] if nothing is set.
    pub fn capacity(mut self, capacity: Capacity) -> Self {
        self.capacity = capacity;
        self
    }

    /// Room for so many bytes of texts.
    pub fn string_bytes(mut self, bytes: usize) -> Self {
        self.capacity.string_bytes = bytes;
        self
    }

    /// Room for so many texts.
    pub fn strings(mut self, rows: usize) -> Self {
        self.capacity.strings = rows;
        self
    }

    /// Room for so many source files.
    pub fn files(mut self, rows: usize) -> Self {
        self.capacity.files = rows;
        self
    }

    /// Room for so many functions.
    pub fn functions(mut self, rows: usize) -> Self {
        self.capacity.functions = rows;
        self
    }

    /// Room for so many call locations.
    pub fn call_locations(mut self, rows: usize) -> Self {
        self.capacity.call_locations = rows;
        self
    }

    /// Room for so many ranges.
    pub fn ranges(mut self, rows: usize) -> Self {
        self.capacity.ranges = rows;
        self
    }

    /// Whether the converter keeps a copy of every accepted call. Then, where a table is full, it
    /// doubles all tables, makes the calls again and goes on; [`Error::TableFull`] comes at the
    /// ceilings only. The file is the same as with large tables from the start. Off if not set.
    pub fn keep_calls(mut self, on: bool) -> Self {
        self.keep_calls = on;
        self
    }

    /// The converter, open and empty.
    pub fn build(self) -> Converter {
        let capacity = self.capacity.limited();
        let mut converter = Converter {
            setup: self.setup,
            capacity,
            record: [0; ffi::RECORD_WORDS],
            tables: Tables::new(capacity),
            scratch: Vec::new(),
            unpacked64: Vec::new(),
            unpacked32: Vec::new(),
            rows: Rows::new(),
            kept: self.keep_calls.then(Vec::new),
        };
        converter.begin();
        converter
    }
}

/// What a beginning takes.
#[derive(Clone, Debug, Default)]
struct Setup {
    debug_id: [u8; 32],
    arch: u32,
    undecorate_functions: bool,
    undecorate_symbols: bool,
}

/// The memory of the tables.
#[derive(Clone, Debug, Default, PartialEq, Eq)]
struct Tables {
    string_bytes: Vec<u8>,
    strings: Vec<u32>,
    files: Vec<u32>,
    functions: Vec<u32>,
    call_locations: Vec<u32>,
    ranges: Vec<u32>,
}

impl Tables {
    fn new(capacity: Capacity) -> Self {
        let table = |rows: usize| vec![0; rows * ffi::TABLE_ROW_WORDS];
        Tables {
            string_bytes: vec![0; capacity.string_bytes],
            strings: table(capacity.strings),
            files: table(capacity.files),
            functions: table(capacity.functions),
            call_locations: table(capacity.call_locations),
            ranges: table(capacity.ranges),
        }
    }

    fn lent(&self) -> TablesRef<'_> {
        TablesRef {
            string_bytes: &self.string_bytes,
            strings: &self.strings,
            files: &self.files,
            functions: &self.functions,
            call_locations: &self.call_locations,
            ranges: &self.ranges,
        }
    }

    fn lent_mut(&mut self) -> TablesMut<'_> {
        TablesMut {
            string_bytes: &mut self.string_bytes,
            strings: &mut self.strings,
            files: &mut self.files,
            functions: &mut self.functions,
            call_locations: &mut self.call_locations,
            ranges: &mut self.ranges,
        }
    }
}

/// An accepted call, kept to be made again.
#[derive(Clone, Debug)]
enum Call {
    Tree(Rows),
    Symbol {
        name: Option<Box<[u8]>>,
        address: u64,
        size: u64,
    },
}

/// A call that is being made.
#[derive(Clone, Copy)]
enum Given<'a> {
    Tree(Columns<'a>),
    Lines(LineRows<'a>),
    Symbol {
        name: Option<&'a [u8]>,
        address: u64,
        size: u64,
    },
}

/// Collects functions and symbols, and writes them as a SymCache file.
///
/// Its tables have a fixed capacity, chosen when it is made. A call that would need more is refused
/// with [`Error::TableFull`], which empties and closes the converter until [`Converter::restart`];
/// [`ConverterBuilder::keep_calls`] has it grow instead. Any other refusal leaves it as it was.
///
/// ```
/// use symcache::debuginfo::{FileInfo, Function, LineInfo, Symbol};
/// use symcache::{Converter, SymCache};
///
/// let mut converter = Converter::builder().arch(5).build();
/// converter.process_symbolic_function(&Function {
///     address: 0x1000,
///     size: 16,
///     name: "main".into(),
///     language: 2,
///     lines: vec![LineInfo { address: 0x1000, size: Some(16), line: 10, file: FileInfo::new("a.c", "src") }],
///     ..Function::default()
/// })?;
/// converter.process_symbolic_symbol(&Symbol { name: Some("_start".into()), address: 0x2000, size: 8 })?;
///
/// let file = converter.serialize()?;
/// let cache = SymCache::parse(&file)?;
/// let names: Vec<&str> = cache.functions().map(|function| function.name()).collect();
/// assert_eq!(names, ["main", "_start"]);
/// # Ok::<(), symcache::Error>(())
/// ```
#[derive(Clone)]
pub struct Converter {
    setup: Setup,
    capacity: Capacity,
    record: [u32; ffi::RECORD_WORDS],
    tables: Tables,
    scratch: Vec<u32>,
    unpacked64: Vec<u64>,
    unpacked32: Vec<u32>,
    rows: Rows,
    kept: Option<Vec<Call>>,
}

impl Converter {
    /// Chooses the header's values, the capacities and the switches.
    pub fn builder() -> ConverterBuilder {
        ConverterBuilder::default()
    }

    /// How much it has room for.
    pub fn capacity(&self) -> Capacity {
        self.capacity
    }

    /// How much of it is in use.
    pub fn used(&self) -> Capacity {
        let count = |word: usize| self.record[word] as usize;
        Capacity {
            string_bytes: count(c::SYMCACHE_RECORD_STRING_BYTES),
            strings: count(c::SYMCACHE_RECORD_STRINGS),
            files: count(c::SYMCACHE_RECORD_FILES),
            functions: count(c::SYMCACHE_RECORD_FUNCTIONS),
            call_locations: count(c::SYMCACHE_RECORD_CALL_LOCATIONS),
            ranges: count(c::SYMCACHE_RECORD_RANGES),
        }
    }

    /// Whether it takes calls. It does until one is refused with [`Error::TableFull`].
    pub fn is_open(&self) -> bool {
        self.record[c::SYMCACHE_RECORD_OPEN] != 0
    }

    /// How many lines of the functions added so far, inlinees' too, lie past the 32-bit space in
    /// whole or in part: the address is above `u32::MAX`, or the address plus the size (1 where
    /// there is none) is. What lies above is missing in the file.
    ///
    /// Each line counts once, also of functions that are skipped. The count stays at `u64::MAX` once
    /// there, and is 0 while the converter is closed.
    ///
    /// ```
    /// use symcache::debuginfo::{FileInfo, Function, LineInfo};
    /// use symcache::Converter;
    ///
    /// let line = |address, size| LineInfo { address, size, line: 10, file: FileInfo::new("a.c", "src") };
    /// let max = u64::from(u32::MAX);
    /// let mut converter = Converter::builder().build();
    /// converter.process_symbolic_function(&Function {
    ///     address: max - 15,
    ///     size: 32,
    ///     name: "high".into(),
    ///     lines: vec![line(max - 15, Some(15)), line(max, Some(8)), line(max + 8, Some(8))],
    ///     ..Function::default()
    /// })?;
    /// assert_eq!(converter.clamped_lines(), 2);
    /// # Ok::<(), symcache::Error>(())
    /// ```
    pub fn clamped_lines(&self) -> u64 {
        ffi::clamped_lines(&self.record)
    }

    /// Begins anew, empty, with the same header values, switches and capacities.
    pub fn restart(&mut self) {
        if let Some(kept) = &mut self.kept {
            kept.clear();
        }
        self.begin();
    }

    /// Begins anew, empty, with the same header values and switches, and this much room.
    pub fn restart_with(&mut self, capacity: Capacity) {
        self.lend(capacity.limited());
        self.restart();
    }

    /// Adds a function with its lines and all that is inlined into it.
    ///
    /// Refused with [`Error::Closed`], [`Error::InvalidRows`] (over 65,536 functions in one tree),
    /// [`Error::TooDeep`] (an inlinee deeper than [`MAX_DEPTH`]), [`Error::InvalidText`] (texts
    /// above `u32::MAX` bytes in one tree), [`Error::AddressOverflow`] or [`Error::TableFull`].
    pub fn process_symbolic_function(&mut self, function: &Function<'_>) -> Result<(), Error> {
        let mut rows = std::mem::take(&mut self.rows);
        rows.clear();
        let result = rows
            .push_tree(function)
            .and_then(|()| self.process_rows(&rows.columns()));
        self.rows = rows;
        result
    }

    /// Adds a tree given as rows in columns, of any content.
    ///
    /// Refused, in this order, with [`Error::Closed`], [`Error::InvalidRows`],
    /// [`Error::TooDeep`], [`Error::InvalidText`], [`Error::AddressOverflow`] or
    /// [`Error::TableFull`].
    pub fn process_rows(&mut self, columns: &Columns<'_>) -> Result<(), Error> {
        let words = columns.scratch_words();
        let mut scratch = std::mem::take(&mut self.scratch);
        if scratch.len() < words {
            scratch.resize(words, 0);
        }
        // No more than it needs: all that is lent is zeroed at the end.
        let result = self.make(Given::Tree(*columns), &mut scratch[..words]);
        self.scratch = scratch;
        result
    }

    /// As [`Converter::process_rows`], with the caller's scratch memory; under
    /// [`Columns::scratch_words`] it is refused with [`Error::ScratchTooSmall`], right before
    /// [`Error::TableFull`]. Scratch is zero after an accepted call and after [`Error::TableFull`],
    /// and untouched after any other refusal.
    pub fn process_rows_with(
        &mut self,
        columns: &Columns<'_>,
        scratch: &mut [u32],
    ) -> Result<(), Error> {
        self.make(Given::Tree(*columns), scratch)
    }

    /// Adds a tree whose line rows are a list of rows: the same call as [`Converter::process_rows`]
    /// with the columns that the rows stand for, and refused as that one.
    pub fn process_line_rows(&mut self, rows: &LineRows<'_>) -> Result<(), Error> {
        let words = rows.scratch_words();
        let mut scratch = std::mem::take(&mut self.scratch);
        if scratch.len() < words {
            scratch.resize(words, 0);
        }
        let result = self.make(Given::Lines(*rows), &mut scratch[..words]);
        self.scratch = scratch;
        result
    }

    /// Adds a symbol. One without a name, or above `u32::MAX`, changes nothing.
    ///
    /// Refused with [`Error::Closed`], [`Error::InvalidText`] (a name above `u32::MAX` bytes) or
    /// [`Error::TableFull`].
    pub fn process_symbolic_symbol(&mut self, symbol: &Symbol<'_>) -> Result<(), Error> {
        let name = symbol.name.as_deref().map(str::as_bytes);
        self.process_symbol_bytes(name, symbol.address, symbol.size)
    }

    /// As [`Converter::process_symbolic_symbol`], with a name of any bytes: refused with
    /// [`Error::InvalidText`] where it isn't UTF-8.
    pub fn process_symbol_bytes(
        &mut self,
        name: Option<&[u8]>,
        address: u64,
        size: u64,
    ) -> Result<(), Error> {
        self.make(
            Given::Symbol {
                name,
                address,
                size,
            },
            &mut [],
        )
    }

    /// The length of the file that would be written now.
    pub fn serialized_len(&self) -> usize {
        let used = self.used();
        // The header, the rows, padding to a multiple of 8 where the ranges are odd, and the texts.
        80 + 24 * used.files
            + 16 * (used.functions + used.call_locations)
            + 20 * used.ranges
            + 4 * (used.ranges % 2)
            + used.string_bytes
    }

    /// Writes the file. The converter stays as it is: writing may be repeated, and calls may
    /// follow.
    ///
    /// Refused with [`Error::Closed`].
    pub fn serialize(&self) -> Result<Vec<u8>, Error> {
        let mut out = vec![0; self.serialized_len()];
        let len = self.serialize_into(&mut out)?;
        out.truncate(len);
        Ok(out)
    }

    /// Writes the file to the front of `out` and answers its length. Bytes beyond it stay.
    ///
    /// Refused with [`Error::Closed`], or [`Error::OutputTooShort`]; then `out` stays.
    pub fn serialize_into(&self, out: &mut [u8]) -> Result<usize, Error> {
        let mut len = [0; ffi::LEN_WORDS];
        Error::check(ffi::serialize(
            &self.record,
            self.tables.lent(),
            out,
            &mut len,
        ))?;
        Ok(len[0] as usize)
    }

    /// Begins: the tables become zero and the record that of an open converter. A record of 20
    /// words is never refused.
    fn begin(&mut self) {
        let Setup {
            debug_id,
            arch,
            undecorate_functions,
            undecorate_symbols,
        } = &self.setup;
        let number = ffi::begin(
            &mut self.record,
            debug_id,
            *arch,
            u32::from(*undecorate_functions),
            u32::from(*undecorate_symbols),
            self.tables.lent_mut(),
        );
        debug_assert_eq!(number, 0);
    }

    /// Gets tables of this capacity. They hold nothing until a beginning.
    fn lend(&mut self, capacity: Capacity) {
        if capacity != self.capacity {
            // The old tables go first, so that both are never held at once.
            self.tables = Tables::default();
            self.tables = Tables::new(capacity);
            self.capacity = capacity;
        }
    }

    /// Makes a call and, where calls are kept, keeps it, or makes all of them again in larger
    /// tables.
    fn make(&mut self, given: Given<'_>, scratch: &mut [u32]) -> Result<(), Error> {
        let mut result = self.call(given, scratch);
        while result == Err(Error::TableFull) && self.kept.is_some() {
            let larger = self.capacity.doubled();
            if larger == self.capacity {
                return result;
            }
            self.lend(larger);
            result = self.replay().and_then(|()| self.call(given, scratch));
        }
        if result.is_ok() {
            if let Some(kept) = &mut self.kept {
                kept.push(given.to_kept());
            }
        }
        result
    }

    /// Begins anew and makes the kept calls again.
    fn replay(&mut self) -> Result<(), Error> {
        self.begin();
        let kept = self.kept.take().unwrap_or_default();
        let mut scratch = std::mem::take(&mut self.scratch);
        let result = kept.iter().try_for_each(|call| {
            let given = call.given();
            let words = given.scratch_words();
            if scratch.len() < words {
                scratch.resize(words, 0);
            }
            self.call(given, &mut scratch[..words])
        });
        self.scratch = scratch;
        self.kept = Some(kept);
        result
    }

    /// Makes one call.
    fn call(&mut self, given: Given<'_>, scratch: &mut [u32]) -> Result<(), Error> {
        let tables = self.tables.lent_mut();
        Error::check(match given {
            Given::Tree(columns) => {
                ffi::process_symbolic_function(&mut self.record, tables, scratch, &columns)
            }
            Given::Lines(rows) => {
                // As many words as the line rows are unpacked to.
                let (words64, words32) = (
                    rows.lines.len() * LINES64_WORDS,
                    rows.lines.len() * LINES32_WORDS,
                );
                if self.unpacked64.len() < words64 {
                    self.unpacked64.resize(words64, 0);
                }
                if self.unpacked32.len() < words32 {
                    self.unpacked32.resize(words32, 0);
                }
                ffi::process_symbolic_function_lines(
                    &mut self.record,
                    tables,
                    scratch,
                    &mut self.unpacked64[..words64],
                    &mut self.unpacked32[..words32],
                    &rows,
                )
            }
            Given::Symbol {
                name,
                address,
                size,
            } => {
                let text = name.unwrap_or_default();
                // A longer name is refused as a text outside the lent one.
                let (text, len) = match u32::try_from(text.len()) {
                    Ok(len) => (text, len),
                    Err(_) => (&[][..], u32::MAX),
                };
                ffi::process_symbolic_symbol(
                    &mut self.record,
                    tables,
                    text,
                    address,
                    size,
                    u32::from(name.is_some()),
                    0,
                    len,
                )
            }
        })
    }
}

impl Given<'_> {
    fn scratch_words(&self) -> usize {
        match self {
            Given::Tree(columns) => columns.scratch_words(),
            Given::Lines(rows) => rows.scratch_words(),
            Given::Symbol { .. } => 0,
        }
    }

    fn to_kept(self) -> Call {
        match self {
            Given::Tree(columns) => Call::Tree(Rows::copied(&columns)),
            Given::Lines(rows) => Call::Tree(Rows::copied(&rows.to_rows().columns())),
            Given::Symbol {
                name,
                address,
                size,
            } => Call::Symbol {
                name: name.map(Box::from),
                address,
                size,
            },
        }
    }
}

impl Call {
    fn given(&self) -> Given<'_> {
        match self {
            Call::Tree(rows) => Given::Tree(rows.columns()),
            Call::Symbol {
                name,
                address,
                size,
            } => Given::Symbol {
                name: name.as_deref(),
                address: *address,
                size: *size,
            },
        }
    }
}

impl fmt::Debug for Converter {
    fn fmt(&self, f: &mut fmt::Formatter<'_>) -> fmt::Result {
        f.debug_struct("Converter")
            .field("debug_id", &self.setup.debug_id)
            .field("arch", &self.setup.arch)
            .field("open", &self.is_open())
            .field("used", &self.used())
            .field("capacity", &self.capacity)
            .finish_non_exhaustive()
    }
}

#[cfg(test)]
mod tests {
    use super::*;
    use crate::debuginfo::{FileInfo, LineInfo};

    fn tree() -> Function<'static> {
        Function {
            address: 0x1000,
            size: 16,
            name: "trk".into(),
            lines: vec![LineInfo {
                address: 0x1000,
                size: Some(8),
                line: 10,
                file: FileInfo::new("a.rs", "src"),
            }],
            ..Function::default()
        }
    }

    /// All that a converter lends between calls.
    fn memory(converter: &Converter) -> ([u32; ffi::RECORD_WORDS], Tables) {
        (converter.record, converter.tables.clone())
    }

    #[test]
    fn a_refusal_leaves_every_word() {
        let mut converter = Converter::builder().arch(3).build();
        converter.process_symbolic_function(&tree()).unwrap();
        let before = memory(&converter);

        let mut overflow = tree();
        overflow.address = u64::MAX;
        let result = converter.process_symbolic_function(&overflow);
        assert_eq!(result, Err(Error::AddressOverflow));
        assert_eq!(memory(&converter), before);

        let mut rows = Rows::new();
        rows.push_tree(&tree()).unwrap();
        let text = &rows.columns().text[1..];
        let cut = Columns {
            text,
            ..rows.columns()
        };
        assert_eq!(converter.process_rows(&cut), Err(Error::InvalidText));
        let none = Columns::default();
        assert_eq!(converter.process_rows(&none), Err(Error::InvalidRows));
        let result = converter.process_rows_with(&rows.columns(), &mut [1]);
        assert_eq!(result, Err(Error::ScratchTooSmall));
        let result = converter.process_symbol_bytes(Some(b"\xff"), 1, 1);
        assert_eq!(result, Err(Error::InvalidText));
        let result = converter.serialize_into(&mut [0; 80]);
        assert_eq!(result, Err(Error::OutputTooShort));
        assert_eq!(memory(&converter), before);
    }

    #[test]
    fn a_full_table_leaves_zeros() {
        let mut converter = Converter::builder().arch(3).ranges(1).build();
        let zeros = converter.tables.clone();
        let result = converter.process_symbolic_function(&tree());
        assert_eq!(result, Err(Error::TableFull));
        assert!(!converter.is_open());
        assert!(converter.tables == zeros);
        assert!(zeros.ranges.iter().all(|word| *word == 0));
        let closed = memory(&converter);
        let result = converter.process_symbolic_function(&tree());
        assert_eq!(result, Err(Error::Closed));
        assert_eq!(memory(&converter), closed);
    }

    #[test]
    fn clamped_lines_are_counted_once() {
        let mut far = tree();
        far.lines[0].address = u64::from(u32::MAX);
        far.inlinees.push(far.clone());
        // With room for one range the calls are made again in larger tables.
        for grows in [false, true] {
            let mut converter = Converter::builder()
                .ranges(if grows { 1 } else { 99 })
                .keep_calls(grows)
                .build();
            for trees in 1..=3 {
                converter.process_symbolic_function(&far).unwrap();
                assert_eq!(converter.clamped_lines(), 2 * trees);
                converter.process_symbolic_function(&tree()).unwrap();
                assert_eq!(converter.clamped_lines(), 2 * trees);
            }
            let copy = converter.clone();
            converter.restart();
            assert_eq!((converter.clamped_lines(), copy.clamped_lines()), (0, 6));
        }

        // 17 closes, and then there is nothing to hand out.
        let mut converter = Converter::builder().build();
        converter.process_symbolic_function(&far).unwrap();
        let ranges = converter.used().ranges;
        let mut converter = Converter::builder().ranges(ranges).build();
        converter.process_symbolic_function(&far).unwrap();
        assert_eq!(converter.clamped_lines(), 2);
        let mut other = far.clone();
        other.address = 0x5000;
        assert_eq!(
            converter.process_symbolic_function(&other),
            Err(Error::TableFull)
        );
        assert_eq!(converter.clamped_lines(), 0);
    }

    #[test]
    fn a_name_that_no_length_holds_is_refused() {
        // What `call` lends in its place: nothing, with a length of u32::MAX.
        let mut converter = Converter::builder().build();
        let tables = converter.tables.lent_mut();
        let max = u32::MAX;
        let number =
            ffi::process_symbolic_symbol(&mut converter.record, tables, &[], 1, 1, 1, 0, max);
        assert_eq!(number, 14);
    }

    #[test]
    fn capacities_end_at_the_ceilings() {
        let most = Capacity {
            string_bytes: MAX_STRING_BYTES,
            strings: MAX_ROWS,
            files: MAX_ROWS,
            functions: MAX_ROWS,
            call_locations: MAX_ROWS,
            ranges: MAX_ROWS,
        };
        let n = usize::MAX;
        assert_eq!(Capacity::for_input(n, n, n, n), most);
        assert_eq!(most.doubled(), most);
        let mut capacity = Capacity::for_input(0, 0, 0, 0);
        assert_eq!(capacity.strings, 0);
        // From 16 to 2^28 bytes.
        for _ in 0..25 {
            assert_ne!(capacity, most);
            capacity = capacity.doubled();
        }
        assert_eq!(capacity, most);
    }
}
