//! The proved library's C interface, one safe function for each of its functions. The only unsafe
//! code of the crate, and hidden in its documentation: it is public for the tools of the repository.
//!
//! Every function of the library is total: it takes any content of any length. What its caller owes
//! is that each pointer and length is a slice, that written slices are not shared, and that slices
//! don't overlap. Rust's references owe the same: a `&mut` slice is shared with nothing, so here
//! overlap can't be written down. (Two `&` slices may be parts of one memory; both are only read,
//! and nothing is written through them.)
//!
//! What each function does, and what its slices hold, is said in include/symcache.h.

#![allow(unsafe_code, missing_docs, clippy::too_many_arguments)]

/// The declarations of include/symcache.h, written from it by build.rs.
#[allow(non_camel_case_types)]
pub mod c {
    include!(concat!(env!("OUT_DIR"), "/symcache.rs"));
}

/// How many words a lent slice needs, as a length.
pub const RECORD_WORDS: usize = c::SYMCACHE_RECORD_WORDS as usize;
pub const TABLE_ROW_WORDS: usize = c::SYMCACHE_TABLE_ROW_WORDS as usize;
pub const SCRATCH_ROW_WORDS: usize = c::SYMCACHE_SCRATCH_ROW_WORDS as usize;
pub const FUNCTIONS64_WORDS: usize = c::SYMCACHE_FUNCTIONS64_WORDS as usize;
pub const FUNCTIONS32_WORDS: usize = c::SYMCACHE_FUNCTIONS32_WORDS as usize;
pub const LINES64_WORDS: usize = c::SYMCACHE_LINES64_WORDS as usize;
pub const LINES32_WORDS: usize = c::SYMCACHE_LINES32_WORDS as usize;
pub const LEN_WORDS: usize = c::SYMCACHE_LEN_WORDS as usize;
pub const CACHE_WORDS: usize = c::SYMCACHE_CACHE_WORDS as usize;
pub const CURSOR_WORDS: usize = c::SYMCACHE_CURSOR_WORDS as usize;
pub const FRAME_WORDS: usize = c::SYMCACHE_FRAME_WORDS as usize;
pub const PART_WORDS: usize = c::SYMCACHE_PART_WORDS as usize;
pub const FUNCTION_WORDS: usize = c::SYMCACHE_FUNCTION_WORDS as usize;
pub const FILE_WORDS: usize = c::SYMCACHE_FILE_WORDS as usize;
pub const LIST_CURSOR_WORDS: usize = c::SYMCACHE_LIST_CURSOR_WORDS as usize;
pub const LISTED_FUNCTION_WORDS: usize = c::SYMCACHE_LISTED_FUNCTION_WORDS as usize;
pub const LISTED_FILE_WORDS: usize = c::SYMCACHE_LISTED_FILE_WORDS as usize;

/// The tables that a converter is lent, as its calls change them.
pub struct TablesMut<'a> {
    pub string_bytes: &'a mut [u8],
    pub strings: &'a mut [u32],
    pub files: &'a mut [u32],
    pub functions: &'a mut [u32],
    pub call_locations: &'a mut [u32],
    pub ranges: &'a mut [u32],
}

/// The same, only read.
pub struct TablesRef<'a> {
    pub string_bytes: &'a [u8],
    pub strings: &'a [u32],
    pub files: &'a [u32],
    pub functions: &'a [u32],
    pub call_locations: &'a [u32],
    pub ranges: &'a [u32],
}

impl TablesMut<'_> {
    pub fn read(&self) -> TablesRef<'_> {
        TablesRef {
            string_bytes: self.string_bytes,
            strings: self.strings,
            files: self.files,
            functions: self.functions,
            call_locations: self.call_locations,
            ranges: self.ranges,
        }
    }
}

pub fn begin(
    record: &mut [u32],
    debug_id: &[u8],
    arch: u32,
    undecorate_functions: u32,
    undecorate_symbols: u32,
    tables: TablesMut<'_>,
) -> u32 {
    // SAFETY: each pointer and length comes from one reference to a slice that lives through the
    // call. Written slices come from `&mut`, so nothing overlaps them.
    unsafe {
        c::symcache_begin(
            record.as_mut_ptr(),
            record.len(),
            debug_id.as_ptr(),
            debug_id.len(),
            arch,
            undecorate_functions,
            undecorate_symbols,
            tables.string_bytes.as_mut_ptr(),
            tables.string_bytes.len(),
            tables.strings.as_mut_ptr(),
            tables.strings.len(),
            tables.files.as_mut_ptr(),
            tables.files.len(),
            tables.functions.as_mut_ptr(),
            tables.functions.len(),
            tables.call_locations.as_mut_ptr(),
            tables.call_locations.len(),
            tables.ranges.as_mut_ptr(),
            tables.ranges.len(),
        )
    }
}

pub fn process_symbolic_function(
    record: &mut [u32],
    tables: TablesMut<'_>,
    scratch: &mut [u32],
    columns: &crate::Columns<'_>,
) -> u32 {
    // SAFETY: each pointer and length comes from one reference to a slice that lives through the
    // call. Written slices come from `&mut`, so nothing overlaps them.
    unsafe {
        c::symcache_process_symbolic_function(
            record.as_mut_ptr(),
            record.len(),
            tables.string_bytes.as_mut_ptr(),
            tables.string_bytes.len(),
            tables.strings.as_mut_ptr(),
            tables.strings.len(),
            tables.files.as_mut_ptr(),
            tables.files.len(),
            tables.functions.as_mut_ptr(),
            tables.functions.len(),
            tables.call_locations.as_mut_ptr(),
            tables.call_locations.len(),
            tables.ranges.as_mut_ptr(),
            tables.ranges.len(),
            scratch.as_mut_ptr(),
            scratch.len(),
            columns.functions64.as_ptr(),
            columns.functions64.len(),
            columns.functions32.as_ptr(),
            columns.functions32.len(),
            columns.lines64.as_ptr(),
            columns.lines64.len(),
            columns.lines32.as_ptr(),
            columns.lines32.len(),
            columns.text.as_ptr(),
            columns.text.len(),
        )
    }
}

pub fn process_symbolic_function_lines(
    record: &mut [u32],
    tables: TablesMut<'_>,
    scratch: &mut [u32],
    unpacked64: &mut [u64],
    unpacked32: &mut [u32],
    rows: &crate::LineRows<'_>,
) -> u32 {
    // SAFETY: each pointer and length comes from one reference to a slice that lives through the
    // call. Written slices come from `&mut`, so nothing overlaps them. `LineRow` and its parts are
    // laid out as the header's structs (a test below).
    unsafe {
        c::symcache_process_symbolic_function_lines(
            record.as_mut_ptr(),
            record.len(),
            tables.string_bytes.as_mut_ptr(),
            tables.string_bytes.len(),
            tables.strings.as_mut_ptr(),
            tables.strings.len(),
            tables.files.as_mut_ptr(),
            tables.files.len(),
            tables.functions.as_mut_ptr(),
            tables.functions.len(),
            tables.call_locations.as_mut_ptr(),
            tables.call_locations.len(),
            tables.ranges.as_mut_ptr(),
            tables.ranges.len(),
            scratch.as_mut_ptr(),
            scratch.len(),
            unpacked64.as_mut_ptr(),
            unpacked64.len(),
            unpacked32.as_mut_ptr(),
            unpacked32.len(),
            rows.functions64.as_ptr(),
            rows.functions64.len(),
            rows.functions32.as_ptr(),
            rows.functions32.len(),
            rows.lines.as_ptr().cast(),
            rows.lines.len(),
            rows.text.as_ptr(),
            rows.text.len(),
        )
    }
}

pub fn process_symbolic_symbol(
    record: &mut [u32],
    tables: TablesMut<'_>,
    text: &[u8],
    address: u64,
    size: u64,
    named: u32,
    name_start: u32,
    name_len: u32,
) -> u32 {
    // SAFETY: each pointer and length comes from one reference to a slice that lives through the
    // call. Written slices come from `&mut`, so nothing overlaps them.
    unsafe {
        c::symcache_process_symbolic_symbol(
            record.as_mut_ptr(),
            record.len(),
            tables.string_bytes.as_mut_ptr(),
            tables.string_bytes.len(),
            tables.strings.as_mut_ptr(),
            tables.strings.len(),
            tables.files.as_mut_ptr(),
            tables.files.len(),
            tables.functions.as_mut_ptr(),
            tables.functions.len(),
            tables.call_locations.as_mut_ptr(),
            tables.call_locations.len(),
            tables.ranges.as_mut_ptr(),
            tables.ranges.len(),
            text.as_ptr(),
            text.len(),
            address,
            size,
            named,
            name_start,
            name_len,
        )
    }
}

pub fn clamped_lines(record: &[u32]) -> u64 {
    // SAFETY: the pointer and the length come from one reference to a slice that lives through the
    // call.
    unsafe { c::symcache_clamped_lines(record.as_ptr(), record.len()) }
}

pub fn serialize(record: &[u32], tables: TablesRef<'_>, out: &mut [u8], len: &mut [u64]) -> u32 {
    // SAFETY: each pointer and length comes from one reference to a slice that lives through the
    // call. Written slices come from `&mut`, so nothing overlaps them; the others are only read.
    unsafe {
        c::symcache_serialize(
            record.as_ptr(),
            record.len(),
            tables.string_bytes.as_ptr(),
            tables.string_bytes.len(),
            tables.strings.as_ptr(),
            tables.strings.len(),
            tables.files.as_ptr(),
            tables.files.len(),
            tables.functions.as_ptr(),
            tables.functions.len(),
            tables.call_locations.as_ptr(),
            tables.call_locations.len(),
            tables.ranges.as_ptr(),
            tables.ranges.len(),
            out.as_mut_ptr(),
            out.len(),
            len.as_mut_ptr(),
            len.len(),
        )
    }
}

pub fn parse(bytes: &[u8], cache: &mut [u64]) -> u32 {
    // SAFETY: both are slices that live through the call; `cache` is `&mut`, so they don't overlap.
    unsafe { c::symcache_parse(bytes.as_ptr(), bytes.len(), cache.as_mut_ptr(), cache.len()) }
}

pub fn open(bytes: &[u8], cache: &mut [u64]) -> u32 {
    // SAFETY: both are slices that live through the call; `cache` is `&mut`, so they don't overlap.
    unsafe { c::symcache_open(bytes.as_ptr(), bytes.len(), cache.as_mut_ptr(), cache.len()) }
}

pub fn find(bytes: &[u8], cache: &[u64], addr: u64) -> u32 {
    // SAFETY: both are slices that live through the call, and are only read.
    unsafe {
        c::symcache_find(
            bytes.as_ptr(),
            bytes.len(),
            cache.as_ptr(),
            cache.len(),
            addr,
        )
    }
}

pub fn walk(bytes: &[u8], cache: &[u64], addr: u64, cursor: &mut [u32]) -> u32 {
    // SAFETY: all three are slices that live through the call; `cursor` is `&mut`, so nothing
    // overlaps it, and the others are only read.
    unsafe {
        c::symcache_walk(
            bytes.as_ptr(),
            bytes.len(),
            cache.as_ptr(),
            cache.len(),
            addr,
            cursor.as_mut_ptr(),
            cursor.len(),
        )
    }
}

pub fn lookup(bytes: &[u8], addr: u64, cursor: &mut [u32]) -> u32 {
    // SAFETY: both are slices that live through the call; `cursor` is `&mut`, so they don't overlap.
    unsafe {
        c::symcache_lookup(
            bytes.as_ptr(),
            bytes.len(),
            addr,
            cursor.as_mut_ptr(),
            cursor.len(),
        )
    }
}

pub fn next(bytes: &[u8], cursor: &mut [u32], frame: &mut [u32]) -> u32 {
    // SAFETY: all three are slices that live through the call; `cursor` and `frame` are `&mut`, so
    // nothing overlaps them.
    unsafe {
        c::symcache_next(
            bytes.as_ptr(),
            bytes.len(),
            cursor.as_mut_ptr(),
            cursor.len(),
            frame.as_mut_ptr(),
            frame.len(),
        )
    }
}

pub fn read_string(bytes: &[u8], offset: u32, part: &mut [u64]) -> u32 {
    // SAFETY: both are slices that live through the call; `part` is `&mut`, so they don't overlap.
    unsafe {
        c::symcache_read_string(
            bytes.as_ptr(),
            bytes.len(),
            offset,
            part.as_mut_ptr(),
            part.len(),
        )
    }
}

pub fn function_name(bytes: &[u8], function_idx: u32, part: &mut [u64]) -> u32 {
    // SAFETY: both are slices that live through the call; `part` is `&mut`, so they don't overlap.
    unsafe {
        c::symcache_function_name(
            bytes.as_ptr(),
            bytes.len(),
            function_idx,
            part.as_mut_ptr(),
            part.len(),
        )
    }
}

pub fn get_function(bytes: &[u8], function_idx: u32, row: &mut [u32]) -> u32 {
    // SAFETY: both are slices that live through the call; `row` is `&mut`, so they don't overlap.
    unsafe {
        c::symcache_get_function(
            bytes.as_ptr(),
            bytes.len(),
            function_idx,
            row.as_mut_ptr(),
            row.len(),
        )
    }
}

pub fn get_file(bytes: &[u8], file_idx: u32, row: &mut [u32]) -> u32 {
    // SAFETY: both are slices that live through the call; `row` is `&mut`, so they don't overlap.
    unsafe {
        c::symcache_get_file(
            bytes.as_ptr(),
            bytes.len(),
            file_idx,
            row.as_mut_ptr(),
            row.len(),
        )
    }
}

pub fn functions_next(bytes: &[u8], cursor: &mut [u32], row: &mut [u32]) -> u32 {
    // SAFETY: all three are slices that live through the call; `cursor` and `row` are `&mut`, so
    // nothing overlaps them.
    unsafe {
        c::symcache_functions_next(
            bytes.as_ptr(),
            bytes.len(),
            cursor.as_mut_ptr(),
            cursor.len(),
            row.as_mut_ptr(),
            row.len(),
        )
    }
}

pub fn files_next(bytes: &[u8], cursor: &mut [u32], row: &mut [u32]) -> u32 {
    // SAFETY: all three are slices that live through the call; `cursor` and `row` are `&mut`, so
    // nothing overlaps them.
    unsafe {
        c::symcache_files_next(
            bytes.as_ptr(),
            bytes.len(),
            cursor.as_mut_ptr(),
            cursor.len(),
            row.as_mut_ptr(),
            row.len(),
        )
    }
}

/// What the header says of single words, on document 01's worked file.
#[cfg(test)]
mod tests {
    use super::*;

    const FILE: &[u8] = include_bytes!("../../crates/lister/data/cache.sym");

    /// A file with one symbol, `s` at 16, whose location has no file.
    fn symbol_file() -> Vec<u8> {
        let mut converter = crate::Converter::builder().build();
        converter.process_symbol_bytes(Some(b"s"), 16, 4).unwrap();
        converter.serialize().unwrap()
    }

    struct Memory {
        texts: Vec<u8>,
        words: [Vec<u32>; 5],
    }

    impl Memory {
        fn lent(&mut self) -> TablesMut<'_> {
            let [strings, files, functions, call_locations, ranges] = &mut self.words;
            TablesMut {
                string_bytes: &mut self.texts,
                strings,
                files,
                functions,
                call_locations,
                ranges,
            }
        }
    }

    /// Where a field lies in a struct.
    fn offset<S, F>(of: &S, field: &F) -> usize {
        field as *const F as usize - of as *const S as usize
    }

    macro_rules! same_layout {
        ($ours:expr, $header:ident, $($field:ident: $value:expr),+) => {{
            let ours = $ours;
            // All fields of the header's struct, with its types.
            let header = c::$header { $($field: $value(ours.$field)),+ };
            assert_eq!(size_of_val(&ours), size_of_val(&header));
            assert_eq!(align_of_val(&ours), align_of_val(&header));
            $(assert_eq!(offset(&ours, &ours.$field), offset(&header, &header.$field));)+
            header
        }};
    }

    #[test]
    fn line_rows_are_laid_out_as_the_headers() {
        use crate::{LineRow, OptionalPart, TextPart};
        use std::convert::identity as same;
        use std::mem::{align_of_val, size_of_val};
        let text = |ours: TextPart| same_layout!(ours, symcache_text_part, start: same, len: same);
        let optional = |ours: OptionalPart| same_layout!(ours, symcache_optional_part, present: same, part: text);
        same_layout!(
            LineRow::default(), symcache_line_row, address: same, has_size: same, size: same, number: same, name: text,
            directory: text, srcsrv_name: optional, srcsrv_dir: optional, revision: optional
        );
    }

    #[test]
    fn the_record() {
        let mut memory = Memory {
            texts: vec![7; 100],
            words: std::array::from_fn(|_| vec![7; 80]),
        };

        // One of 19 words is a closed converter, and stays.
        let mut short = [7; RECORD_WORDS - 1];
        assert_eq!(begin(&mut short, &[1], 2, 1, 0, memory.lent()), 19);
        assert_eq!(short, [7; RECORD_WORDS - 1]);
        assert_eq!(clamped_lines(&short), 0);
        assert!(memory.words[0].iter().all(|word| *word == 7));

        // Bytes that the debug id lacks are 0, and words past the record's own stay.
        let mut record = [7; RECORD_WORDS + 2];
        let id: Vec<u8> = (1..=6).collect();
        assert_eq!(begin(&mut record, &id, 2, 1, 0, memory.lent()), 0);
        let mut wanted = [0; RECORD_WORDS + 2];
        wanted[..2].copy_from_slice(&[0x04030201, 0x0605]);
        wanted[8..11].copy_from_slice(&[2, 1, 0]);
        wanted[c::SYMCACHE_RECORD_OPEN..].copy_from_slice(&[1, 7, 7]);
        assert_eq!(record, wanted);
        assert!(memory.words[0].iter().all(|word| *word == 0));

        let mut rows = crate::Rows::new();
        rows.push_function(0, 0x1000, 16, false, 2, "trk", b"/b")
            .unwrap();
        let mut scratch = [7; 5];
        let columns = rows.columns();
        assert_eq!(
            process_symbolic_function(&mut record, memory.lent(), &mut scratch, &columns),
            0
        );
        assert_eq!(scratch, [0; 5]);
        // Four text bytes, one text, one function, its start and its end.
        wanted[c::SYMCACHE_RECORD_STRING_BYTES..c::SYMCACHE_RECORD_OPEN]
            .copy_from_slice(&[4, 1, 0, 1, 0, 2, 0, 0]);
        assert_eq!(record, wanted);

        assert_eq!(
            process_symbolic_symbol(&mut record, memory.lent(), b"xsy", 0x2000, 0, 1, 1, 2),
            0
        );
        // Its three text bytes, its function and its start.
        wanted[c::SYMCACHE_RECORD_STRING_BYTES..c::SYMCACHE_RECORD_OPEN]
            .copy_from_slice(&[7, 2, 0, 2, 0, 3, 0, 0]);
        assert_eq!(record, wanted);
    }

    /// A converter that has just begun, where record and tables held `word`s before.
    fn begun(word: u8) -> ([u32; RECORD_WORDS], Memory) {
        let mut memory = Memory {
            texts: vec![word; 100],
            words: std::array::from_fn(|_| vec![word.into(); 80]),
        };
        let mut record = [word.into(); RECORD_WORDS];
        assert_eq!(begin(&mut record, &[], 0, 0, 0, memory.lent()), 0);
        (record, memory)
    }

    #[test]
    fn the_count_of_clamped_lines() {
        let (mut record, mut memory) = begun(7);
        assert_eq!(clamped_lines(&record), 0);

        // A skipped root with lines at (MAX, 0), (MAX, absent), (MAX - 5, 5), (MAX - 5, 6), (MAX + 1, 0).
        let max = u64::from(u32::MAX);
        let mut functions32 = [0; FUNCTIONS32_WORDS];
        functions32[c::SYMCACHE_FUNCTION_LINES] = 5;
        let lines = [
            (max, Some(0)),
            (max, None),
            (max - 5, Some(5)),
            (max - 5, Some(6)),
            (max + 1, Some(0)),
        ];
        let mut lines64 = Vec::new();
        let mut lines32 = Vec::new();
        for (address, size) in lines {
            lines64.extend([address, size.unwrap_or(9), 1]);
            let mut words = [0; LINES32_WORDS];
            words[c::SYMCACHE_LINE_HAS_SIZE] = u32::from(size.is_some());
            lines32.extend(words);
        }
        let columns = crate::Columns {
            functions64: &[0x1000, 0],
            functions32: &functions32,
            lines64: &lines64,
            lines32: &lines32,
            text: &[],
        };
        let mut scratch = [0; 4 * 6];
        let tree = |record: &mut [u32], memory: &mut Memory, scratch: &mut [u32]| {
            process_symbolic_function(record, memory.lent(), scratch, &columns)
        };
        assert_eq!(tree(&mut record, &mut memory, &mut scratch[1..]), 16);
        assert_eq!(clamped_lines(&record), 0);
        assert_eq!(tree(&mut record, &mut memory, &mut scratch), 0);
        assert_eq!(clamped_lines(&record), 3);
        let clamped = c::SYMCACHE_RECORD_CLAMPED_LINES;
        assert_eq!(record[clamped..clamped + 2], [3, 0]);

        // The high word; then it stays at the most that 64 bits hold.
        record[clamped..clamped + 2].copy_from_slice(&[u32::MAX, 1]);
        assert_eq!(tree(&mut record, &mut memory, &mut scratch), 0);
        assert_eq!(clamped_lines(&record), (2 << 32) + 2);
        record[clamped..clamped + 2].copy_from_slice(&[u32::MAX - 2, u32::MAX]);
        assert_eq!(clamped_lines(&record), u64::MAX - 2);
        assert_eq!(tree(&mut record, &mut memory, &mut scratch), 0);
        assert_eq!(clamped_lines(&record), u64::MAX);
        assert_eq!(tree(&mut record, &mut memory, &mut scratch), 0);
        assert_eq!(clamped_lines(&record), u64::MAX);

        // Closed, whatever its words say, and with a word too few.
        assert_eq!(clamped_lines(&record[..RECORD_WORDS - 1]), 0);
        record[c::SYMCACHE_RECORD_OPEN] = 0;
        assert_eq!(clamped_lines(&record), 0);
        assert_eq!(tree(&mut record, &mut memory, &mut scratch), 19);
        assert_eq!(record[clamped], u32::MAX);
    }

    #[test]
    fn rows_and_scratch_of_exactly_their_words() {
        let (mut record, mut memory) = begun(0);
        let functions64 = [16; FUNCTIONS64_WORDS];
        let mut functions32 = [0; FUNCTIONS32_WORDS];
        functions32[c::SYMCACHE_FUNCTION_LINES] = 1;
        let columns = crate::Columns {
            functions64: &functions64,
            functions32: &functions32,
            lines64: &[16; LINES64_WORDS],
            lines32: &[0; LINES32_WORDS],
            text: &[],
        };
        let rows = crate::LineRows {
            functions64: &functions64,
            functions32: &functions32,
            lines: &[crate::LineRow::default()],
            text: &[],
        };
        let mut tree = |scratch: usize| {
            process_symbolic_function(&mut record, memory.lent(), &mut vec![7; scratch], &columns)
        };
        assert_eq!(
            tree(2 * SCRATCH_ROW_WORDS - 1),
            c::SYMCACHE_SCRATCH_TOO_SMALL
        );
        assert_eq!(tree(2 * SCRATCH_ROW_WORDS), 0);
        let mut lines = |words64: usize, words32: usize| {
            let scratch = &mut [7; 2 * SCRATCH_ROW_WORDS];
            let (unpacked64, unpacked32) = (&mut vec![7; words64], &mut vec![7; words32]);
            process_symbolic_function_lines(
                &mut record,
                memory.lent(),
                scratch,
                unpacked64,
                unpacked32,
                &rows,
            )
        };
        assert_eq!(
            lines(LINES64_WORDS - 1, LINES32_WORDS),
            c::SYMCACHE_SCRATCH_TOO_SMALL
        );
        assert_eq!(
            lines(LINES64_WORDS, LINES32_WORDS - 1),
            c::SYMCACHE_SCRATCH_TOO_SMALL
        );
        assert_eq!(lines(LINES64_WORDS, LINES32_WORDS), 0);
    }

    #[test]
    fn ten_stores_its_counts_and_other_refusals_nothing() {
        for read in [parse, open] {
            let mut cache = [7; CACHE_WORDS];
            assert_eq!(read(&FILE[..304], &mut cache), 10);
            assert_eq!(cache, [25, 24, 7, 7, 7, 7, 7, 7, 7, 7]);
            let mut cache = [7; CACHE_WORDS];
            assert_eq!(read(&FILE[..100], &mut cache), 6);
            assert_eq!(cache, [7; CACHE_WORDS]);
            assert_eq!(read(FILE, &mut cache), 0);
            assert_eq!(cache, [80, 2, 128, 2, 160, 6, 256, 5, 280, 25]);
        }
    }

    #[test]
    fn a_walk() {
        let mut cache = [0; CACHE_WORDS];
        open(FILE, &mut cache);
        let mut cursor = [7; CURSOR_WORDS];
        assert_eq!(find(FILE, &cache, 0x1010), 5);
        assert_eq!(walk(FILE, &cache, 0x1010, &mut cursor), u32::MAX);
        let mut frame = [7; FRAME_WORDS];
        assert_eq!(next(FILE, &mut cursor, &mut frame), 0);
        assert_eq!((frame[0], &frame[1..]), (0, &[7; 12][..]));

        assert_eq!(walk(FILE, &cache, 0x1003, &mut cursor), 2);
        assert_eq!(cursor, [2, 2, 0]);
        assert_eq!(next(FILE, &mut cursor, &mut frame), 0);
        let max = u32::MAX;
        assert_eq!(frame, [2, 2, 1, 50, 1, max, 2, 13, 9, 20, max, max, max]);
        assert_eq!(frame[c::SYMCACHE_FRAME_KIND], c::SYMCACHE_FRAME_WITH_FILE);
        assert_eq!(frame[c::SYMCACHE_FRAME_LINE], 50);
        assert_eq!(frame[c::SYMCACHE_FRAME_ENTRY], c::SYMCACHE_MAX);
        assert_eq!(frame[c::SYMCACHE_FRAME_COMP_DIR], 13);
        assert_eq!(frame[c::SYMCACHE_FRAME_DIRECTORY], 9);
        assert_eq!(frame[c::SYMCACHE_FRAME_NAME], 20);
        assert_eq!(next(FILE, &mut cursor, &mut frame), 0);
        assert_eq!(frame, [2, 0, 0, 10, 0, 0x1000, 2, 13, 9, 4, max, max, max]);
        let last = cursor;
        assert_eq!(next(FILE, &mut cursor, &mut frame), 0);
        assert_eq!((frame[0], frame[3], cursor), (0, 10, last));
        assert_eq!(next(&FILE[..79], &mut cursor, &mut frame), 5);
        assert_eq!((frame[0], frame[3], cursor), (0, 10, last));
    }

    #[test]
    fn a_frame_without_a_file_leaves_the_text_offsets() {
        let file = symbol_file();
        let mut cache = [0; CACHE_WORDS];
        assert_eq!(open(&file, &mut cache), 0);
        let mut cursor = [7; CURSOR_WORDS];
        assert_eq!(walk(&file, &cache, 18, &mut cursor), 0);
        let mut frame = [7; FRAME_WORDS];
        assert_eq!(next(&file, &mut cursor, &mut frame), 0);
        let max = u32::MAX;
        assert_eq!(frame, [1, 0, 0, 0, max, 16, max, 7, 7, 7, 7, 7, 7]);
    }

    #[test]
    fn texts_and_rows() {
        let mut part = [7; PART_WORDS];
        assert_eq!(read_string(FILE, u32::MAX, &mut part), 0);
        assert_eq!(part, [0, 7, 7]);
        assert_eq!(read_string(FILE, 4, &mut part), 0);
        assert_eq!(part, [1, 285, 4]);
        let mut part = [7; PART_WORDS];
        assert_eq!(function_name(FILE, 2, &mut part), 0);
        assert_eq!(part, [0, 7, 7]);
        assert_eq!(function_name(FILE, 1, &mut part), 0);
        assert_eq!(part, [1, 297, 3]);
        assert_eq!(function_name(&FILE[..7], 1, &mut part), 1);
        assert_eq!(part, [1, 297, 3]);

        let max = u32::MAX;
        let mut row = [7; FUNCTION_WORDS];
        assert_eq!(get_function(FILE, 2, &mut row), 0);
        assert_eq!(row, [0, 7, 7, 7, 7]);
        assert_eq!(get_function(FILE, 0, &mut row), 0);
        assert_eq!(row, [1, 0, max, 0x1000, 2]);
        let mut row = [7; FILE_WORDS];
        assert_eq!(get_file(FILE, 2, &mut row), 0);
        assert_eq!(row, [0, 7, 7, 7, 7, 7, 7]);
        assert_eq!(get_file(FILE, 1, &mut row), 0);
        assert_eq!(row, [1, 13, 9, 20, max, max, max]);
    }

    #[test]
    fn lists() {
        let max = u32::MAX;
        let (mut cursor, mut row) = ([0; LIST_CURSOR_WORDS], [7; LISTED_FUNCTION_WORDS]);
        assert_eq!(functions_next(FILE, &mut cursor, &mut row), 0);
        assert_eq!((cursor, row), ([1], [1, 0, 0, max, 0x1000, 2]));
        // The second has no entry.
        assert_eq!(functions_next(FILE, &mut cursor, &mut row), 0);
        assert_eq!((cursor, row), ([1], [0, 0, 0, max, 0x1000, 2]));
        let (mut cursor, mut row) = ([1; LIST_CURSOR_WORDS], [7; LISTED_FILE_WORDS]);
        assert_eq!(files_next(FILE, &mut cursor, &mut row), 0);
        assert_eq!((cursor, row), ([2], [1, 1, 13, 9, 20, max, max, max]));
        assert_eq!(files_next(FILE, &mut cursor, &mut row), 0);
        assert_eq!((cursor, row[0], row[1]), ([2], 0, 1));
    }
}
