//! The proved library with memory of the driver's.

use oracle::Row;
use symcache::Columns;
use symcache::ffi::{self, CACHE_WORDS, CURSOR_WORDS, FRAME_WORDS, PART_WORDS, RECORD_WORDS, TABLE_ROW_WORDS, TablesMut};

/// How many rows of each table, and bytes of text, are lent.
#[derive(Clone, Copy)]
pub struct Capacities {
    pub text: usize,
    pub strings: usize,
    pub files: usize,
    pub functions: usize,
    pub call_locations: usize,
    pub ranges: usize,
}

/// A tree as columns over one text, in which every text stands by itself, as in the rows that the original is given.
#[derive(Default)]
pub struct Packed {
    functions64: Vec<u64>,
    functions32: Vec<u32>,
    lines64: Vec<u64>,
    lines32: Vec<u32>,
    text: Vec<u8>,
}

impl Packed {
    pub fn new(rows: &[Row]) -> Packed {
        let mut p = Packed::default();
        for row in rows {
            p.functions64.extend([row.address, row.size]);
            let name = p.part(&row.name);
            let dir = p.part(&row.comp_dir);
            p.functions32.extend([row.depth, u32::from(row.inline), row.language, name[0], name[1], dir[0], dir[1], row.lines.len() as u32]);
            for line in &row.lines {
                p.lines64.extend([line.address, line.size.unwrap_or(0), line.number]);
                let mut words = vec![u32::from(line.size.is_some())];
                words.extend(p.part(&line.name));
                words.extend(p.part(&line.dir));
                for text in &line.srcsrv {
                    words.push(u32::from(text.is_some()));
                    words.extend(p.part(text.as_deref().unwrap_or_default()));
                }
                p.lines32.extend(words);
            }
        }
        p
    }

    fn part(&mut self, text: &[u8]) -> [u32; 2] {
        let start = self.text.len() as u32;
        self.text.extend(text);
        [start, text.len() as u32]
    }
}

/// A converter and its memory.
pub struct Library {
    record: [u32; RECORD_WORDS],
    string_bytes: Vec<u8>,
    strings: Vec<u32>,
    files: Vec<u32>,
    functions: Vec<u32>,
    call_locations: Vec<u32>,
    ranges: Vec<u32>,
    scratch: Vec<u32>,
}

impl Library {
    pub fn new(c: Capacities) -> Library {
        let rows = |n: usize| vec![1u32; TABLE_ROW_WORDS * n];
        Library {
            record: [0; RECORD_WORDS],
            string_bytes: vec![1; c.text],
            strings: rows(c.strings),
            files: rows(c.files),
            functions: rows(c.functions),
            call_locations: rows(c.call_locations),
            ranges: rows(c.ranges),
            scratch: vec![0; 4 * 1024],
        }
    }

    fn lend(&mut self) -> (&mut [u32], TablesMut<'_>, &mut [u32]) {
        let Library { record, string_bytes, strings, files, functions, call_locations, ranges, scratch } = self;
        (record, TablesMut { string_bytes, strings, files, functions, call_locations, ranges }, scratch)
    }

    pub fn begin(&mut self) {
        let (record, tables, _) = self.lend();
        let number = ffi::begin(record, &[0; 32], 0, 0, 0, tables);
        assert_eq!(number, 0);
    }

    pub fn tree(&mut self, p: &Packed) -> u32 {
        let Packed { functions64, functions32, lines64, lines32, text } = p;
        let columns = Columns { functions64, functions32, lines64, lines32, text };
        let words = columns.scratch_words();
        if self.scratch.len() < words {
            self.scratch.resize(words, 0);
        }
        let (record, tables, scratch) = self.lend();
        ffi::process_symbolic_function(record, tables, &mut scratch[..words], &columns)
    }

    pub fn serialize(&mut self, out: &mut [u8]) -> Result<usize, u32> {
        let mut len = [0u64];
        let (record, tables, _) = self.lend();
        let number = ffi::serialize(record, tables.read(), out, &mut len);
        if number == 0 { Ok(len[0] as usize) } else { Err(number) }
    }
}

/// An opened file.
pub struct Cache<'a> {
    bytes: &'a [u8],
    cache: [u64; CACHE_WORDS],
}

impl<'a> Cache<'a> {
    pub fn open(bytes: &'a [u8]) -> Result<Cache<'a>, u32> {
        let mut cache = [0; CACHE_WORDS];
        let number = ffi::open(bytes, &mut cache);
        if number == 0 { Ok(Cache { bytes, cache }) } else { Err(number) }
    }

    pub fn counts(&self) -> [usize; 5] {
        [1, 3, 5, 7, 9].map(|i| self.cache[i] as usize)
    }

    /// The index of the first location, or MAX.
    pub fn first(&self, addr: u64) -> u32 {
        let mut cursor = [0u32; CURSOR_WORDS];
        ffi::walk(self.bytes, &self.cache, addr, &mut cursor)
    }

    /// The index that the search ends at, or MAX.
    pub fn find(&self, addr: u64) -> u32 {
        ffi::find(self.bytes, &self.cache, addr)
    }

    /// Calls `each` with the words of every frame; the number of frames.
    pub fn walk(&self, addr: u64, mut each: impl FnMut(&[u32; FRAME_WORDS])) -> usize {
        let mut cursor = [0u32; CURSOR_WORDS];
        let mut frame = [0u32; FRAME_WORDS];
        let mut frames = 0;
        ffi::walk(self.bytes, &self.cache, addr, &mut cursor);
        loop {
            let number = ffi::next(self.bytes, &mut cursor, &mut frame);
            assert_eq!(number, 0);
            if frame[0] == 0 {
                return frames;
            }
            frames += 1;
            each(&frame);
        }
    }

    /// The bytes of a frame's name ("?" where there is none) and of its file's six texts.
    pub fn texts(&self, frame: &[u32; FRAME_WORDS]) -> usize {
        let mut part = [0u64; PART_WORDS];
        let mut bytes = 0;
        ffi::function_name(self.bytes, frame[2], &mut part);
        bytes += if part[0] == 0 { 1 } else { part[2] as usize };
        if frame[0] == 2 {
            for offset in &frame[ffi::c::SYMCACHE_FRAME_COMP_DIR..] {
                // MAX is always absent.
                if *offset != u32::MAX {
                    ffi::read_string(self.bytes, *offset, &mut part);
                    bytes += if part[0] == 0 { 0 } else { part[2] as usize };
                }
            }
        }
        bytes
    }
}
