//! A file through the library's reader, beside the original's.

use oracle::answers::file_number;
use oracle::original::{Frame, Texts};
use oracle::{MAX, MAX_FRAMES, SymCache, language, original};
use symbolic_symcache::ErrorKind;
use symcache::ffi::{self, CACHE_WORDS};

/// What stands in lent cells before a call.
const OLD: u32 = 0xA5A5_5A5A;
const OLD64: u64 = 0xA5A5_5A5A_C3C3_3C3C;

/// A difference, in words.
pub type Difference = String;

/// How much was compared.
#[derive(Clone, Copy, Default, Debug)]
pub struct Compared {
    pub lookups: u64,
    pub frames: u64,
    /// Frames whose file has an empty name.
    pub empty_names: u64,
    /// Lookups with 42 frames, and the most frames of any.
    pub full: u64,
    pub most: usize,
}

/// A file that the library has opened.
pub struct Reader<'a> {
    bytes: &'a [u8],
    cache: [u64; CACHE_WORDS],
    /// Texts read before, by offset.
    texts: Vec<(u32, Option<&'a str>)>,
}

fn same<T: PartialEq + std::fmt::Debug + ?Sized>(what: impl std::fmt::Display, original: &T, ours: &T) -> Result<(), Difference> {
    if original == ours {
        return Ok(());
    }
    Err(format!("{what}: the original {original:?}, ours {ours:?}"))
}

/// A part of the file that a call stored: absent, or its text. The words are `part` after the call.
fn part_text<'a>(what: &str, bytes: &'a [u8], part: &[u64; 4]) -> Result<Option<&'a str>, Difference> {
    match part[0] {
        0 if part[1..] == [OLD64; 3] => Ok(None),
        1 if part[3] == OLD64 => {
            let end = part[1].checked_add(part[2]).filter(|end| *end <= bytes.len() as u64);
            let end = end.ok_or_else(|| format!("{what}: a part outside the file, {part:?}"))?;
            let text = &bytes[part[1] as usize..end as usize];
            std::str::from_utf8(text).map(Some).map_err(|_| format!("{what}: not UTF-8, {part:?}"))
        }
        _ => Err(format!("{what}: words stored that should not be, {part:?}")),
    }
}

impl<'a> Reader<'a> {
    /// Opens a file; or document 01's number.
    pub fn open(bytes: &'a [u8]) -> Result<Reader<'a>, u32> {
        let mut cache = [0; CACHE_WORDS];
        match ffi::open(bytes, &mut cache) {
            0 => Ok(Reader { bytes, cache, texts: Vec::new() }),
            number => Err(number),
        }
    }

    fn word(&self, at: u64) -> u32 {
        u32::from_le_bytes(self.bytes[at as usize..at as usize + 4].try_into().unwrap())
    }

    /// The range starts.
    pub fn starts(&self) -> Vec<u32> {
        (0..self.cache[7]).map(|i| self.word(self.cache[6] + 4 * i)).collect()
    }

    /// The text at an offset.
    pub fn text(&mut self, offset: u32) -> Result<Option<&'a str>, Difference> {
        if let Some((_, text)) = self.texts.iter().find(|(o, _)| *o == offset) {
            return Ok(*text);
        }
        let mut part = [OLD64; 4];
        let number = ffi::read_string(self.bytes, offset, &mut part[..3]);
        same("the number of read_string", &0, &number)?;
        let text = part_text("read_string", self.bytes, &part)?;
        if part[0] == 1 && (part[1] < self.cache[8] || part[1] + part[2] > self.cache[8] + self.cache[9]) {
            return Err(format!("read_string: outside the string section, {part:?}"));
        }
        self.texts.push((offset, text));
        Ok(text)
    }

    /// The texts of a file row: compilation directory, directory, name, srcsrv name, srcsrv directory, revision.
    fn texts(&mut self, row: &[u32]) -> Result<Texts<'a>, Difference> {
        Ok(Texts {
            comp_dir: self.text(row[0])?,
            directory: self.text(row[1])?,
            name: self.text(row[2])?.unwrap_or_default(),
            srcsrv_name: self.text(row[3])?,
            srcsrv_dir: self.text(row[4])?,
            revision: self.text(row[5])?,
        })
    }

    fn name(&mut self, function: u32) -> Result<&'a str, Difference> {
        let mut part = [OLD64; 4];
        let number = ffi::function_name(self.bytes, function, &mut part[..3]);
        same("the number of function_name", &0, &number)?;
        // The stand-in of the original.
        Ok(part_text("function_name", self.bytes, &part)?.unwrap_or("?"))
    }

    /// The frames of an address, as the library gives them.
    pub fn frames(&mut self, addr: u64) -> Result<Vec<Frame<'a>>, Difference> {
        let mut cursor = [OLD; 4];
        same("the number of lookup", &0, &ffi::lookup(self.bytes, addr, &mut cursor[..3]))?;
        let mut walked = [OLD; 4];
        let first = ffi::walk(self.bytes, &self.cache, addr, &mut walked[..3]);
        if walked != cursor || cursor[0] != first || cursor[3] != OLD {
            return Err(format!("lookup gives the cursor {cursor:x?}, walk {walked:x?} from {first:x}"));
        }
        let mut frames = Vec::new();
        loop {
            let before = cursor;
            let mut frame = [OLD; 14];
            same("the number of next", &0, &ffi::next(self.bytes, &mut cursor[..3], &mut frame[..13]))?;
            let untouched = match frame[0] {
                0 => 1..14,
                1 => 7..14,
                2 => 13..14,
                kind => return Err(format!("a frame of kind {kind}")),
            };
            if frame[untouched].iter().any(|w| *w != OLD) {
                return Err(format!("next stores words that it should not: {frame:x?}"));
            }
            if frame[0] == 0 {
                if cursor != before {
                    return Err(format!("the end moves the cursor from {before:x?} to {cursor:x?}"));
                }
                return Ok(frames);
            }
            if frames.len() > self.bytes.len() {
                return Err("a walk without end".into());
            }
            let texts = if frame[0] == 2 { Some(self.texts(&frame[7..13])?) } else { None };
            frames.push(Frame {
                location: frame[1],
                function: frame[2],
                line: frame[3],
                file: frame[4],
                caller: cursor[1],
                name: self.name(frame[2])?,
                entry: frame[5],
                language: frame[6],
                rust_language: language(frame[6]).map_or(0, |l| l as u32),
                texts,
            });
        }
    }
}

/// How many of the frames have a file with an empty name.
pub fn empty_names(frames: &[Frame<'_>]) -> u64 {
    frames.iter().filter(|f| f.texts.as_ref().is_some_and(|t| t.name.is_empty())).count() as u64
}

/// Every start and its neighbours, and addresses below, above and past 32 bits.
pub fn addresses(starts: &[u32]) -> Vec<u64> {
    let mut at = vec![0, MAX, MAX + 1, u64::MAX];
    for start in starts.iter().map(|s| u64::from(*s)) {
        at.extend([start.saturating_sub(1), start, start + 1]);
    }
    at.extend(starts.iter().take(2).map(|s| u64::from(*s) + (1 << 32)));
    at.sort_unstable();
    at.dedup();
    at
}

/// A refused file: every function answers the number and stores nothing (10 stores its two counts in the cache).
fn refused(bytes: &[u8], number: u32, counts: Option<[u64; 2]>) -> Result<(), Difference> {
    let mut cache = [OLD64; 11];
    if let Some(counts) = counts {
        cache[..2].copy_from_slice(&counts);
    }
    for (what, f) in [("parse", ffi::parse as fn(&[u8], &mut [u64]) -> u32), ("open", ffi::open)] {
        let mut found = [OLD64; 11];
        same(format_args!("the number of {what}"), &number, &f(bytes, &mut found[..10]))?;
        same(format_args!("the words of a refused {what}"), &cache, &found)?;
    }
    let (mut cursor, mut frame, mut row, mut part) = ([OLD; 4], [OLD; 14], [OLD; 9], [OLD64; 4]);
    let answers = [
        ("lookup", ffi::lookup(bytes, 0, &mut cursor[..3])),
        ("next", ffi::next(bytes, &mut cursor[..3], &mut frame[..13])),
        ("read_string", ffi::read_string(bytes, 0, &mut part[..3])),
        ("function_name", ffi::function_name(bytes, 0, &mut part[..3])),
        ("get_function", ffi::get_function(bytes, 0, &mut row[..5])),
        ("get_file", ffi::get_file(bytes, 0, &mut row[..7])),
        ("functions_next", ffi::functions_next(bytes, &mut cursor[..1], &mut row[..6])),
        ("files_next", ffi::files_next(bytes, &mut cursor[..1], &mut row[..8])),
    ];
    for (what, answer) in answers {
        same(format_args!("the number of {what}"), &number, &answer)?;
    }
    if cursor != [OLD; 4] || frame != [OLD; 14] || row != [OLD; 9] || part != [OLD64; 4] {
        return Err(format!("a refusal stores something: {cursor:x?} {frame:x?} {row:x?} {part:x?}"));
    }
    Ok(())
}

/// Parses with the library, and compares where the tables lie and every row.
fn tables<'a>(bytes: &'a [u8], cache: &SymCache<'_>, file: &[u8]) -> Result<Reader<'a>, Difference> {
    let mut found = [OLD64; 11];
    same("the number of parse", &0, &ffi::parse(bytes, &mut found[..10]))?;
    let (offsets, counts) = (cache.offsets(file), cache.counts());
    let mut wanted = [OLD64; 11];
    for i in 0..5 {
        wanted[2 * i] = offsets[i] as u64;
        wanted[2 * i + 1] = counts[i] as u64;
    }
    same("offsets and counts", &wanted, &found)?;
    let reader = Reader { bytes, cache: found[..10].try_into().unwrap(), texts: Vec::new() };
    let c = &reader.cache;
    let rows = |table: usize, words: u64| (0..c[2 * table + 1] * words).map(move |i| (table, 4 * i));
    let read = |(table, at): (usize, u64)| reader.word(reader.cache[2 * table] + at);
    let same_rows = |what: &str, theirs: &[u32], table: usize, words: u64| {
        if rows(table, words).map(read).eq(theirs.iter().copied()) { Ok(()) } else { Err(format!("rows of {what}")) }
    };
    same_rows("files", cache.file_rows().as_flattened(), 0, 6)?;
    same_rows("functions", cache.function_rows().as_flattened(), 1, 4)?;
    same_rows("locations", cache.location_rows().as_flattened(), 2, 4)?;
    same_rows("ranges", &cache.starts(), 3, 1)?;
    same("the texts", &cache.text_bytes(), &&bytes[c[8] as usize..(c[8] + c[9]) as usize])?;
    Ok(reader)
}

/// `get_function`, `function_name`, `Functions`; `get_file`, `Files`; the texts they name and some others.
fn functions_and_files(reader: &mut Reader<'_>, cache: &SymCache<'_>) -> Result<(), Difference> {
    let bytes = reader.bytes;
    let stored = cache.function_rows();
    for i in (0..=stored.len() as u32).chain([MAX as u32 - 1, MAX as u32]) {
        let mut row = [OLD; 6];
        same("the number of get_function", &0, &ffi::get_function(bytes, i, &mut row[..5]))?;
        let mut wanted = [OLD; 6];
        wanted[0] = u32::from((i as usize) < stored.len());
        if let Some(function) = stored.get(i as usize) {
            wanted[1..5].copy_from_slice(function);
        }
        same(format_args!("get_function {i}"), &wanted, &row)?;
        let theirs = cache.function_at(i).map_or("?", |(name, _, _)| name);
        same(format_args!("the name of function {i}"), &theirs, &reader.name(i)?)?;
    }
    let mut cursor = [0, OLD];
    for (index, (name, entry, rust)) in
        (0..).zip(&stored).filter(|(_, f)| f[2] != MAX as u32).map(|(i, _)| i).zip(cache.list_functions())
    {
        let mut row = [OLD; 7];
        same("the number of functions_next", &0, &ffi::functions_next(bytes, &mut cursor[..1], &mut row[..6]))?;
        let f = stored[index as usize];
        same("Functions", &[1, index, f[0], f[1], entry, f[3], OLD], &row)?;
        same("a name of Functions", &Some(name), &Some(reader.name(row[1])?))?;
        same("a language of Functions", &rust, &language(row[5]).map_or(0, |l| l as u32))?;
        same("the cursor of Functions", &[index + 1, OLD], &cursor)?;
    }
    let before = cursor;
    let mut row = [OLD; 7];
    same("the number of functions_next", &0, &ffi::functions_next(bytes, &mut cursor[..1], &mut row[..6]))?;
    same("the end of Functions", &[0, OLD, OLD, OLD, OLD, OLD, OLD], &row)?;
    same("the cursor at the end of Functions", &before, &cursor)?;

    let stored = cache.file_rows();
    for i in (0..=stored.len() as u32).chain([MAX as u32 - 1, MAX as u32]) {
        let mut row = [OLD; 8];
        same("the number of get_file", &0, &ffi::get_file(bytes, i, &mut row[..7]))?;
        let mut wanted = [OLD; 8];
        wanted[0] = u32::from((i as usize) < stored.len());
        if let Some(file) = stored.get(i as usize) {
            wanted[1..7].copy_from_slice(file);
            let ours = reader.texts(&row[1..7])?;
            same(format_args!("the texts of file {i}"), &cache.file_texts(i), &Some(ours))?;
        }
        same(format_args!("get_file {i}"), &wanted, &row)?;
    }
    let mut cursor = [0, OLD];
    for (i, theirs) in (0..).zip(cache.list_files()) {
        let mut row = [OLD; 9];
        same("the number of files_next", &0, &ffi::files_next(bytes, &mut cursor[..1], &mut row[..8]))?;
        same("Files", &[1, i], &[row[0], row[1]])?;
        same("the texts of Files", &theirs, &reader.texts(&row[2..8])?)?;
        same("the cursor of Files", &[i + 1, OLD], &cursor)?;
    }
    let before = cursor;
    let mut row = [OLD; 9];
    same("the number of files_next", &0, &ffi::files_next(bytes, &mut cursor[..1], &mut row[..8]))?;
    same("the end of Files", &[0, OLD, OLD, OLD, OLD, OLD, OLD, OLD, OLD], &row)?;
    same("the cursor at the end of Files", &before, &cursor)?;

    let texts = reader.cache[9] as u32;
    for offset in (0..texts.min(24)).chain([texts.wrapping_sub(1), texts, texts + 1, MAX as u32]) {
        same(format_args!("the text at {offset}"), &cache.text(offset), &reader.text(offset)?)?;
    }
    Ok(())
}

/// Slices that are too short, on the first walk that has a frame.
fn short_slices(bytes: &[u8], addr: u64) -> Result<(), Difference> {
    let mut cursor = [OLD; 3];
    let mut whole = [OLD; 13];
    ffi::lookup(bytes, addr, &mut cursor);
    let started = cursor;
    ffi::next(bytes, &mut cursor, &mut whole);
    let room = bytes.len() % 14;
    let mut again = started;
    let mut frame = [OLD; 13];
    ffi::next(bytes, &mut again, &mut frame[..room]);
    let mut wanted = [OLD; 13];
    wanted[..room.min(13)].copy_from_slice(&whole[..room.min(13)]);
    same("a frame in a short slice", &wanted, &frame)?;
    same("the cursor after a frame in a short slice", &cursor, &again)?;
    let mut frame = [OLD; 13];
    let mut again = started;
    ffi::next(bytes, &mut again[..bytes.len() % 3], &mut frame);
    wanted = [OLD; 13];
    wanted[0] = 0;
    same("a frame of a short cursor", &wanted, &frame)?;
    same("a short cursor", &started, &again)
}

/// Compares everything that is read from a file. `file` lies on a multiple of 8; `bytes` are the same, lying anywhere.
pub fn compare(file: &[u8], bytes: &[u8]) -> Result<Compared, Difference> {
    let (number, expected, found) = file_number(file);
    let parsed = SymCache::parse(file);
    let theirs = match &parsed {
        Ok(cache) if cache.variable_header().0 == 1 => 11,
        Ok(_) => 0,
        Err(e) => original::number(e.kind(), file.len()),
    };
    if number != theirs {
        return Err(format!("document 01's number is {number}, the original's {theirs}"));
    }
    let cache = match parsed {
        Ok(cache) if number == 0 => cache,
        Err(e) if number == 10 => {
            let ErrorKind::UnexpectedStringBytes { expected: e, found: f } = e.kind() else {
                return Err("10 without counts".into());
            };
            same("10's counts by document 01 and the original", &[e as u64, f as u64], &[expected, found])?;
            refused(bytes, number, Some([expected, found]))?;
            return Ok(Compared::default());
        }
        _ => {
            refused(bytes, number, None)?;
            return Ok(Compared::default());
        }
    };
    let mut reader = tables(bytes, &cache, file)?;
    functions_and_files(&mut reader, &cache)?;
    let starts = cache.starts();
    let ascending = starts.windows(2).all(|p| p[0] < p[1]);
    let mut opened = [OLD64; 11];
    let answer = ffi::open(bytes, &mut opened[..10]);
    same("the number of open", &if ascending { 0 } else { 12 }, &answer)?;
    let mut compared = Compared::default();
    if !ascending {
        same("the words of a refused open", &[OLD64; 11], &opened)?;
        let mut cursor = [OLD; 4];
        let at = u64::from(starts[0]);
        same("the number of lookup", &12, &ffi::lookup(bytes, at, &mut cursor[..3]))?;
        same("the cursor of a refused lookup", &[OLD; 4], &cursor)?;
        return Ok(compared);
    }
    same("the words of open", &reader.cache[..], &opened[..10])?;
    let ranges_from = (reader.cache[5] - reader.cache[7]) as u32;
    let mut short = true;
    for address in addresses(&starts) {
        compared.lookups += 1;
        // The last start at most the address.
        let at_most = starts.partition_point(|s| u64::from(*s) <= address) as u32;
        let found = if at_most == 0 || address > MAX { MAX as u32 } else { ranges_from + at_most - 1 };
        same(format_args!("find {address}"), &found, &ffi::find(bytes, &reader.cache, address))?;
        let theirs = cache.frames(address);
        let ours = reader.frames(address)?;
        compared.frames += theirs.len() as u64;
        compared.empty_names += empty_names(&theirs);
        compared.full += u64::from(theirs.len() == MAX_FRAMES);
        compared.most = compared.most.max(theirs.len());
        if theirs != ours {
            return Err(format!("frames at {address}: the original {theirs:?}, ours {ours:?}"));
        }
        if short && !ours.is_empty() {
            short = false;
            short_slices(bytes, address)?;
        }
    }
    Ok(compared)
}
