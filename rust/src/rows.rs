//! A tree as rows in number columns, the form in which the library takes it.

use std::ops::Range;

use crate::debuginfo::{FileInfo, Function, LineInfo};
use crate::ffi::{
    c, FUNCTIONS32_WORDS as FUNCTIONS32, LINES32_WORDS as LINES32, SCRATCH_ROW_WORDS as SCRATCH,
};
use crate::Error;

/// A tree in borrowed columns: function rows in preorder (a function, then its inlinees in order),
/// and the line rows of each in the same order. Texts are a start and a length in `text`.
///
/// Any content is taken; what isn't a tree is refused. [`Rows`] makes columns that are.
#[derive(Clone, Copy, Debug, Default)]
pub struct Columns<'a> {
    /// Two words a function row: address, size.
    pub functions64: &'a [u64],
    /// Eight words a function row: depth (the root 0), whether inlined, language, start and length
    /// of the name, start and length of the compilation directory, how many line rows are its own.
    pub functions32: &'a [u32],
    /// Three words a line row: address, size, line number.
    pub lines64: &'a [u64],
    /// Fourteen words a line row: whether it has a size; start and length of the file's name and of
    /// its directory; whether present, start and length of the source server's name, directory and
    /// revision.
    pub lines32: &'a [u32],
    /// The memory that the texts are parts of.
    pub text: &'a [u8],
}

impl Columns<'_> {
    /// How many words of scratch memory a call with these rows needs: four for each function row
    /// and each line row.
    pub fn scratch_words(&self) -> usize {
        let functions = self.functions32.len() / FUNCTIONS32;
        let lines = self.lines32.len() / LINES32;
        SCRATCH * (functions + lines)
    }
}

/// A part of the text of [`LineRows`].
#[repr(C)]
#[derive(Clone, Copy, Debug, Default, PartialEq, Eq)]
pub struct TextPart {
    /// Where it begins.
    pub start: u32,
    /// How many bytes it has.
    pub len: u32,
}

/// A text that may be absent.
#[repr(C)]
#[derive(Clone, Copy, Debug, Default, PartialEq, Eq)]
pub struct OptionalPart {
    /// Whether there is one; if not, the part is not looked at.
    pub present: bool,
    /// The text.
    pub part: TextPart,
}

/// A line row, as the library takes it.
#[repr(C)]
#[derive(Clone, Copy, Debug, Default, PartialEq, Eq)]
pub struct LineRow {
    /// The first address.
    pub address: u64,
    /// Whether it has a size; without one it covers one address.
    pub has_size: bool,
    /// The size.
    pub size: u64,
    /// The line number.
    pub number: u64,
    /// The file's name.
    pub name: TextPart,
    /// Its directory.
    pub directory: TextPart,
    /// The source server's name.
    pub srcsrv_name: OptionalPart,
    /// The source server's directory.
    pub srcsrv_dir: OptionalPart,
    /// The source server's revision.
    pub revision: OptionalPart,
}

/// A tree as in [`Columns`], but with its line rows as one borrowed list of rows.
#[derive(Clone, Copy, Debug, Default)]
pub struct LineRows<'a> {
    /// As in [`Columns`].
    pub functions64: &'a [u64],
    /// As in [`Columns`].
    pub functions32: &'a [u32],
    /// The line rows.
    pub lines: &'a [LineRow],
    /// The memory that the texts are parts of.
    pub text: &'a [u8],
}

impl LineRows<'_> {
    /// How many words of scratch memory a call with these rows needs.
    pub fn scratch_words(&self) -> usize {
        SCRATCH * (self.functions32.len() / FUNCTIONS32 + self.lines.len())
    }

    /// The same tree in columns.
    pub fn to_rows(&self) -> Rows {
        let mut rows = Rows {
            functions64: self.functions64.to_vec(),
            functions32: self.functions32.to_vec(),
            text: self.text.to_vec(),
            ..Rows::default()
        };
        for line in self.lines {
            rows.lines64.extend([line.address, line.size, line.number]);
            rows.lines32.push(line.has_size.into());
            for part in [line.name, line.directory] {
                rows.lines32.extend([part.start, part.len]);
            }
            for text in [line.srcsrv_name, line.srcsrv_dir, line.revision] {
                rows.lines32
                    .extend([text.present.into(), text.part.start, text.part.len]);
            }
        }
        rows
    }
}

/// A tree in columns of its own.
///
/// ```
/// use symcache::debuginfo::{FileInfo, LineInfo};
/// use symcache::{Converter, Rows};
///
/// // A root with one line, and an inlinee in it.
/// let mut rows = Rows::new();
/// rows.push_function(0, 0x1000, 16, false, 2, "outer", b"/b")?;
/// rows.push_line(&LineInfo { address: 0x1000, size: Some(16), line: 7, file: FileInfo::new("a.rs", "src") })?;
/// rows.push_function(1, 0x1004, 4, true, 2, "inner", b"/b")?;
/// rows.push_line(&LineInfo { address: 0x1004, size: Some(4), line: 9, file: FileInfo::new("b.rs", "src") })?;
///
/// let mut converter = Converter::builder().build();
/// converter.process_rows(&rows.columns())?;
/// # Ok::<(), symcache::Error>(())
/// ```
#[derive(Clone, Debug, Default)]
pub struct Rows {
    functions64: Vec<u64>,
    functions32: Vec<u32>,
    lines64: Vec<u64>,
    lines32: Vec<u32>,
    text: Vec<u8>,
}

impl Rows {
    /// No rows.
    pub fn new() -> Self {
        Rows::default()
    }

    /// Takes all rows out; the memory stays for the next tree.
    pub fn clear(&mut self) {
        self.functions64.clear();
        self.functions32.clear();
        self.lines64.clear();
        self.lines32.clear();
        self.text.clear();
    }

    /// The columns.
    pub fn columns(&self) -> Columns<'_> {
        Columns {
            functions64: &self.functions64,
            functions32: &self.functions32,
            lines64: &self.lines64,
            lines32: &self.lines32,
            text: &self.text,
        }
    }

    /// Adds a function row. Its lines follow, and then its inlinees, one deeper.
    ///
    /// Refused with [`Error::InvalidText`] where all texts together would be above `u32::MAX`
    /// bytes.
    #[allow(clippy::too_many_arguments)]
    pub fn push_function(
        &mut self,
        depth: u32,
        address: u64,
        size: u64,
        inline: bool,
        language: u32,
        name: &str,
        compilation_dir: &[u8],
    ) -> Result<(), Error> {
        let (name_start, name_len) = self.put(name.as_bytes())?;
        let (dir_start, dir_len) = self.put_again(
            self.last_function(c::SYMCACHE_FUNCTION_COMP_DIR_START),
            compilation_dir,
        )?;
        self.functions64.extend([address, size]);
        self.functions32.extend([
            depth,
            inline.into(),
            language,
            name_start,
            name_len,
            dir_start,
            dir_len,
            0,
        ]);
        Ok(())
    }

    /// Adds a line row to the last function row. Without one it belongs to no function, and the
    /// rows are refused when they are processed.
    ///
    /// Refused with [`Error::InvalidText`] where all texts together would be above `u32::MAX`
    /// bytes.
    pub fn push_line(&mut self, line: &LineInfo<'_>) -> Result<(), Error> {
        let FileInfo {
            name,
            dir,
            srcsrv_name,
            srcsrv_dir,
            srcsrv_revision,
        } = &line.file;
        let (name_start, name_len) =
            self.put_again(self.last_line(c::SYMCACHE_LINE_NAME_START), name.as_bytes())?;
        let (dir_start, dir_len) = self.put_again(
            self.last_line(c::SYMCACHE_LINE_DIRECTORY_START),
            dir.as_bytes(),
        )?;
        let mut row = [0; LINES32];
        row[..c::SYMCACHE_LINE_SRCSRV_NAME_PRESENT].copy_from_slice(&[
            line.size.is_some().into(),
            name_start,
            name_len,
            dir_start,
            dir_len,
        ]);
        for (at, text) in [
            (c::SYMCACHE_LINE_SRCSRV_NAME_PRESENT, srcsrv_name),
            (c::SYMCACHE_LINE_SRCSRV_DIR_PRESENT, srcsrv_dir),
            (c::SYMCACHE_LINE_REVISION_PRESENT, srcsrv_revision),
        ] {
            if let Some(text) = text {
                let (start, len) = self.put_again(self.last_line(at + 1), text.as_bytes())?;
                row[at..at + 3].copy_from_slice(&[1, start, len]);
            }
        }
        self.lines64
            .extend([line.address, line.size.unwrap_or(0), line.line]);
        self.lines32.extend(row);
        if let Some(lines) = self.functions32.last_mut() {
            // A count that stops here no longer is the count of the line rows: 13.
            *lines = lines.saturating_add(1);
        }
        Ok(())
    }

    /// Adds a function with all its lines and inlinees, as a tree of its own.
    ///
    /// Refused with [`Error::InvalidText`] where all texts together would be above `u32::MAX`
    /// bytes.
    pub fn push_tree(&mut self, root: &Function<'_>) -> Result<(), Error> {
        let mut stack = vec![(0, root)];
        while let Some((depth, function)) = stack.pop() {
            self.push_function(
                depth,
                function.address,
                function.size,
                function.inline,
                function.language,
                &function.name,
                &function.compilation_dir,
            )?;
            for line in &function.lines {
                self.push_line(line)?;
            }
            stack.extend(
                function
                    .inlinees
                    .iter()
                    .rev()
                    .map(|inlinee| (depth + 1, inlinee)),
            );
        }
        Ok(())
    }

    /// A copy of rows that a call accepted, with those parts of their text that they use.
    pub(crate) fn copied(columns: &Columns<'_>) -> Rows {
        Rows::packed(columns).unwrap_or_else(|_| Rows {
            functions64: columns.functions64.to_vec(),
            functions32: columns.functions32.to_vec(),
            lines64: columns.lines64.to_vec(),
            lines32: columns.lines32.to_vec(),
            text: columns.text.to_vec(),
        })
    }

    /// The same, unless parts that overlap come to more than `u32::MAX` bytes.
    fn packed(columns: &Columns<'_>) -> Result<Rows, Error> {
        let mut rows = Rows {
            functions64: columns.functions64.to_vec(),
            lines64: columns.lines64.to_vec(),
            ..Rows::default()
        };
        for (i, row) in columns.functions32.chunks_exact(FUNCTIONS32).enumerate() {
            rows.functions32.extend_from_slice(row);
            for at in [
                c::SYMCACHE_FUNCTION_NAME_START,
                c::SYMCACHE_FUNCTION_COMP_DIR_START,
            ] {
                let earlier = last_part(&rows.functions32[..i * FUNCTIONS32], FUNCTIONS32, at);
                let (start, len) = rows.put_again(earlier, part_of(columns.text, row, at))?;
                rows.functions32[i * FUNCTIONS32 + at..][..2].copy_from_slice(&[start, len]);
            }
        }
        for (i, row) in columns.lines32.chunks_exact(LINES32).enumerate() {
            rows.lines32.extend_from_slice(row);
            for (at, present) in [
                (c::SYMCACHE_LINE_NAME_START, 1),
                (c::SYMCACHE_LINE_DIRECTORY_START, 1),
                (
                    c::SYMCACHE_LINE_SRCSRV_NAME_START,
                    row[c::SYMCACHE_LINE_SRCSRV_NAME_PRESENT],
                ),
                (
                    c::SYMCACHE_LINE_SRCSRV_DIR_START,
                    row[c::SYMCACHE_LINE_SRCSRV_DIR_PRESENT],
                ),
                (
                    c::SYMCACHE_LINE_REVISION_START,
                    row[c::SYMCACHE_LINE_REVISION_PRESENT],
                ),
            ] {
                let earlier = last_part(&rows.lines32[..i * LINES32], LINES32, at);
                let (start, len) = match present {
                    0 => (0, 0),
                    _ => rows.put_again(earlier, part_of(columns.text, row, at))?,
                };
                rows.lines32[i * LINES32 + at..][..2].copy_from_slice(&[start, len]);
            }
        }
        Ok(rows)
    }

    /// Where the text lies whose start is at word `at` of the last function row.
    fn last_function(&self, at: usize) -> Option<Range<usize>> {
        last_part(&self.functions32, FUNCTIONS32, at)
    }

    /// The same, of the last line row.
    fn last_line(&self, at: usize) -> Option<Range<usize>> {
        last_part(&self.lines32, LINES32, at)
    }

    /// The start and length of a text: of the earlier one if it is the same, or else of a copy at
    /// the end.
    fn put_again(
        &mut self,
        earlier: Option<Range<usize>>,
        text: &[u8],
    ) -> Result<(u32, u32), Error> {
        match earlier {
            Some(part) if self.text[part.clone()] == *text => {
                Ok((part.start as u32, part.len() as u32))
            }
            _ => self.put(text),
        }
    }

    /// The start and length of a text, put at the end.
    fn put(&mut self, text: &[u8]) -> Result<(u32, u32), Error> {
        let start = self.text.len();
        if u32::try_from(start + text.len()).is_err() {
            return Err(Error::InvalidText);
        }
        self.text.extend_from_slice(text);
        Ok((start as u32, text.len() as u32))
    }
}

/// The text whose start and length are at words `at` and `at + 1` of a row.
fn part_of<'a>(text: &'a [u8], row: &[u32], at: usize) -> &'a [u8] {
    let start = row[at] as usize;
    &text[start..start + row[at + 1] as usize]
}

/// The part of the text whose start and length are at words `at` and `at + 1` of the last row.
fn last_part(words: &[u32], stride: usize, at: usize) -> Option<Range<usize>> {
    let row = words.len().checked_sub(stride)?;
    let start = words[row + at] as usize;
    Some(start..start + words[row + at + 1] as usize)
}

#[cfg(test)]
mod tests {
    use super::*;

    fn line(address: u64, name: &'static str) -> LineInfo<'static> {
        LineInfo {
            address,
            size: Some(4),
            file: FileInfo::new(name, "src"),
            line: 1,
        }
    }

    fn node(name: &'static str, inlinees: Vec<Function<'static>>) -> Function<'static> {
        Function {
            name: name.into(),
            lines: vec![line(0, "a.rs")],
            inlinees,
            ..Function::default()
        }
    }

    #[test]
    fn a_tree_becomes_preorder() {
        let tree = node(
            "a",
            vec![
                node("b", vec![node("c", vec![]), node("d", vec![])]),
                node("e", vec![]),
            ],
        );
        let mut rows = Rows::new();
        rows.push_tree(&tree).unwrap();
        let columns = rows.columns();
        let row = |i: usize| &columns.functions32[i * FUNCTIONS32..(i + 1) * FUNCTIONS32];
        let depths: Vec<u32> = (0..5).map(|i| row(i)[0]).collect();
        let names: Vec<&[u8]> = (0..5)
            .map(|i| &columns.text[row(i)[3] as usize..(row(i)[3] + row(i)[4]) as usize])
            .collect();
        assert_eq!(depths, [0, 1, 2, 2, 1]);
        assert_eq!(names, [b"a", b"b", b"c", b"d", b"e"]);
        assert_eq!(columns.functions64.len(), 5 * 2);
        assert_eq!(columns.lines64.len(), 5 * 3);
        assert_eq!(columns.scratch_words(), 40);
    }

    #[test]
    fn a_text_that_stands_before_it_is_not_copied() {
        let mut rows = Rows::new();
        rows.push_function(0, 0, 8, false, 0, "f", b"/b").unwrap();
        rows.push_line(&line(0, "a.rs")).unwrap();
        rows.push_line(&line(4, "a.rs")).unwrap();
        rows.push_line(&line(8, "b.rs")).unwrap();
        rows.push_line(&line(12, "b.rs")).unwrap();
        assert_eq!(rows.columns().text, b"f/ba.rssrcb.rs");
        assert_eq!(
            rows.columns().lines32[LINES32..LINES32 + 5],
            rows.columns().lines32[..5]
        );
        let copy = Rows::copied(&Columns {
            text: &[rows.columns().text, b"and more"].concat(),
            ..rows.columns()
        });
        assert_eq!(copy.text, rows.text);
        assert_eq!(copy.functions32, rows.functions32);
        assert_eq!(copy.lines32, rows.lines32);
        rows.clear();
        assert_eq!(rows.columns().text, b"");
        assert_eq!(rows.columns().scratch_words(), 0);
    }
}
