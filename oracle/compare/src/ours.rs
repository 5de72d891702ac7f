//! The library as a converter that is simple to call.

use oracle::answers::Columns;
use oracle::{Begin, Call, Row, Sym};
use symcache::ffi::{self, RECORD_WORDS};

use crate::case::{Op, lent_columns, symbol_op};
use crate::memory::Memory;

/// Capacities that a list can't exceed: each line makes at most one file, a call location and two ranges for itself or
/// for a line of its inlinees, and so on. Texts are counted as if none were stored twice.
pub fn bounds(calls: &[Call]) -> [usize; 6] {
    let (mut lines, mut rows, mut symbols, mut texts, mut bytes) = (0, 0, 0, 0, 0);
    let mut text = |t: &[u8]| {
        texts += 1;
        bytes += t.len() + 10;
    };
    for call in calls {
        match call {
            Call::Write => {}
            Call::Symbol(s) => {
                symbols += 1;
                s.name.iter().for_each(|n| text(n));
            }
            Call::Tree(t) => {
                for row in t {
                    rows += 1;
                    text(&row.name);
                    text(&row.comp_dir);
                    for line in &row.lines {
                        lines += 1;
                        text(&line.name);
                        text(&line.dir);
                        line.srcsrv.iter().flatten().for_each(|t| text(t));
                    }
                }
            }
        }
    }
    [bytes, texts, lines, rows + symbols, 2 * lines, 4 * lines + 2 * rows + 2 * symbols + 1]
}

/// A converter and its memory.
#[derive(Default)]
pub struct Ours {
    pub memory: Memory,
}

impl Ours {
    /// Lends tables of these capacities.
    pub fn lend(&mut self, capacity: [usize; 6]) {
        self.memory.set_tables(capacity, [0; 5]);
        self.memory.record.set(RECORD_WORDS, 0, 0xB2B2_B2B2);
        self.memory.scratch.set(0, 0, 0);
        self.memory.out.set(0, 0, 0);
        self.memory.len.set(1, 0, 77);
    }

    pub fn begin(&mut self, b: &Begin) -> u32 {
        let lent = self.memory.lend(RECORD_WORDS, None);
        ffi::begin(lent.record, &b.debug_id, b.arch, u32::from(b.functions), u32::from(b.symbols), lent.tables)
    }

    /// A tree, with so many words of scratch more or less than document 01 asks for.
    pub fn columns(&mut self, c: &Columns, more: isize) -> u32 {
        let words = lent_columns(c).scratch_words();
        self.memory.scratch.set(words.saturating_add_signed(more), 0x7C7C_7C7C, 0x5B5B_5B5B);
        let lent = self.memory.lend(RECORD_WORDS, None);
        ffi::process_symbolic_function(lent.record, lent.tables, lent.scratch, &lent_columns(c))
    }

    pub fn tree(&mut self, rows: &[Row]) -> u32 {
        self.columns(&Columns::of(rows), 0)
    }

    pub fn symbol(&mut self, s: &Sym) -> u32 {
        let Op::Symbol { text, address, size, named, start, len } = symbol_op(s) else { unreachable!() };
        let lent = self.memory.lend(RECORD_WORDS, None);
        ffi::process_symbolic_symbol(lent.record, lent.tables, &text, address, size, named, start, len)
    }

    /// Writes into an output of so many bytes.
    pub fn write_into(&mut self, room: usize) -> Result<Vec<u8>, u32> {
        self.memory.out.set(room, 0xE9, 0x5B);
        self.memory.len.set(1, 0, 77);
        let lent = self.memory.lend(RECORD_WORDS, None);
        match ffi::serialize(lent.record, lent.tables.read(), lent.out, lent.len) {
            0 => {
                let file = self.memory.out.get().get(..self.memory.len.get()[0] as usize);
                Ok(file.expect("a length inside the output").to_vec())
            }
            number => Err(number),
        }
    }

    /// Writes into an output that holds any file of the tables lent.
    pub fn write(&mut self) -> Result<Vec<u8>, u32> {
        let tables: usize = self.memory.rows.iter().map(|rows| 4 * rows.get().len()).sum();
        self.write_into(88 + tables + self.memory.string_bytes.get().len())
    }

    pub fn call(&mut self, call: &Call) -> u32 {
        match call {
            Call::Tree(rows) => self.tree(rows),
            Call::Symbol(s) => self.symbol(s),
            Call::Write => 0,
        }
    }
}
