//! The memory that is lent to the library: one allocation for each slice, kept from list to list.

use symcache::ffi::{TABLE_ROW_WORDS, TablesMut};

/// Cells after a lent slice, which nobody may touch.
const GUARD: usize = 16;

/// A slice to lend, and cells after it.
#[derive(Default)]
pub struct Store<T> {
    cells: Vec<T>,
    len: usize,
    guard: T,
}

impl<T: Copy + Default + PartialEq> Store<T> {
    /// Sets the length, and the content to `fill`.
    pub fn set(&mut self, len: usize, fill: T, guard: T) {
        if self.cells.len() < len + GUARD {
            self.cells.resize(len + GUARD, fill);
        }
        self.len = len;
        self.guard = guard;
        self.cells[..len].fill(fill);
        self.cells[len..len + GUARD].fill(guard);
    }

    pub fn get(&self) -> &[T] {
        &self.cells[..self.len]
    }

    pub fn get_mut(&mut self) -> &mut [T] {
        &mut self.cells[..self.len]
    }

    pub fn is_guarded(&self) -> bool {
        // A store that was never lent has no cells.
        self.cells.get(self.len..self.len + GUARD).is_none_or(|cells| cells.iter().all(|c| *c == self.guard))
    }

    pub fn is_zero(&self) -> bool {
        self.get().iter().all(|c| *c == T::default())
    }
}

/// All lent memory of a converter.
#[derive(Default)]
pub struct Memory {
    pub record: Store<u32>,
    pub string_bytes: Store<u8>,
    /// Index of texts, files, functions, call locations, ranges.
    pub rows: [Store<u32>; 5],
    pub scratch: Store<u32>,
    pub out: Store<u8>,
    pub len: Store<u64>,
    before: Before,
}

#[derive(Default)]
struct Before {
    record: Vec<u32>,
    string_bytes: Vec<u8>,
    rows: [Vec<u32>; 5],
    scratch: Vec<u32>,
    out: Vec<u8>,
    len: Vec<u64>,
}

fn keep<T: Copy>(to: &mut Vec<T>, from: &[T]) {
    to.clear();
    to.extend_from_slice(from);
}

/// The names of the six tables.
pub const TABLES: [&str; 6] = ["text bytes", "index of texts", "files", "functions", "call locations", "ranges"];

impl Memory {
    /// Tables of these capacities (bytes of text, rows of the others) with `spare` words more, which make no row.
    pub fn set_tables(&mut self, capacity: [usize; 6], spare: [usize; 5]) {
        self.string_bytes.set(capacity[0], 0xA7, 0x5B);
        for (i, rows) in self.rows.iter_mut().enumerate() {
            rows.set(TABLE_ROW_WORDS * capacity[i + 1] + spare[i], 0xA7A7_0000 + i as u32, 0x5B5B_0000 + i as u32);
        }
    }

    /// Everything, for a call: the record with so many words; `less` lends one table with so many bytes or words only.
    pub fn lend(&mut self, record: usize, less: Option<(usize, usize)>) -> Lent<'_> {
        let cut = |i: usize, len: usize| match less {
            Some((table, words)) if table == i => words.min(len),
            _ => len,
        };
        let string_bytes = self.string_bytes.get_mut();
        let n = cut(0, string_bytes.len());
        let mut i = 0;
        let [strings, files, functions, call_locations, ranges] = self.rows.each_mut().map(|store| {
            i += 1;
            let slice = store.get_mut();
            let n = cut(i, slice.len());
            &mut slice[..n]
        });
        let string_bytes = &mut string_bytes[..n];
        Lent {
            record: &mut self.record.get_mut()[..record],
            tables: TablesMut { string_bytes, strings, files, functions, call_locations, ranges },
            scratch: self.scratch.get_mut(),
            out: self.out.get_mut(),
            len: self.len.get_mut(),
        }
    }

    /// Remembers everything that is lent.
    pub fn remember(&mut self) {
        keep(&mut self.before.record, self.record.get());
        keep(&mut self.before.string_bytes, self.string_bytes.get());
        for (to, from) in self.before.rows.iter_mut().zip(&self.rows) {
            keep(to, from.get());
        }
        keep(&mut self.before.scratch, self.scratch.get());
        keep(&mut self.before.out, self.out.get());
        keep(&mut self.before.len, self.len.get());
    }

    /// What has changed since: the record and the tables.
    pub fn changed_converter(&self) -> Option<&'static str> {
        if self.before.record != self.record.get() {
            return Some("the record");
        }
        if self.before.string_bytes != self.string_bytes.get() {
            return Some(TABLES[0]);
        }
        (0..5).find(|i| self.before.rows[*i] != self.rows[*i].get()).map(|i| TABLES[i + 1])
    }

    /// What has changed since, of all.
    pub fn changed(&self) -> Option<&'static str> {
        if let Some(what) = self.changed_converter() {
            return Some(what);
        }
        if self.before.scratch != self.scratch.get() {
            return Some("scratch");
        }
        if self.before.out != self.out.get() {
            return Some("the output");
        }
        (self.before.len != self.len.get()).then_some("the length")
    }

    pub fn are_tables_zero(&self) -> bool {
        self.string_bytes.is_zero() && self.rows.iter().all(Store::is_zero)
    }

    pub fn is_guarded(&self) -> bool {
        self.record.is_guarded()
            && self.string_bytes.is_guarded()
            && self.rows.iter().all(Store::is_guarded)
            && self.scratch.is_guarded()
            && self.out.is_guarded()
            && self.len.is_guarded()
    }
}

/// What is lent to a call.
pub struct Lent<'a> {
    pub record: &'a mut [u32],
    pub tables: TablesMut<'a>,
    pub scratch: &'a mut [u32],
    pub out: &'a mut [u8],
    pub len: &'a mut [u64],
}
