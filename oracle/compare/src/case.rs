//! A list of calls with the memory that each call is lent, through the original and through the library.

use std::time::Instant;

use oracle::answers::{Columns, FUNCTION32, FUNCTION64, LINE32, LINE64};
use oracle::claims::ranges_in_domain;
use oracle::original::State;
use oracle::{Begin, Call, Kept, Line, MAX_DEPTH, Row, Session, Sym, arch, begin_script, call_script, language};
use symcache::ffi::{self, c, CACHE_WORDS, FUNCTIONS32_WORDS, FUNCTIONS64_WORDS, LINES32_WORDS, LINES64_WORDS, RECORD_WORDS};

use crate::memory::{Lent, Memory, TABLES};
use crate::reader::Difference;

// The columns of stored cases are laid out as the header says.
const _: () = assert!(FUNCTION64 == FUNCTIONS64_WORDS && FUNCTION32 == FUNCTIONS32_WORDS);
const _: () = assert!(LINE64 == LINES64_WORDS && LINE32 == LINES32_WORDS);

/// Memory lent beyond what is needed, or less than it.
#[derive(Clone, Copy, Debug, PartialEq, Eq)]
pub enum Room {
    More(usize),
    Less(usize),
}

impl Room {
    fn of(self, needed: usize) -> usize {
        match self {
            Room::More(n) => needed + n,
            Room::Less(n) => needed.saturating_sub(n),
        }
    }
}

/// A call.
#[derive(Clone, Debug, PartialEq, Eq)]
pub enum Op {
    /// The debug id's bytes may be more or fewer than 32; flags other than 0 are yes.
    Begin { debug_id: Vec<u8>, arch: u32, functions: u32, symbols: u32 },
    Tree(Columns),
    Symbol { text: Vec<u8>, address: u64, size: u64, named: u32, start: u32, len: u32 },
    Write,
}

/// What is lent to a call in its own way.
#[derive(Clone, Copy, Debug, PartialEq, Eq)]
pub struct Lend {
    /// The record says that the converter is closed.
    pub closed: bool,
    /// The record has so many words only.
    pub record: Option<usize>,
    /// Flags of the record that are yes hold another number than 1.
    pub flags: bool,
    /// This table is lent with one row (or byte) less than it has in use.
    pub less: Option<usize>,
    /// Scratch of a tree, output of a write.
    pub room: Room,
}

pub const PLAIN: Lend = Lend { closed: false, record: None, flags: false, less: None, room: Room::More(0) };

#[derive(Clone, Debug, PartialEq, Eq)]
pub struct Item {
    pub op: Op,
    pub lend: Lend,
}

impl Item {
    pub fn plain(op: Op) -> Item {
        Item { op, lend: PLAIN }
    }
}

/// A list: capacities go by what the original's tables need at most.
#[derive(Clone, Debug, PartialEq, Eq)]
pub struct Case {
    pub items: Vec<Item>,
    pub capacity: [Room; 6],
    /// Words of a lent table that make no row.
    pub spare: [usize; 5],
    /// Words of the record after the 20th.
    pub record: usize,
    /// What the record is made to have counted right after a beginning: chance would not reach 2^64 - 1.
    pub counted: u64,
    /// A call lies outside the domain for equality: numbers alone are compared.
    pub numbers_only: bool,
}

/// The original's answer to an item, for memory that is large enough.
struct Expected {
    number: u32,
    state: State,
    file: Vec<u8>,
}

const NOTHING: State =
    State { last_end: None, files: 0, functions: 0, call_locations: 0, ranges: 0, text_bytes: 0, texts: 0 };

/// Bytes of text, rows of the other tables.
fn uses(state: &State) -> [usize; 6] {
    [state.text_bytes, state.texts, state.files, state.functions, state.call_locations, state.ranges]
}

pub fn symbol_op(symbol: &Sym) -> Op {
    Op::Symbol {
        text: symbol.name.clone().unwrap_or_default(),
        address: symbol.address,
        size: symbol.size,
        named: u32::from(symbol.name.is_some()),
        start: 0,
        len: symbol.name.as_ref().map_or(0, |n| n.len() as u32),
    }
}

pub fn begin_op(begin: &Begin) -> Op {
    Op::Begin {
        debug_id: begin.debug_id.to_vec(),
        arch: begin.arch,
        functions: u32::from(begin.functions),
        symbols: u32::from(begin.symbols),
    }
}

/// The columns, lent.
pub fn lent_columns(c: &Columns) -> symcache::Columns<'_> {
    let Columns { functions64, functions32, lines64, lines32, text } = c;
    symcache::Columns { functions64, functions32, lines64, lines32, text }
}

impl Op {
    /// Calls the library.
    fn give(&self, lent: Lent<'_>) -> u32 {
        match self {
            Op::Begin { debug_id, arch, functions, symbols } => {
                ffi::begin(lent.record, debug_id, *arch, *functions, *symbols, lent.tables)
            }
            Op::Tree(c) => ffi::process_symbolic_function(lent.record, lent.tables, lent.scratch, &lent_columns(c)),
            Op::Symbol { text, address, size, named, start, len } => {
                ffi::process_symbolic_symbol(lent.record, lent.tables, text, *address, *size, *named, *start, *len)
            }
            Op::Write => ffi::serialize(lent.record, lent.tables.read(), lent.out, lent.len),
        }
    }

    /// The beginning that document 01 speaks of.
    fn begin(&self) -> Option<Begin> {
        let Op::Begin { debug_id, arch, functions, symbols } = self else { return None };
        let byte = |i: usize| debug_id.get(i).copied().unwrap_or(0);
        Some(Begin { debug_id: std::array::from_fn(byte), arch: *arch, functions: *functions != 0, symbols: *symbols != 0 })
    }

    /// A symbol, if document 01's 14 does not refuse it.
    fn symbol(&self) -> Result<Sym, u32> {
        let Op::Symbol { text, address, size, named, start, len } = self else { panic!("no symbol") };
        let name = if *named == 0 {
            None
        } else {
            let name = text.get(*start as usize..).and_then(|t| t.get(..*len as usize)).ok_or(14u32)?;
            std::str::from_utf8(name).map_err(|_| 14u32)?;
            Some(name.to_vec())
        };
        Ok(Sym { address: *address, size: *size, name })
    }

    /// As a call of the original, if that can take it.
    fn call(&self) -> Option<Call> {
        match self {
            Op::Begin { .. } => None,
            Op::Tree(c) if c.refusal().is_none() => Some(Call::Tree(c.rows())),
            Op::Tree(_) => None,
            Op::Symbol { .. } => self.symbol().ok().map(Call::Symbol),
            Op::Write => Some(Call::Write),
        }
    }
}

/// Words of scratch that document 01 asks for.
fn scratch_words(c: &Columns) -> usize {
    4 * (c.functions32.len() / FUNCTION32 + c.lines32.len() / LINE32)
}

/// The lines of the rows that document 02's K5 counts.
fn clamped_lines(rows: &[Row]) -> u64 {
    let max = u128::from(u32::MAX);
    let end = |line: &Line| u128::from(line.address) + u128::from(line.size.unwrap_or(1));
    let lines = rows.iter().flat_map(|row| &row.lines);
    lines.filter(|line| u128::from(line.address) > max || end(line) > max).count() as u64
}

/// Whether the original's `Language` has the rows' numbers, and its sort of inlinee ranges a single outcome.
pub fn rows_in_domain(rows: &[Row]) -> bool {
    rows.iter().all(|r| language(r.language).is_some()) && ranges_in_domain(rows)
}

/// What a list led to, where nothing differs.
#[derive(Default)]
pub struct Outcome {
    /// The last file written.
    pub file: Vec<u8>,
    /// Answers by number.
    pub numbers: [u64; 26],
    /// Clamped lines of accepted trees.
    pub clamped: u64,
    /// Whether the library's count of them stayed at 2^64 - 1.
    pub saturated: bool,
}

impl Case {
    pub fn plain(begin: &Begin, calls: &[Call]) -> Case {
        let mut items = vec![Item::plain(begin_op(begin))];
        items.extend(calls.iter().map(|c| {
            Item::plain(match c {
                Call::Tree(rows) => Op::Tree(Columns::of(rows)),
                Call::Symbol(s) => symbol_op(s),
                Call::Write => Op::Write,
            })
        }));
        Case { items, capacity: [Room::More(0); 6], spare: [0; 5], record: 0, counted: 0, numbers_only: false }
    }

    /// Whether every call that the original is given lies in the domain as far as it must.
    pub fn in_domain(&self) -> bool {
        self.items.iter().all(|i| match &i.op {
            Op::Begin { arch: a, .. } => arch(*a).is_some(),
            Op::Tree(c) => c.refusal().is_some() || rows_in_domain(&c.rows()),
            _ => true,
        })
    }

    /// Runs the original. A call that the lender spoils isn't given to it.
    fn original(&self) -> Vec<Expected> {
        let mut session: Option<Session> = None;
        let mut out: Vec<Expected> = Vec::with_capacity(self.items.len());
        let number = |r: Result<(), Kept>| match r {
            Ok(()) => 0,
            Err(Kept::Refused(n)) => n,
            Err(Kept::NoNumber(n)) => panic!("no such language: {n}"),
        };
        for item in &self.items {
            let state = out.last().map_or(NOTHING, |e| e.state);
            let refuse = |number: u32| Expected { number, state, file: Vec::new() };
            if item.lend.record.is_some() {
                out.push(refuse(19));
                continue;
            }
            if let Some(begin) = item.op.begin() {
                session = Session::begin(&begin).ok();
                out.push(Expected { number: 0, state: NOTHING, file: Vec::new() });
                continue;
            }
            let less = item.lend.less.is_some_and(|table| uses(&state)[table] > 0);
            let Some(session) = session.as_mut().filter(|_| !item.lend.closed && !less) else {
                out.push(refuse(19));
                continue;
            };
            let mut file = Vec::new();
            let answer = match &item.op {
                Op::Begin { .. } => unreachable!(),
                Op::Tree(c) => match c.refusal() {
                    Some(n) => n,
                    None if item.lend.room.of(scratch_words(c)) < scratch_words(c) => 16,
                    None => number(session.tree(&c.rows())),
                },
                Op::Symbol { .. } => match item.op.symbol() {
                    Ok(symbol) => number(session.symbol(&symbol)),
                    Err(n) => n,
                },
                Op::Write => {
                    file = session.write();
                    if item.lend.room.of(file.len()) < file.len() { 18 } else { 0 }
                }
            };
            out.push(Expected { number: answer, state: session.converter.state(), file });
        }
        out
    }

    /// Runs both and compares.
    pub fn run(&self, memory: &mut Memory) -> Result<Outcome, Difference> {
        let mut outcome = Outcome::default();
        if self.numbers_only {
            self.run_numbers(memory, &mut outcome)?;
            return Ok(outcome);
        }
        let expected = self.original();
        let mut most = [0; 6];
        for e in &expected {
            for (most, used) in most.iter_mut().zip(uses(&e.state)) {
                *most = used.max(*most);
            }
        }
        let capacity: [usize; 6] = std::array::from_fn(|i| self.capacity[i].of(most[i]));
        memory.set_tables(capacity, self.spare);
        memory.record.set(RECORD_WORDS + self.record, 0xA1A1_A1A1, 0xB2B2_B2B2);
        // No converter is open before the first beginning.
        memory.record.get_mut()[c::SYMCACHE_RECORD_OPEN] = 0;
        let mut begun = Begin::default();
        let mut open = false;
        let mut state = NOTHING;
        let mut counted: u64 = 0;
        for (i, (item, e)) in self.items.iter().zip(&expected).enumerate() {
            let fits = uses(&e.state).iter().zip(&capacity).all(|(used, room)| used <= room);
            let number = match &item.op {
                Op::Begin { .. } => e.number,
                _ if !open => 19,
                Op::Tree(_) | Op::Symbol { .. } if e.number == 0 && !fits => 17,
                _ => e.number,
            };
            let wanted = match number {
                0 if matches!(item.op, Op::Begin { .. }) => {
                    begun = item.op.begin().unwrap();
                    open = true;
                    state = NOTHING;
                    counted = 0;
                    record_words(&begun, &state, counted, true)
                }
                17 => {
                    open = false;
                    state = NOTHING;
                    counted = 0;
                    record_words(&begun, &state, counted, false)
                }
                0 => {
                    state = e.state;
                    if let Op::Tree(c) = &item.op {
                        let clamped = clamped_lines(&c.rows());
                        outcome.clamped += clamped;
                        counted = counted.checked_add(clamped).unwrap_or_else(|| {
                            outcome.saturated = true;
                            u64::MAX
                        });
                    }
                    record_words(&begun, &state, counted, true)
                }
                _ => [0; RECORD_WORDS],
            };
            self.call(memory, item, &capacity, &uses(&state), number, &wanted, &e.file)
                .map_err(|what| format!("call {}, {}: {what}", i + 1, item.kind()))?;
            let handed_out = ffi::clamped_lines(memory.record.get());
            if handed_out != counted {
                return Err(format!("call {}, {}: {counted} clamped lines, ours {handed_out}", i + 1, item.kind()));
            }
            if number == 0 && matches!(item.op, Op::Begin { .. }) {
                counted = self.counted;
                let words = &mut memory.record.get_mut()[c::SYMCACHE_RECORD_CLAMPED_LINES..];
                (words[0], words[1]) = (counted as u32, (counted >> 32) as u32);
            }
            outcome.numbers[number as usize] += 1;
            if number == 0 && item.op == Op::Write {
                outcome.file.clone_from(&e.file);
            }
        }
        if !memory.is_guarded() {
            return Err("a byte after the lent memory is written".into());
        }
        Ok(outcome)
    }

    /// One call of the library: its number, and what it leaves in memory.
    fn call(
        &self,
        memory: &mut Memory,
        item: &Item,
        capacity: &[usize; 6],
        used: &[usize; 6],
        number: u32,
        wanted: &[u32; RECORD_WORDS],
        file: &[u8],
    ) -> Result<(), Difference> {
        let lend = &item.lend;
        match &item.op {
            Op::Tree(c) => memory.scratch.set(lend.room.of(scratch_words(c)), 0x7C7C_7C7C, 0x5B5B_5B5B),
            Op::Write => {
                memory.out.set(lend.room.of(file.len()), 0xE9, 0x5B);
                memory.len.set(1, u64::MAX - 5, 77);
            }
            _ => {}
        }
        let is_open = std::mem::replace(&mut memory.record.get_mut()[c::SYMCACHE_RECORD_OPEN], 0);
        if !lend.closed {
            memory.record.get_mut()[c::SYMCACHE_RECORD_OPEN] = is_open;
        }
        if lend.flags {
            for flag in [9, 10, c::SYMCACHE_RECORD_OPEN] {
                if memory.record.get()[flag] != 0 {
                    memory.record.get_mut()[flag] = 7 << flag;
                }
            }
        }
        memory.remember();
        let record = lend.record.unwrap_or(RECORD_WORDS + self.record);
        let less = lend.less.filter(|t| used[*t] > 0 && number == 19).map(|t| {
            // One row less than is in use; words that make no row don't help.
            (t, if t == 0 { used[0] - 1 } else { 8 * used[t] - 1 })
        });
        let answer = item.op.give(memory.lend(record, less));
        if answer != number {
            return Err(format!("number {number} expected, ours {answer}; capacities {capacity:?}, in use {used:?}"));
        }
        let changed = match (&item.op, number) {
            (Op::Write, 0) => memory.changed_converter(),
            (_, 0 | 17) => None,
            _ => memory.changed(),
        };
        if let Some(what) = changed {
            return Err(format!("number {number}, yet {what} changed"));
        }
        if lend.closed && number != 0 {
            memory.record.get_mut()[c::SYMCACHE_RECORD_OPEN] = is_open;
        }
        match (&item.op, number) {
            (Op::Write, 0) => {
                let (written, rest) = memory.out.get().split_at(file.len());
                if memory.len.get() != [file.len() as u64] {
                    return Err(format!("length {} expected, ours {}", file.len(), memory.len.get()[0]));
                }
                if let Some(at) = (0..file.len()).find(|i| written[*i] != file[*i]) {
                    return Err(format!("byte {at} of the file: the original {}, ours {}", file[at], written[at]));
                }
                if rest.iter().any(|b| *b != 0xE9) {
                    return Err("bytes of the output after the file changed".into());
                }
            }
            (_, 0 | 17) => {
                if memory.record.get()[..RECORD_WORDS] != *wanted {
                    return Err(format!("the record: {wanted:?} expected, ours {:?}", &memory.record.get()[..RECORD_WORDS]));
                }
                if memory.record.get()[RECORD_WORDS..].iter().any(|w| *w != 0xA1A1_A1A1) {
                    return Err("words of the record after the last that is named changed".into());
                }
                if (number == 17 || matches!(item.op, Op::Begin { .. })) && !memory.are_tables_zero() {
                    return Err("tables that should be zero".into());
                }
                if matches!(item.op, Op::Tree(_)) && !memory.scratch.is_zero() {
                    return Err("scratch that should be zero".into());
                }
            }
            _ => {}
        }
        Ok(())
    }

    /// Outside the domain for equality: every call is accepted, and the file written is read, with 0.
    fn run_numbers(&self, memory: &mut Memory, outcome: &mut Outcome) -> Result<(), Difference> {
        // A long list has thousands of ranges.
        let times = if self.items.len() > 200 { 16 } else { 1 };
        memory.set_tables([1 << 16, 2048, 2048, 2048, 4096, 4096].map(|n| times * n), [0; 5]);
        memory.record.set(RECORD_WORDS, 0, 0xB2B2_B2B2);
        for (i, item) in self.items.iter().enumerate() {
            let mut number = 0;
            if let Op::Tree(c) = &item.op {
                memory.scratch.set(scratch_words(c), 0x7C7C_7C7C, 0x5B5B_5B5B);
                number = c.refusal().unwrap_or(0);
                if number == 0 {
                    outcome.clamped += clamped_lines(&c.rows());
                }
            }
            memory.out.set(times << 18, 0xE9, 0x5B);
            memory.len.set(1, 0, 77);
            let answer = item.op.give(memory.lend(RECORD_WORDS, None));
            if answer != number {
                return Err(format!("call {}, {}: number {number} expected, ours {answer}", i + 1, item.kind()));
            }
            let handed_out = ffi::clamped_lines(memory.record.get());
            if handed_out != outcome.clamped {
                return Err(format!("call {}, {}: {} clamped lines, ours {handed_out}", i + 1, item.kind(), outcome.clamped));
            }
            if matches!(item.op, Op::Tree(_)) && number == 0 && !memory.scratch.is_zero() {
                return Err("scratch that should be zero".into());
            }
            if item.op == Op::Write {
                let file = &memory.out.get()[..memory.len.get()[0] as usize];
                let mut cache = [0; CACHE_WORDS];
                let answer = ffi::open(file, &mut cache);
                if answer != 0 {
                    return Err(format!("the file written is refused with {answer}"));
                }
            }
            outcome.numbers[number as usize] += 1;
        }
        if memory.is_guarded() { Ok(()) } else { Err("a byte after the lent memory is written".into()) }
    }
}

fn record_words(begun: &Begin, state: &State, counted: u64, open: bool) -> [u32; RECORD_WORDS] {
    let mut out = [0; RECORD_WORDS];
    for (word, four) in out.iter_mut().zip(begun.debug_id.chunks(4)) {
        *word = u32::from_le_bytes(four.try_into().unwrap());
    }
    out[8] = begun.arch;
    out[9] = u32::from(begun.functions);
    out[10] = u32::from(begun.symbols);
    for (word, used) in out[11..17].iter_mut().zip(uses(state)) {
        *word = used as u32;
    }
    out[c::SYMCACHE_RECORD_CLAMPED_LINES] = counted as u32;
    out[c::SYMCACHE_RECORD_CLAMPED_LINES + 1] = (counted >> 32) as u32;
    out[c::SYMCACHE_RECORD_OPEN] = u32::from(open);
    out
}

// ---- what a list holds

/// What lists are counted by.
pub const TRAITS: [&str; 14] = [
    "undecorated function names",
    "undecorated symbol names",
    "a function row that is skipped",
    "a function end cut to 32 bits",
    "a line address above MAX",
    "a line end held at MAX",
    "a compilation directory that isn't UTF-8",
    "an empty name or file name",
    "a symbol before a tree",
    "a symbol after a tree",
    "several writes",
    "a call outside the domain, numbers only",
    "a function row at depth 41",
    "a tree refused for a row deeper than 41",
];

impl Case {
    /// Which of them a list holds, as far as its accepted calls go.
    pub fn traits(&self) -> [bool; 14] {
        let max = u64::from(u32::MAX);
        let mut out = [false; 14];
        let (mut trees, mut symbols, mut writes) = (0, 0, 0);
        for item in &self.items {
            match &item.op {
                Op::Begin { functions, symbols, .. } => {
                    out[0] |= *functions != 0;
                    out[1] |= *symbols != 0;
                }
                Op::Write => writes += 1,
                Op::Symbol { named, len, .. } if item.op.symbol().is_ok() => {
                    symbols += 1;
                    out[7] |= *named != 0 && *len == 0;
                    out[9] |= trees > 0;
                }
                Op::Tree(c) if c.refusal().is_none() => {
                    trees += 1;
                    out[8] |= symbols > 0;
                    for (f64, f32) in c.functions64.chunks(FUNCTION64).zip(c.functions32.chunks(FUNCTION32)) {
                        out[2] |= f64[1] == 0 || f64[0] > max;
                        out[3] |= f64[1] != 0 && f64[0] <= max && f64[0] + f64[1] > max;
                        let directory = &c.text[f32[5] as usize..][..f32[6] as usize];
                        out[6] |= std::str::from_utf8(directory).is_err();
                        out[7] |= f32[4] == 0;
                        out[12] |= f32[0] == MAX_DEPTH;
                    }
                    for (l64, l32) in c.lines64.chunks(LINE64).zip(c.lines32.chunks(LINE32)) {
                        out[4] |= l64[0] > max;
                        out[5] |= l64[0] < max && l32[0] != 0 && l64[1] > max - l64[0];
                        out[7] |= l32[2] == 0;
                    }
                }
                Op::Tree(c) => out[13] |= c.refusal() == Some(25),
                _ => {}
            }
        }
        out[10] = writes > 1;
        out[11] = self.numbers_only;
        out
    }
}

// ---- showing and shrinking

impl Item {
    pub fn kind(&self) -> &'static str {
        match self.op {
            Op::Begin { .. } => "begin",
            Op::Tree(_) => "tree",
            Op::Symbol { .. } => "symbol",
            Op::Write => "write",
        }
    }
}

impl Case {
    /// A script for the program `oracle`; what that can't be told stands in comments.
    pub fn script(&self) -> String {
        let mut out = String::new();
        for (i, room) in self.capacity.iter().enumerate() {
            if matches!(room, Room::Less(_)) {
                out += &format!("# capacity of {}: {room:?} than the list needs\n", TABLES[i]);
            }
        }
        for item in &self.items {
            if item.lend != PLAIN {
                out += &format!("# lent to the next call: {:?}\n", item.lend);
            }
            match (item.op.begin(), item.op.call()) {
                (Some(begin), _) => out += &begin_script(&begin),
                (None, Some(call)) => out += &call_script(&call),
                (None, None) => out += &format!("# a call that is refused: {:?}\n", item.op),
            }
        }
        out
    }

    /// Smaller cases that still differ, as long as there are any and `until` has not come.
    pub fn shrink(&self, until: Instant, differs: &mut dyn FnMut(&Case) -> bool) -> Case {
        let mut differs = |c: &Case| Instant::now() < until && differs(c);
        let mut case = self.clone();
        while let Some(smaller) = case.smaller(until, &mut differs) {
            case = smaller;
        }
        // Numbers and texts too, where the list is an ordinary one.
        let plain = case.items.iter().all(|i| i.lend == PLAIN) && case.capacity == [Room::More(0); 6];
        let begins = case.items.iter().filter(|i| matches!(i.op, Op::Begin { .. })).count();
        let begin = case.items.first().and_then(|i| i.op.begin());
        let calls: Option<Vec<Call>> = case.items.iter().skip(1).map(|i| i.op.call()).collect();
        let small = calls.as_deref().is_some_and(|c| oracle::shrink::weight(c) < 2000);
        if let (true, 1, Some(begin), Some(calls)) = (plain && small && !case.numbers_only, begins, begin, calls) {
            let differs = std::cell::RefCell::new(&mut differs);
            let keep = |b: &Begin, c: &[Call]| (differs.borrow_mut())(&Case::plain(b, c));
            if keep(&begin, &calls) {
                let (begin, calls) = oracle::shrink::shrink(&begin, &calls, &keep);
                return Case::plain(&begin, &calls);
            }
        }
        case
    }

    /// The first case with something taken away that still differs.
    fn smaller(&self, until: Instant, differs: &mut dyn FnMut(&Case) -> bool) -> Option<Case> {
        let mut tried = |c: Case| differs(&c).then_some(c);
        for i in (0..self.items.len()).rev() {
            let mut c = self.clone();
            c.items.remove(i);
            if let Some(c) = tried(c) {
                return Some(c);
            }
        }
        if self.capacity != [Room::More(0); 6] {
            if let Some(c) = tried(Case { capacity: [Room::More(0); 6], ..self.clone() }) {
                return Some(c);
            }
        }
        if self.spare != [0; 5] || self.record != 0 || self.counted != 0 {
            if let Some(c) = tried(Case { spare: [0; 5], record: 0, counted: 0, ..self.clone() }) {
                return Some(c);
            }
        }
        for i in 0..self.items.len() {
            if self.items[i].lend != PLAIN {
                let mut c = self.clone();
                c.items[i].lend = PLAIN;
                if let Some(c) = tried(c) {
                    return Some(c);
                }
            }
        }
        for (i, item) in self.items.iter().enumerate() {
            let Op::Tree(columns) = &item.op else { continue };
            if columns.refusal().is_some() {
                continue;
            }
            let rows = columns.rows();
            let mut put = |rows: Vec<Row>| {
                let mut c = self.clone();
                c.items[i].op = Op::Tree(Columns::of(&rows));
                tried(c)
            };
            // Runs of rows, long ones first; then single lines.
            let mut run = rows.len().next_power_of_two() / 2;
            while run > 0 {
                for k in (1..rows.len()).step_by(run) {
                    if Instant::now() >= until {
                        return None;
                    }
                    let below = rows[k + 1..].iter().take_while(|r| r.depth > rows[k].depth).count();
                    for stop in [k + run, k + 1 + below] {
                        let mut rows = rows.clone();
                        rows.drain(k..stop.min(rows.len()));
                        if let Some(c) = put(rows) {
                            return Some(c);
                        }
                    }
                }
                run /= 2;
            }
            for k in 0..rows.len() {
                for l in 0..rows[k].lines.len() {
                    if Instant::now() >= until {
                        return None;
                    }
                    let mut rows = rows.clone();
                    rows[k].lines.remove(l);
                    if let Some(c) = put(rows) {
                        return Some(c);
                    }
                }
            }
        }
        None
    }
}
