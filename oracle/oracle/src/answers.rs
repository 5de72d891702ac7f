//! Stored answers for the replay programs: the containers of cases, what is answered to a case, and
//! the checksum over it. FORMAT.md says the same in words; the two must agree.

use crate::claims::take_apart;
use crate::*;

// ---- the checksum

/// A running checksum over 32-bit words.
#[derive(Clone, Copy, Debug, PartialEq, Eq)]
pub struct Sum(pub u32);

impl Default for Sum {
    fn default() -> Self {
        Sum(2_166_136_261)
    }
}

impl Sum {
    pub fn word(&mut self, w: u32) {
        self.0 = self.0.wrapping_mul(16_777_619).wrapping_add(w).wrapping_add(1);
    }

    pub fn of(words: &[u32]) -> u32 {
        let mut sum = Sum::default();
        words.iter().for_each(|w| sum.word(*w));
        sum.0
    }
}

/// What stdout holds for a case.
pub fn stdout_line(words: &[u32]) -> String {
    format!("{:08X}\n", Sum::of(words))
}

// ---- answers, as words

fn put_text(out: &mut Vec<u32>, text: &[u8]) {
    out.push(text.len() as u32 + 1);
    out.extend(text.iter().map(|b| u32::from(*b)));
}

fn put_option(out: &mut Vec<u32>, text: Option<&str>) {
    match text {
        Some(text) => put_text(out, text.as_bytes()),
        None => out.push(0),
    }
}

fn put_texts(out: &mut Vec<u32>, t: &original::Texts<'_>) {
    put_text(out, t.name.as_bytes());
    for text in [t.directory, t.comp_dir, t.srcsrv_name, t.srcsrv_dir, t.revision] {
        put_option(out, text);
    }
}

/// Document 01's number for a file, by its own words and not by the original: 0 to 11, and for 10
/// the counts expected and found.
pub fn file_number(file: &[u8]) -> (u32, u64, u64) {
    let word = |at: usize| u64::from(u32::from_le_bytes(file[at..at + 4].try_into().unwrap()));
    if file.len() < 8 {
        return (1, 0, 0);
    }
    match &file[..4] {
        b"CMYS" => return (2, 0, 0),
        b"SYMC" => {}
        _ => return (3, 0, 0),
    }
    if word(4) != 9 {
        return (4, 0, 0);
    }
    if file.len() < 80 {
        return (5, 0, 0);
    }
    let size = file.len() as u64;
    let up = |n: u64| n.div_ceil(8) * 8;
    let mut at = 80;
    for (i, bytes) in [(0usize, 24), (1, 16), (2, 16), (3, 4)] {
        let end = at + word(44 + 4 * i) * bytes;
        if end > size {
            return (6 + i as u32, 0, 0);
        }
        // Only after the ranges can there be padding; it belongs to the texts.
        at = end;
    }
    if word(56) > word(52) {
        return (9, 0, 0);
    }
    let texts = word(60);
    if up(at) > size {
        return (10, texts, 0);
    }
    let found = size - up(at);
    if texts > found {
        return (10, texts, found);
    }
    if file[64] == 1 && file[65] == 0 {
        return (11, 0, 0);
    }
    (0, 0, 0)
}

/// What the original answers to a file: the words of FORMAT.md, "Reader".
pub fn reader_words(bytes: &[u8], addresses: &[u64]) -> Vec<u32> {
    let file = Aligned::new(bytes);
    let bytes = file.bytes();
    let mut out = Vec::new();
    let (number, expected, found) = file_number(bytes);
    let parsed = SymCache::parse(bytes);
    let theirs = match &parsed {
        Ok(cache) if cache.variable_header().0 == 1 => 11,
        Ok(_) => 0,
        Err(e) => original::number(e.kind(), bytes.len()),
    };
    assert_eq!(number, theirs, "document 01 and the original part at {}", to_hex(bytes));
    out.push(number);
    if number != 0 {
        if number == 10 {
            let symbolic_symcache::ErrorKind::UnexpectedStringBytes { expected: e, found: f } =
                parsed.as_ref().err().unwrap().kind()
            else {
                panic!("10 without counts");
            };
            assert_eq!((e as u64, f as u64), (expected, found));
            out.extend([e as u32, f as u32]);
        }
        // Functions, files and every lookup answer the same number.
        out.extend([number, number]);
        out.extend(addresses.iter().map(|_| number));
        return out;
    }
    let cache = parsed.unwrap();
    let laid = take_apart(bytes).unwrap();

    out.extend(cache.counts().map(|n| n as u32));
    out.extend(laid.debug_id.iter().map(|b| u32::from(*b)));
    out.push(cache.arch_number());
    let (variables, reserved) = cache.variable_header();
    out.push(u32::from(variables));
    out.extend(reserved.map(u32::from));
    cache.file_rows().iter().for_each(|r| out.extend(r));
    cache.function_rows().iter().for_each(|r| out.extend(r));
    cache.location_rows().iter().for_each(|r| out.extend(r));
    out.extend(cache.starts());

    // `Functions`: the original's iterator, with the language as stored.
    out.push(0);
    let stored: Vec<u32> =
        cache.function_rows().iter().filter(|r| r[2] != u32::MAX).map(|r| r[3]).collect();
    let listed = cache.list_functions();
    assert_eq!(stored.len(), listed.len());
    for ((name, entry, _), language) in listed.iter().zip(stored) {
        out.push(1);
        put_text(&mut out, name.as_bytes());
        out.extend([*entry, language]);
    }
    out.push(0);

    // `Files`
    out.push(0);
    for texts in cache.list_files() {
        out.push(1);
        put_texts(&mut out, &texts);
    }
    out.push(0);

    // Lookups
    let ascending = cache.starts().windows(2).all(|p| p[0] < p[1]);
    for address in addresses {
        if !ascending {
            out.push(12);
            continue;
        }
        out.push(0);
        for f in cache.frames(*address) {
            out.extend([1, f.location, f.function, f.line, f.file, f.entry, f.language]);
            put_text(&mut out, f.name.as_bytes());
            match &f.texts {
                None => out.push(0),
                Some(texts) => {
                    out.push(1);
                    put_texts(&mut out, texts);
                }
            }
        }
        out.push(0);
    }
    out
}

// ---- the containers

fn put32(out: &mut Vec<u8>, w: u32) {
    out.extend(w.to_le_bytes());
}

fn put64(out: &mut Vec<u8>, w: u64) {
    out.extend(w.to_le_bytes());
}

fn put_record(out: &mut Vec<u8>, body: &[u8]) {
    put32(out, body.len() as u32);
    out.extend(body);
}

/// The bodies of a container's records.
pub fn records(mut container: &[u8]) -> Vec<&[u8]> {
    let mut out = Vec::new();
    while !container.is_empty() {
        let (length, rest) = container.split_at(4);
        let length = u32::from_le_bytes(length.try_into().unwrap()) as usize;
        let (body, rest) = rest.split_at(length);
        out.push(body);
        container = rest;
    }
    out
}

/// A cursor over a record's body.
struct Body<'a>(&'a [u8]);

impl<'a> Body<'a> {
    fn bytes(&mut self, n: usize) -> &'a [u8] {
        let (bytes, rest) = self.0.split_at(n);
        self.0 = rest;
        bytes
    }

    fn u32(&mut self) -> u32 {
        u32::from_le_bytes(self.bytes(4).try_into().unwrap())
    }

    fn u64(&mut self) -> u64 {
        u64::from_le_bytes(self.bytes(8).try_into().unwrap())
    }
}

/// A case for the reader: a file and the addresses to look up.
#[derive(Clone, Debug, PartialEq, Eq)]
pub struct ReaderCase {
    pub file: Vec<u8>,
    pub addresses: Vec<u64>,
}

impl ReaderCase {
    pub fn put(&self, out: &mut Vec<u8>) {
        let mut body = Vec::new();
        put32(&mut body, self.file.len() as u32);
        body.extend(&self.file);
        put32(&mut body, self.addresses.len() as u32);
        self.addresses.iter().for_each(|a| put64(&mut body, *a));
        put_record(out, &body);
    }

    pub fn of(body: &[u8]) -> ReaderCase {
        let mut body = Body(body);
        let n = body.u32() as usize;
        let file = body.bytes(n).to_vec();
        let k = body.u32();
        let addresses = (0..k).map(|_| body.u64()).collect();
        assert!(body.0.is_empty());
        ReaderCase { file, addresses }
    }
}

// ---- the converter's columns: this is the one place that knows their layout

/// Numbers a function row has in the 64-bit and in the 32-bit column, and a line row.
pub const FUNCTION64: usize = 2;
pub const FUNCTION32: usize = 8;
pub const LINE64: usize = 3;
pub const LINE32: usize = 14;

/// A tree as the converter takes it: rows one after the other in four columns of numbers, and the
/// lent text.
#[derive(Clone, Debug, Default, PartialEq, Eq)]
pub struct Columns {
    /// address, size
    pub functions64: Vec<u64>,
    /// depth, inline flag, language, name start, name length, compilation directory start, its
    /// length, line count
    pub functions32: Vec<u32>,
    /// address, size, line number
    pub lines64: Vec<u64>,
    /// size flag, name start, length, directory start, length, then flag, start, length of the
    /// srcsrv name, the srcsrv directory and the revision
    pub lines32: Vec<u32>,
    pub text: Vec<u8>,
}

/// What stands in the columns of an absent size or text; nobody may look at it.
const UNREAD: u32 = 0xDEAD_BEEF;

impl Columns {
    fn part(&mut self, text: &[u8]) -> [u32; 2] {
        let found = self.text.windows(text.len().max(1)).position(|w| w == text);
        let start = match found {
            Some(at) if !text.is_empty() => at,
            _ => {
                self.text.extend(text);
                self.text.len() - text.len()
            }
        };
        [start as u32, text.len() as u32]
    }

    pub fn of(rows: &[Row]) -> Columns {
        let mut c = Columns::default();
        for row in rows {
            c.functions64.extend([row.address, row.size]);
            let name = c.part(&row.name);
            let dir = c.part(&row.comp_dir);
            c.functions32.extend([row.depth, u32::from(row.inline), row.language]);
            c.functions32.extend(name);
            c.functions32.extend(dir);
            c.functions32.push(row.lines.len() as u32);
            for line in &row.lines {
                let size = line.size.unwrap_or(u64::from(UNREAD));
                c.lines64.extend([line.address, size, line.number]);
                let name = c.part(&line.name);
                let dir = c.part(&line.dir);
                let mut words = vec![u32::from(line.size.is_some())];
                words.extend(name);
                words.extend(dir);
                for text in &line.srcsrv {
                    match text {
                        Some(text) => {
                            words.push(1);
                            words.extend(c.part(text));
                        }
                        None => words.extend([0, UNREAD, UNREAD]),
                    }
                }
                c.lines32.extend(words);
            }
        }
        c
    }

    fn text_at(&self, start: u32, length: u32) -> Option<&[u8]> {
        self.text.get(start as usize..)?.get(..length as usize)
    }

    /// Document 01's 13, 14 or 15, with document 02's 25 right after 13.
    pub fn refusal(&self) -> Option<u32> {
        let whole = |words: usize, row: usize| (words % row == 0).then_some(words / row);
        let counts = (whole(self.functions64.len(), FUNCTION64), whole(self.lines64.len(), LINE64));
        if counts.0.is_none()
            || counts.1.is_none()
            || counts != (whole(self.functions32.len(), FUNCTION32), whole(self.lines32.len(), LINE32))
        {
            return Some(13);
        }
        let functions: Vec<&[u32]> = self.functions32.chunks(FUNCTION32).collect();
        let lines: u64 = functions.iter().map(|f| u64::from(f[7])).sum();
        if functions.is_empty()
            || functions.len() > 65_536
            || functions[0][0] != 0
            || functions.windows(2).any(|p| p[1][0] == 0 || u64::from(p[1][0]) > u64::from(p[0][0]) + 1)
            || lines != (self.lines64.len() / LINE64) as u64
        {
            return Some(13);
        }
        if functions.iter().any(|f| f[0] > MAX_DEPTH) {
            return Some(25);
        }
        let utf8 = |start: u32, length: u32| {
            self.text_at(start, length).is_some_and(|t| std::str::from_utf8(t).is_ok())
        };
        let functions_right = functions.iter().all(|f| utf8(f[3], f[4]) && self.text_at(f[5], f[6]).is_some());
        let lines_right = self.lines32.chunks(LINE32).all(|l| {
            utf8(l[1], l[2]) && utf8(l[3], l[4]) && (0..3).all(|i| l[5 + 3 * i] == 0 || utf8(l[6 + 3 * i], l[7 + 3 * i]))
        });
        if !functions_right || !lines_right {
            return Some(14);
        }
        if self.functions64.chunks(FUNCTION64).any(|f| f[0].checked_add(f[1]).is_none()) {
            return Some(15);
        }
        None
    }

    /// The rows of an accepted tree.
    pub fn rows(&self) -> Vec<Row> {
        assert_eq!(self.refusal(), None);
        let text = |start: u32, length: u32| self.text_at(start, length).unwrap().to_vec();
        let mut lines = self.lines64.chunks(LINE64).zip(self.lines32.chunks(LINE32)).map(|(l64, l32)| {
            let option = |i: usize| (l32[5 + 3 * i] != 0).then(|| text(l32[6 + 3 * i], l32[7 + 3 * i]));
            Line {
                address: l64[0],
                size: (l32[0] != 0).then_some(l64[1]),
                number: l64[2],
                name: text(l32[1], l32[2]),
                dir: text(l32[3], l32[4]),
                srcsrv: [option(0), option(1), option(2)],
            }
        });
        self.functions64
            .chunks(FUNCTION64)
            .zip(self.functions32.chunks(FUNCTION32))
            .map(|(f64, f32)| Row {
                depth: f32[0],
                address: f64[0],
                size: f64[1],
                inline: f32[1] != 0,
                language: f32[2],
                name: text(f32[3], f32[4]),
                comp_dir: text(f32[5], f32[6]),
                lines: lines.by_ref().take(f32[7] as usize).collect(),
            })
            .collect()
    }
}

/// A step of a stored list of calls.
#[derive(Clone, Debug, PartialEq, Eq)]
pub enum Step {
    Begin(Begin),
    Tree(Columns),
    Symbol(Sym),
    Write,
    End,
}

impl Step {
    pub fn put(&self, out: &mut Vec<u8>) {
        let mut body = Vec::new();
        match self {
            Step::Begin(b) => {
                put32(&mut body, 0);
                body.extend(b.debug_id);
                put32(&mut body, b.arch);
                put32(&mut body, u32::from(b.functions));
                put32(&mut body, u32::from(b.symbols));
            }
            Step::Tree(c) => {
                put32(&mut body, 1);
                put32(&mut body, (c.functions32.len() / FUNCTION32) as u32);
                put32(&mut body, (c.lines32.len() / LINE32) as u32);
                put32(&mut body, c.text.len() as u32);
                c.functions64.iter().for_each(|w| put64(&mut body, *w));
                c.functions32.iter().for_each(|w| put32(&mut body, *w));
                c.lines64.iter().for_each(|w| put64(&mut body, *w));
                c.lines32.iter().for_each(|w| put32(&mut body, *w));
                body.extend(&c.text);
            }
            Step::Symbol(s) => {
                put32(&mut body, 2);
                put32(&mut body, u32::from(s.name.is_some()));
                put64(&mut body, s.address);
                put64(&mut body, s.size);
                body.extend(s.name.as_deref().unwrap_or_default());
            }
            Step::Write => put32(&mut body, 3),
            Step::End => put32(&mut body, 4),
        }
        put_record(out, &body);
    }

    pub fn of(body: &[u8]) -> Step {
        let mut body = Body(body);
        match body.u32() {
            0 => Step::Begin(Begin {
                debug_id: body.bytes(32).try_into().unwrap(),
                arch: body.u32(),
                functions: body.u32() != 0,
                symbols: body.u32() != 0,
            }),
            1 => {
                let (f, l, t) = (body.u32() as usize, body.u32() as usize, body.u32() as usize);
                Step::Tree(Columns {
                    functions64: (0..f * FUNCTION64).map(|_| body.u64()).collect(),
                    functions32: (0..f * FUNCTION32).map(|_| body.u32()).collect(),
                    lines64: (0..l * LINE64).map(|_| body.u64()).collect(),
                    lines32: (0..l * LINE32).map(|_| body.u32()).collect(),
                    text: body.bytes(t).to_vec(),
                })
            }
            2 => {
                let named = body.u32() != 0;
                let (address, size) = (body.u64(), body.u64());
                Step::Symbol(Sym { address, size, name: named.then(|| body.0.to_vec()) })
            }
            3 => Step::Write,
            4 => Step::End,
            n => panic!("step {n}"),
        }
    }
}

/// The answers to a list of calls, one list of words for each `End`: FORMAT.md, "Converter".
pub fn converter_words(steps: &[Step]) -> Vec<Vec<u32>> {
    let mut lists = Vec::new();
    let mut out = Vec::new();
    let mut session: Option<Session> = None;
    let code = |r: Result<(), Kept>| match r {
        Ok(()) => 0,
        Err(Kept::Refused(n)) => n,
        Err(Kept::NoNumber(n)) => panic!("no such language or arch: {n}"),
    };
    for step in steps {
        match step {
            Step::Begin(b) => session = Some(Session::begin(b).expect("an arch of the original")),
            Step::Tree(c) => out.push(match c.refusal() {
                Some(n) => n,
                None => code(session.as_mut().unwrap().tree(&c.rows())),
            }),
            Step::Symbol(s) => out.push(code(session.as_mut().unwrap().symbol(s))),
            Step::Write => {
                let file = session.as_ref().unwrap().write();
                out.extend([0, file.len() as u32]);
                out.extend(file.iter().map(|b| u32::from(*b)));
            }
            Step::End => lists.push(std::mem::take(&mut out)),
        }
    }
    lists
}
