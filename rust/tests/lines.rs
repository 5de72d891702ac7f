//! The two tree calls against each other: line rows as number slices, and as one lent list of rows.
//! Random lists of calls, refusals included, leave equal memory; the worked file comes out byte for
//! byte. LINES_LISTS and LINES_SEED choose other lists.

use std::collections::BTreeMap;

use symcache::{Converter, LineRow, LineRows, OptionalPart, TextPart};

/// The file that the original writes; the lister's.
const STORED: &[u8] = include_bytes!("../../crates/lister/data/cache.sym");

type W = *mut u32;
type B = *mut u8;
extern "C" {
    fn symcache_begin(
        r: W,
        rn: usize,
        id: *const u8,
        idn: usize,
        arch: u32,
        f: u32,
        s: u32,
        a: B,
        an: usize,
        b: W,
        bn: usize,
        c: W,
        cn: usize,
        d: W,
        dn: usize,
        e: W,
        en: usize,
        g: W,
        gn: usize,
    ) -> u32;
    fn symcache_process_symbolic_function(
        r: W,
        rn: usize,
        a: B,
        an: usize,
        b: W,
        bn: usize,
        c: W,
        cn: usize,
        d: W,
        dn: usize,
        e: W,
        en: usize,
        g: W,
        gn: usize,
        s: W,
        sn: usize,
        f64: *const u64,
        f64n: usize,
        f32: *const u32,
        f32n: usize,
        l64: *const u64,
        l64n: usize,
        l32: *const u32,
        l32n: usize,
        t: *const u8,
        tn: usize,
    ) -> u32;
    fn symcache_process_symbolic_function_lines(
        r: W,
        rn: usize,
        a: B,
        an: usize,
        b: W,
        bn: usize,
        c: W,
        cn: usize,
        d: W,
        dn: usize,
        e: W,
        en: usize,
        g: W,
        gn: usize,
        s: W,
        sn: usize,
        u: *mut u64,
        un: usize,
        v: W,
        vn: usize,
        f64: *const u64,
        f64n: usize,
        f32: *const u32,
        f32n: usize,
        l: *const LineRow,
        ln: usize,
        t: *const u8,
        tn: usize,
    ) -> u32;
    fn symcache_process_symbolic_symbol(
        r: W,
        rn: usize,
        a: B,
        an: usize,
        b: W,
        bn: usize,
        c: W,
        cn: usize,
        d: W,
        dn: usize,
        e: W,
        en: usize,
        g: W,
        gn: usize,
        t: *const u8,
        tn: usize,
        address: u64,
        size: u64,
        named: u32,
        start: u32,
        len: u32,
    ) -> u32;
    fn symcache_serialize(
        r: *const u32,
        rn: usize,
        a: *const u8,
        an: usize,
        b: *const u32,
        bn: usize,
        c: *const u32,
        cn: usize,
        d: *const u32,
        dn: usize,
        e: *const u32,
        en: usize,
        g: *const u32,
        gn: usize,
        out: B,
        outn: usize,
        len: *mut u64,
        lenn: usize,
    ) -> u32;
}

#[derive(Clone, PartialEq, Debug)]
struct State {
    record: Vec<u32>,
    string_bytes: Vec<u8>,
    tables: [Vec<u32>; 5],
}

macro_rules! p {
    ($v:expr) => {
        $v.as_mut_ptr()
    };
}

impl State {
    fn begin(&mut self, id: &[u8], arch: u32, f: u32, s: u32) -> u32 {
        let [b, c, d, e, g] = &mut self.tables;
        unsafe {
            symcache_begin(
                p!(self.record),
                self.record.len(),
                id.as_ptr(),
                id.len(),
                arch,
                f,
                s,
                p!(self.string_bytes),
                self.string_bytes.len(),
                p!(b),
                b.len(),
                p!(c),
                c.len(),
                p!(d),
                d.len(),
                p!(e),
                e.len(),
                p!(g),
                g.len(),
            )
        }
    }
    fn tree(&mut self, t: &Tree, scratch: &mut [u32]) -> u32 {
        let [b, c, d, e, g] = &mut self.tables;
        unsafe {
            symcache_process_symbolic_function(
                p!(self.record),
                self.record.len(),
                p!(self.string_bytes),
                self.string_bytes.len(),
                p!(b),
                b.len(),
                p!(c),
                c.len(),
                p!(d),
                d.len(),
                p!(e),
                e.len(),
                p!(g),
                g.len(),
                p!(scratch),
                scratch.len(),
                t.functions64.as_ptr(),
                t.functions64.len(),
                t.functions32.as_ptr(),
                t.functions32.len(),
                t.lines64.as_ptr(),
                t.lines64.len(),
                t.lines32.as_ptr(),
                t.lines32.len(),
                t.text.as_ptr(),
                t.text.len(),
            )
        }
    }
    fn lines(&mut self, t: &Tree, scratch: &mut [u32], u: &mut [u64], v: &mut [u32]) -> u32 {
        let [b, c, d, e, g] = &mut self.tables;
        unsafe {
            symcache_process_symbolic_function_lines(
                p!(self.record),
                self.record.len(),
                p!(self.string_bytes),
                self.string_bytes.len(),
                p!(b),
                b.len(),
                p!(c),
                c.len(),
                p!(d),
                d.len(),
                p!(e),
                e.len(),
                p!(g),
                g.len(),
                p!(scratch),
                scratch.len(),
                p!(u),
                u.len(),
                p!(v),
                v.len(),
                t.functions64.as_ptr(),
                t.functions64.len(),
                t.functions32.as_ptr(),
                t.functions32.len(),
                t.rows.as_ptr(),
                t.rows.len(),
                t.text.as_ptr(),
                t.text.len(),
            )
        }
    }
    fn symbol(
        &mut self,
        text: &[u8],
        address: u64,
        size: u64,
        named: u32,
        start: u32,
        len: u32,
    ) -> u32 {
        let [b, c, d, e, g] = &mut self.tables;
        unsafe {
            symcache_process_symbolic_symbol(
                p!(self.record),
                self.record.len(),
                p!(self.string_bytes),
                self.string_bytes.len(),
                p!(b),
                b.len(),
                p!(c),
                c.len(),
                p!(d),
                d.len(),
                p!(e),
                e.len(),
                p!(g),
                g.len(),
                text.as_ptr(),
                text.len(),
                address,
                size,
                named,
                start,
                len,
            )
        }
    }
    fn file(&self) -> (u32, Vec<u8>) {
        let mut out = vec![0u8; 65536];
        let mut len = [0u64; 1];
        let [b, c, d, e, g] = &self.tables;
        let code = unsafe {
            symcache_serialize(
                self.record.as_ptr(),
                self.record.len(),
                self.string_bytes.as_ptr(),
                self.string_bytes.len(),
                b.as_ptr(),
                b.len(),
                c.as_ptr(),
                c.len(),
                d.as_ptr(),
                d.len(),
                e.as_ptr(),
                e.len(),
                g.as_ptr(),
                g.len(),
                p!(out),
                out.len(),
                p!(len),
                1,
            )
        };
        out.truncate(len[0] as usize);
        (code, out)
    }
}

#[derive(Clone, Default)]
struct Tree {
    functions64: Vec<u64>,
    functions32: Vec<u32>,
    lines64: Vec<u64>,
    lines32: Vec<u32>,
    rows: Vec<LineRow>,
    text: Vec<u8>,
}

struct Rng(u64);
impl Rng {
    fn next(&mut self) -> u64 {
        self.0 ^= self.0 << 13;
        self.0 ^= self.0 >> 7;
        self.0 ^= self.0 << 17;
        self.0.wrapping_mul(0x2545F4914F6CDD1D)
    }
    fn below(&mut self, n: u64) -> u64 {
        (self.next() >> 11) % n
    }
    fn one_in(&mut self, n: u64) -> bool {
        self.below(n) == 0
    }
}

impl Tree {
    fn flag(r: &mut Rng, b: bool) -> u32 {
        // any word but 0 is yes
        if b {
            [1, 2, 7, 0x8000_0000, u32::MAX][r.below(5) as usize]
        } else {
            0
        }
    }
    fn push(&mut self, r: &mut Rng, l: LineRow) {
        self.lines64.extend([l.address, l.size, l.number]);
        self.lines32.push(Tree::flag(r, l.has_size));
        for q in [l.name, l.directory] {
            self.lines32.extend([q.start, q.len]);
        }
        for o in [l.srcsrv_name, l.srcsrv_dir, l.revision] {
            self.lines32.push(Tree::flag(r, o.present));
            self.lines32.extend([o.part.start, o.part.len]);
        }
        self.rows.push(l);
    }
    fn part(&self, r: &mut Rng) -> TextPart {
        if r.one_in(150) {
            return TextPart {
                start: r.next() as u32,
                len: r.next() as u32,
            };
        }
        let start = r.below(self.text.len() as u64 + 1);
        let len = r.below((self.text.len() as u64 - start + 1).min(6));
        TextPart {
            start: start as u32,
            len: len as u32,
        }
    }
    fn optional(&self, r: &mut Rng) -> OptionalPart {
        let present = r.one_in(3);
        let part = if present || r.one_in(2) {
            self.part(r)
        } else {
            TextPart {
                start: r.next() as u32,
                len: r.next() as u32,
            }
        };
        OptionalPart { present, part }
    }
    fn random(r: &mut Rng) -> Tree {
        let mut t = Tree::default();
        let n = 8 + r.below(16);
        t.text = (0..n)
            .map(|_| b"abcde/._@4"[r.below(10) as usize])
            .collect();
        if r.one_in(12) {
            let at = r.below(n) as usize;
            t.text[at] = [0xFF, 0xC3, 0xE2][r.below(3) as usize];
        }
        let n = if r.one_in(40) { 0 } else { 1 + r.below(6) };
        // One in thirty is a chain, down to depth 40, 41, 42 or 43.
        let chain = r.one_in(30);
        let n = if chain { 41 + r.below(4) } else { n };
        let mut depth = 0;
        for i in 0..n {
            depth = match i {
                0 => 0,
                _ if chain => i,
                _ => 1 + r.below(depth + 1),
            };
            if r.one_in(80) {
                depth = r.below(4);
            }
            let lines = if r.one_in(6) { 0 } else { r.below(5) };
            let base = if r.one_in(12) { 0xFFFF_FFE0 } else { 0x1000 };
            let address = if r.one_in(60) {
                r.next()
            } else {
                base + r.below(64)
            };
            let far = address >> 33 != 0;
            let size = if r.one_in(if far { 2 } else { 60 }) {
                r.next()
            } else {
                r.below(48)
            };
            t.functions64.extend([address, size]);
            let name = t.part(r);
            let dir = t.part(r);
            let count = if r.one_in(60) { lines + 1 } else { lines };
            let flag = Tree::flag(r, i > 0);
            t.functions32.extend([
                depth as u32,
                flag,
                r.below(20) as u32,
                name.start,
                name.len,
                dir.start,
                dir.len,
                count as u32,
            ]);
            let mut at = address;
            for _ in 0..lines {
                let size = r.below(9);
                let l = LineRow {
                    address: if r.one_in(20) { r.next() } else { at },
                    has_size: !r.one_in(4),
                    size: if r.one_in(40) { r.next() } else { size },
                    number: if r.one_in(30) { r.next() } else { r.below(90) },
                    name: t.part(r),
                    directory: t.part(r),
                    srcsrv_name: t.optional(r),
                    srcsrv_dir: t.optional(r),
                    revision: t.optional(r),
                };
                at = at.wrapping_add(r.below(10));
                t.push(r, l);
            }
        }
        if r.one_in(80) {
            t.functions32.pop();
        }
        t
    }
}

fn words(r: &mut Rng, n: u64) -> Vec<u32> {
    (0..n).map(|_| r.next() as u32).collect()
}

fn worked() -> Tree {
    let mut t = Tree {
        text: b"trk/ba.rssrcposp.rs".to_vec(),
        ..Tree::default()
    };
    t.functions64 = vec![0x1000, 16, 0x1002, 4];
    t.functions32 = vec![0, 0, 2, 0, 3, 3, 2, 2, 1, 1, 2, 12, 3, 3, 2, 1];
    let mut r = Rng(1);
    for (address, size, number, name) in
        [(0x1000, 8, 10, 5), (0x1008, 8, 11, 5), (0x1002, 4, 50, 15)]
    {
        let line = LineRow {
            address,
            has_size: true,
            size,
            number,
            name: TextPart {
                start: name,
                len: 4,
            },
            directory: TextPart { start: 9, len: 3 },
            ..LineRow::default()
        };
        t.push(&mut r, line);
    }
    t
}

#[test]
fn the_305_bytes() {
    assert_eq!(std::mem::size_of::<LineRow>(), 88);
    let t = worked();
    let mut s = State {
        record: vec![0; 20],
        string_bytes: vec![9; 64],
        tables: std::array::from_fn(|_| vec![9; 64]),
    };
    assert_eq!(s.begin(&[0; 32], 0, 0, 0), 0);
    let (mut scratch, mut u, mut v) = (vec![7; 20], vec![7; 9], vec![7; 42]);
    assert_eq!(s.lines(&t, &mut scratch, &mut u, &mut v), 0);
    assert!(
        scratch.iter().all(|w| *w == 0) && u.iter().all(|w| *w == 0) && v.iter().all(|w| *w == 0)
    );
    assert_eq!(s.file(), (0, STORED.to_vec()));
}

#[test]
fn the_same_by_the_crate() {
    let t = worked();
    let rows = LineRows {
        functions64: &t.functions64,
        functions32: &t.functions32,
        lines: &t.rows,
        text: &t.text,
    };
    let mut converter = Converter::builder().build();
    converter.process_line_rows(&rows).unwrap();
    assert_eq!(converter.serialize().unwrap(), STORED);
    // Tables that grow make kept calls again, as columns.
    let mut small = Converter::builder()
        .string_bytes(3)
        .strings(1)
        .files(1)
        .functions(1)
        .call_locations(1)
        .ranges(1)
        .keep_calls(true)
        .build();
    small.process_line_rows(&rows).unwrap();
    small.process_line_rows(&rows).unwrap();
    converter.process_rows(&rows.to_rows().columns()).unwrap();
    assert_eq!(small.serialize().unwrap(), converter.serialize().unwrap());
}

fn setting(name: &str, otherwise: u64) -> u64 {
    std::env::var(name).map_or(otherwise, |v| v.parse().unwrap())
}

#[test]
fn random_lists_through_both() {
    let (lists, seed) = (setting("LINES_LISTS", 3000), setting("LINES_SEED", 1));
    let mut seen: BTreeMap<(&str, u32), u64> = BTreeMap::new();
    let mut files = 0;
    for list in 0..lists {
        let mut r = Rng((seed << 32) ^ (list + 1).wrapping_mul(0x9E37_79B9_7F4A_7C15) | 1);
        let big = !r.one_in(3);
        let len = |r: &mut Rng| {
            if big {
                2000 + r.below(100)
            } else {
                r.below(160)
            }
        };
        let words_of = std::array::from_fn(|_| {
            let n = len(&mut r);
            words(&mut r, n)
        });
        let bytes = len(&mut r);
        let mut a = State {
            record: words(&mut r, 20),
            string_bytes: (0..bytes).map(|_| r.next() as u8).collect(),
            tables: words_of,
        };
        let id: Vec<u8> = (0..32).map(|_| r.next() as u8).collect();
        if !r.one_in(20) {
            let (f, s) = (r.below(2) as u32, r.below(2) as u32);
            assert_eq!(a.begin(&id, 3, f, s), 0);
        }
        let mut b = a.clone();
        for _ in 0..1 + r.below(12) {
            if r.one_in(6) {
                let t = Tree::random(&mut r);
                let q = t.part(&mut r);
                let (x, y, n) = (0x1000 + r.below(80), r.below(30), r.below(4).min(1) as u32);
                let (i, j) = (
                    a.symbol(&t.text, x, y, n, q.start, q.len),
                    b.symbol(&t.text, x, y, n, q.start, q.len),
                );
                assert_eq!(i, j);
                assert!(a == b, "a symbol, list {list}");
                continue;
            }
            let t = Tree::random(&mut r);
            let need = 4 * (t.functions64.len() as u64 / 2 + t.rows.len() as u64);
            let n = if r.one_in(15) {
                r.below(need + 1)
            } else {
                need + r.below(9)
            };
            let scratch = words(&mut r, n);
            let rows = t.rows.len() as u64;
            let un = if r.one_in(10) {
                r.below(rows * 3 + 1)
            } else {
                rows * 3 + r.below(5)
            };
            let vn = if r.one_in(10) {
                r.below(rows * 14 + 1)
            } else {
                rows * 14 + r.below(20)
            };
            let u: Vec<u64> = (0..un).map(|_| r.next()).collect();
            let v = words(&mut r, vn);
            let room = un >= rows * 3 && vn >= rows * 14;
            let before = a.clone();
            let (mut sa, mut sb, mut ub, mut vb) =
                (scratch.clone(), scratch.clone(), u.clone(), v.clone());
            let i = a.tree(&t, &mut sa);
            let j = b.lines(&t, &mut sb, &mut ub, &mut vb);
            let expected = if !room && (i == 0 || i == 17) { 16 } else { i };
            assert_eq!(j, expected, "the number, list {list}");
            *seen
                .entry((if room { "with room" } else { "without room" }, j))
                .or_default() += 1;
            if j != i {
                // refused for want of room: nothing has changed
                assert!(b == before && sb == scratch, "16, list {list}");
                a = before;
            } else {
                assert!(a == b, "equal memory, list {list}");
                assert_eq!(sa, sb, "equal scratch, list {list}");
            }
            if j == 0 || j == 17 {
                assert!(
                    ub.iter().all(|w| *w == 0) && vb.iter().all(|w| *w == 0),
                    "zero after {j}, list {list}"
                );
            } else {
                assert!(ub == u && vb == v, "unchanged after {j}, list {list}");
            }
        }
        let (x, y) = (a.file(), b.file());
        assert_eq!(x, y, "equal files, list {list}");
        files += (x.0 == 0) as u64;
    }
    for ((room, code), n) in &seen {
        println!("{room}: {code}: {n}");
    }
    println!("{lists} lists, {files} files, all equal");
    // Every number of a tree call was met, with room to unpack the rows and without.
    let met = |room| {
        seen.keys()
            .filter(|k| k.0 == room)
            .map(|k| k.1)
            .collect::<Vec<_>>()
    };
    assert_eq!(met("with room"), [0, 13, 14, 15, 16, 17, 19, 25]);
    assert_eq!(met("without room"), [13, 14, 15, 16, 19, 25]);
}
