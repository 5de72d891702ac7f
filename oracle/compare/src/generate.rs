//! Random lists with the memory they are lent, and random files.

use oracle::answers::*;
use oracle::files::{DAMAGES, damage, random_file};
use oracle::lists::{Kind, fill, list, refused};
use oracle::random::{Random, Symbols, good_list_of, mutate, wild_tree};
use oracle::*;
use symcache::ffi::RECORD_WORDS;

use crate::case::*;

/// A number that stands for yes.
fn yes(r: &mut Random) -> u32 {
    if r.one_in(4) { 1 + r.below(u64::from(u32::MAX)) as u32 } else { 1 }
}

/// Other numbers for yes in the flags of the rows.
fn vary_flags(r: &mut Random, c: &mut Columns) {
    for row in c.functions32.chunks_mut(FUNCTION32) {
        if row[1] != 0 {
            row[1] = yes(r);
        }
    }
    for row in c.lines32.chunks_mut(LINE32) {
        for flag in [0, 5, 8, 11] {
            if row[flag] != 0 {
                row[flag] = yes(r);
            }
        }
    }
}

/// Slices that hold no whole rows, or not equally many.
fn uneven(r: &mut Random, c: &mut Columns) {
    match r.below(8) {
        0 => drop(c.functions64.pop()),
        1 => drop(c.functions32.pop()),
        2 => drop(c.lines64.pop()),
        3 => drop(c.lines32.pop()),
        4 => c.functions64.extend([0, 1]),
        5 => c.lines64.extend([0, 1, 2]),
        6 => c.lines32.extend([0; LINE32]),
        _ => c.functions32.extend([1, 0, 0, 0, 0, 0, 0, 0]),
    }
}

fn refused_tree(r: &mut Random, c: &Columns) -> Columns {
    let mut c = c.clone();
    for _ in 0..1 + r.below(5) / 4 {
        if c.refusal() == Some(13) {
            break;
        }
        c = refused(r, c);
    }
    if r.one_in(6) {
        uneven(r, &mut c);
    }
    c
}

fn symbol(r: &mut Random, s: &Sym) -> Op {
    let mut text: Vec<u8> = (0..r.below(4)).map(|_| r.next() as u8).collect();
    let start = text.len() as u32;
    let Some(name) = &s.name else {
        let (start, len) = (r.next() as u32, r.next() as u32);
        return Op::Symbol { text, address: s.address, size: s.size, named: 0, start, len };
    };
    text.extend(name);
    text.extend((0..r.below(4)).map(|_| r.next() as u8));
    Op::Symbol { text, address: s.address, size: s.size, named: yes(r), start, len: name.len() as u32 }
}

fn refused_symbol(r: &mut Random, s: &Sym) -> Op {
    let Op::Symbol { mut text, address, size, start, .. } = symbol(r, s) else { unreachable!() };
    let (start, len) = match r.below(4) {
        0 => (text.len() as u32 + 1, 0),
        1 => (start, text.len() as u32 - start.min(text.len() as u32) + 1),
        2 => (u32::MAX, u32::MAX),
        _ => {
            text.extend(b"a\x80");
            (text.len() as u32 - 2, 2)
        }
    };
    Op::Symbol { text, address, size, named: yes(r), start, len }
}

fn less(r: &mut Random) -> Room {
    Room::Less(1 + if r.one_in(2) { 0 } else { r.below(80) as usize })
}

/// Many roots over wide windows; one in ten so wide that its file has more than the 1,024 ranges from which on a search halves.
fn large(r: &mut Random) -> (Begin, Vec<Call>) {
    let span = if r.one_in(10) { r.within(30_000, 90_000) } else { r.within(100, 500) };
    let (begin, mut calls) = good_list_of(r, Symbols::Any, span);
    for _ in 0..r.below(8) {
        mutate(r, &mut calls);
    }
    calls.retain(|c| !matches!(c, Call::Tree(t) if tree_refusal(t).is_some() || !rows_in_domain(t)));
    (begin, calls)
}

/// A name whose length takes three bytes, or just not.
fn lengthen(r: &mut Random, calls: &mut [Call]) {
    let long = vec![b'a' + r.below(26) as u8; *r.pick(&[16_383, 16_384, 16_385, 20_000])];
    for call in calls {
        match call {
            Call::Symbol(s) if s.name.is_some() => return s.name = Some(long),
            Call::Tree(rows) => return rows[0].name = long,
            _ => {}
        }
    }
}

fn more(r: &mut Random) -> Room {
    Room::More(if r.one_in(2) { 0 } else { r.below(40) as usize })
}

/// A list of calls with its memory.
pub fn case(r: &mut Random) -> Case {
    let kind = *r.pick(&[Kind::Good, Kind::Gaps, Kind::Wild, Kind::Wild, Kind::Changed, Kind::Changed]);
    let (begin, mut calls) = if r.one_in(400) { large(r) } else { list(r, kind) };
    if r.one_in(300) {
        lengthen(r, &mut calls);
    }
    // Empty texts lie outside the domain for equality; document 01 says what becomes of them.
    if !r.one_in(4) {
        fill(r, &begin, &mut calls);
    }
    if r.one_in(60) {
        return beyond(r, &begin, calls);
    }
    let troubled = r.one_in(4);
    let mut items = vec![Item::plain(begun(r, &begin))];
    for call in &calls {
        let op = match call {
            Call::Tree(rows) => {
                let mut c = Columns::of(rows);
                if r.one_in(4) {
                    vary_flags(r, &mut c);
                }
                if troubled && r.one_in(3) {
                    let bad = refused_tree(r, &c);
                    if bad.refusal().is_some() || rows_in_domain(&bad.rows()) {
                        items.push(Item::plain(Op::Tree(bad)));
                    }
                }
                Op::Tree(c)
            }
            Call::Symbol(s) => {
                if troubled && r.one_in(3) {
                    items.push(Item::plain(refused_symbol(r, s)));
                }
                symbol(r, s)
            }
            Call::Write => Op::Write,
        };
        items.push(Item::plain(op));
    }
    // A beginning anew, now and then, and calls before the first.
    if r.one_in(16) {
        let at = r.below(items.len() as u64 + 1) as usize;
        let again = Item::plain(begun(r, &begin));
        items.insert(at, again);
    }
    if r.one_in(40) {
        let first = items.remove(0);
        let at = r.below(items.len() as u64 + 1) as usize;
        items.insert(at, first);
    }
    for item in &mut items {
        let lend = &mut item.lend;
        lend.room = more(r);
        lend.flags = r.one_in(12);
        if troubled {
            match r.below(24) {
                0 => lend.closed = true,
                1 => lend.record = Some(r.below(RECORD_WORDS as u64) as usize),
                2 | 3 => lend.less = Some(r.below(6) as usize),
                4..=6 => lend.room = less(r),
                _ => {}
            }
            if lend.closed && r.one_in(3) {
                lend.room = less(r);
            }
        }
    }
    let mut capacity = std::array::from_fn(|_| more(r));
    if r.one_in(5) {
        for _ in 0..1 + r.below(4) / 3 {
            let by = if r.one_in(2) { 1 } else { 1 + r.below(12) as usize };
            capacity[r.below(6) as usize] = Room::Less(by);
        }
        // Begun anew after the tables were full.
        if r.one_in(3) {
            let again = Item::plain(begun(r, &begin));
            let at = 1 + r.below(items.len() as u64) as usize;
            items.insert(at, again);
        }
    }
    let spare = std::array::from_fn(|_| if r.one_in(3) { r.below(8) as usize } else { 0 });
    let chance = r.below(8) as usize;
    let counted = [u64::MAX - 2, u64::from(u32::MAX) - 1, 0, 0, 0, 0, 0, 0][chance];
    Case { items, capacity, spare, record: chance / 6, counted, numbers_only: false }
}

fn begun(r: &mut Random, begin: &Begin) -> Op {
    let Op::Begin { mut debug_id, arch, functions, symbols } = begin_op(begin) else { unreachable!() };
    match r.below(12) {
        0 => debug_id.extend((0..r.below(4)).map(|_| r.next() as u8)),
        1 => debug_id.truncate(r.below(33) as usize),
        _ => {}
    }
    let flag = |r: &mut Random, f: u32| if f != 0 { yes(r) } else { 0 };
    Op::Begin { debug_id, arch, functions: flag(r, functions), symbols: flag(r, symbols) }
}

/// A list outside the domain for equality: only numbers can be compared.
fn beyond(r: &mut Random, begin: &Begin, mut calls: Vec<Call>) -> Case {
    let mut begin = begin.clone();
    match r.below(3) {
        0 => begin.arch = r.next() as u32,
        1 => {
            let rows = (0..20).map(|_| wild_tree(r)).find(|t| !claims::ranges_in_domain(t));
            calls.extend(rows.map(Call::Tree));
        }
        _ => {
            for call in &mut calls {
                if let Call::Tree(rows) = call {
                    rows.iter_mut().for_each(|row| row.language = r.next() as u32);
                }
            }
        }
    }
    calls.push(Call::Write);
    Case { numbers_only: true, ..Case::plain(&begin, &calls) }
}

/// A file that no writer made: damaged, cut or random.
pub fn file(r: &mut Random, written: &[u8]) -> Vec<u8> {
    if r.one_in(5) || written.is_empty() {
        return random_file(r);
    }
    let mut file = written.to_vec();
    if r.one_in(6) {
        file.truncate(r.below(file.len() as u64 + 1) as usize);
        return file;
    }
    for _ in 0..1 + r.below(4) / 3 {
        let kind = r.below(DAMAGES.len() as u64) as usize;
        damage(r, kind, &mut file);
    }
    file
}
