//! Random lists of calls, in the domain for equality or beyond it, and calls that document 01 refuses.

use crate::answers::*;
use crate::claims::ranges_in_domain;
use crate::random::*;
use crate::*;

pub fn small() -> (Begin, Vec<Call>) {
    let line = |address: u64, size: u64, number: u64, name: &[u8]| Line {
        address,
        size: Some(size),
        number,
        name: name.to_vec(),
        dir: b"src".to_vec(),
        srcsrv: [None, None, None],
    };
    let row = |depth: u32, address: u64, size: u64, name: &[u8], lines: Vec<Line>| Row {
        depth,
        address,
        size,
        inline: depth > 0,
        language: 2,
        name: name.to_vec(),
        comp_dir: b"/b".to_vec(),
        lines,
    };
    let rows = vec![
        row(0, 0x1000, 16, b"trk", vec![line(0x1000, 8, 10, b"a.rs"), line(0x1008, 8, 11, b"a.rs")]),
        row(1, 0x1002, 4, b"pos", vec![line(0x1002, 4, 50, b"p.rs")]),
    ];
    (Begin::default(), vec![Call::Tree(rows), Call::Write])
}

/// A tree whose rows lie each inside the one before it, down to this depth, and a write. Each row covers one address less at either end than its caller, so
/// that the middle gives a frame for every row.
pub fn chain(depth: u32) -> (Begin, Vec<Call>) {
    let rows = (0..=depth).map(|d| {
        let (address, size) = (0x1000 + u64::from(d), 2 * u64::from(depth - d) + 1);
        Row {
            depth: d,
            address,
            size,
            inline: d > 0,
            language: 2,
            name: format!("f{d}").into_bytes(),
            comp_dir: b"/b".to_vec(),
            lines: vec![Line {
                address,
                size: Some(size),
                number: 10 + u64::from(d),
                name: b"a.rs".to_vec(),
                dir: b"src".to_vec(),
                srcsrv: [None, None, None],
            }],
        }
    });
    (Begin::default(), vec![Call::Tree(rows.collect()), Call::Write])
}

#[derive(Clone, Copy)]
pub enum Kind {
    Good,
    Gaps,
    Wild,
    Changed,
}

/// A list whose trees are accepted and lie in the domain as far as inlinee ranges go.
pub fn list(r: &mut Random, kind: Kind) -> (Begin, Vec<Call>) {
    let (begin, mut calls) = match kind {
        Kind::Good => good_list(r, Symbols::Any),
        Kind::Gaps => good_list(r, Symbols::Gaps),
        Kind::Wild => wild_list(r),
        Kind::Changed => {
            let (b, mut c) = good_list(r, Symbols::Any);
            for _ in 0..r.within(1, 6) {
                mutate(r, &mut c);
            }
            (b, c)
        }
    };
    calls.retain(|c| match c {
        Call::Tree(t) => tree_refusal(t).is_none() && ranges_in_domain(t),
        _ => true,
    });
    if r.one_in(6) {
        vary(r, &mut calls);
    }
    (begin, calls)
}

/// Other texts: long ones, whose lengths take two bytes, and many that differ in one byte only.
pub fn vary(r: &mut Random, calls: &mut [Call]) {
    let text = |r: &mut Random, t: &mut Vec<u8>| match r.below(8) {
        0 => {
            let n = *r.pick(&[126, 127, 128, 129, 255, 256, 300]);
            *t = (0..n).map(|i| b'a' + (i % 26) as u8).collect();
        }
        1 => *t = format!("\u{20ac}{}", "\u{e9}".repeat(r.below(80) as usize)).into_bytes(),
        2..=5 => *t = format!("module::part{}::name", r.below(40)).into_bytes(),
        _ => {}
    };
    for call in calls {
        match call {
            Call::Write => {}
            Call::Symbol(s) => s.name.iter_mut().for_each(|n| text(r, n)),
            Call::Tree(rows) => {
                for row in rows {
                    text(r, &mut row.name);
                    text(r, &mut row.comp_dir);
                    for line in &mut row.lines {
                        text(r, &mut line.name);
                        text(r, &mut line.dir);
                    }
                }
            }
        }
    }
}

/// Makes every text nonempty, before and after undecoration.
pub fn fill(r: &mut Random, begin: &Begin, calls: &mut [Call]) {
    let fill = |t: &mut Vec<u8>| {
        if t.is_empty() {
            *t = b"e".to_vec();
        }
    };
    let name = |r: &mut Random, t: &mut Vec<u8>, undecorated: bool| {
        let left = !t.is_empty() && (!undecorated || !original::undecorate(std::str::from_utf8(t).unwrap()).is_empty());
        if !left {
            *t = [&b"main"[..], b"_start@12", b"@fast@8", b"vec@@16", b"?x@@YAXXZ"][r.below(5) as usize].to_vec();
        }
    };
    for call in calls {
        match call {
            Call::Write => {}
            Call::Symbol(s) => {
                if let Some(n) = &mut s.name {
                    name(r, n, begin.symbols);
                }
            }
            Call::Tree(rows) => {
                for row in rows {
                    name(r, &mut row.name, begin.functions);
                    fill(&mut row.comp_dir);
                    for line in &mut row.lines {
                        fill(&mut line.name);
                        fill(&mut line.dir);
                        line.srcsrv.iter_mut().flatten().for_each(fill);
                    }
                }
            }
        }
    }
}

pub fn written(begin: &Begin, calls: &[Call]) -> Vec<u8> {
    let mut session = Session::begin(begin).unwrap();
    for call in calls {
        match call {
            Call::Tree(t) => session.tree(t).unwrap(),
            Call::Symbol(s) => session.symbol(s).unwrap(),
            Call::Write => {}
        }
    }
    session.write()
}

/// A tree that document 01 refuses, out of one that it accepts.
pub fn refused(r: &mut Random, mut c: Columns) -> Columns {
    let last = c.functions32.len() / FUNCTION32 - 1;
    let lines = c.lines32.len() / LINE32;
    let row = r.below(last as u64 + 1) as usize;
    let line = r.below(lines.max(1) as u64) as usize;
    match r.below(11) {
        0 => return Columns { text: c.text, ..Default::default() },
        1 => c.functions32[0] = 1,
        2 if last > 0 => c.functions32[FUNCTION32 * last] = 0,
        2 | 3 => c.functions32[FUNCTION32 * last] += 2,
        4 => c.functions32[FUNCTION32 * row + 7] += 1,
        5 => c.functions32[FUNCTION32 * row + 3] = c.text.len() as u32 + 1,
        6 => {
            c.functions32[FUNCTION32 * row + 3] = c.text.len() as u32;
            c.functions32[FUNCTION32 * row + 4] = 2;
            c.text.extend(b"a\xff");
        }
        7 if lines > 0 => {
            let i = r.below(5) as usize;
            let at = LINE32 * line + [1, 3, 6, 9, 12][i];
            if i > 1 {
                c.lines32[at - 1] = 1;
            }
            c.lines32[at] = c.text.len() as u32;
            c.lines32[at + 1] = 3;
            c.text.extend(b"\xed\xa0\x80");
        }
        8 => c.functions32[FUNCTION32 * row + 6] = u32::MAX,
        9 => deepen(r, &mut c, last),
        _ => {
            c.functions64[FUNCTION64 * row] = u64::MAX - 3;
            c.functions64[FUNCTION64 * row + 1] = 4 + r.below(9);
        }
    }
    c
}

/// Rows without lines below the last row, down to a depth that is 42 or a little more: 25. Some are skipped, and none below a skipped one is visited.
fn deepen(r: &mut Random, c: &mut Columns, last: usize) {
    let bottom = MAX_DEPTH + 1 + r.below(3) as u32;
    let (address, size) = (c.functions64[FUNCTION64 * last], c.functions64[FUNCTION64 * last + 1]);
    for depth in c.functions32[FUNCTION32 * last] + 1..=bottom {
        c.functions64.extend([address, if r.one_in(4) { 0 } else { size }]);
        c.functions32.extend([depth, 1, 0, 0, 0, 0, 0, 0]);
    }
}

/// Document 01's domain for equality, of a list of calls.
pub fn in_domain(begin: &Begin, calls: &[Call]) -> bool {
    let name = |n: &[u8], undecorated: bool| {
        let n = std::str::from_utf8(n).unwrap();
        !n.is_empty() && (!undecorated || !original::undecorate(n).is_empty())
    };
    let text = |t: &[u8]| !t.is_empty() && std::str::from_utf8(t).is_ok();
    let line = |l: &Line| text(&l.name) && text(&l.dir) && l.srcsrv.iter().flatten().all(|t| text(t));
    let row = |row: &Row| {
        language(row.language).is_some()
            && name(&row.name, begin.functions)
            && !row.comp_dir.is_empty()
            && row.lines.iter().all(line)
    };
    arch(begin.arch).is_some()
        && calls.iter().all(|c| match c {
            Call::Tree(t) => tree_refusal(t).is_none() && ranges_in_domain(t) && t.iter().all(row),
            Call::Symbol(s) => symbol_refusal(s).is_none() && s.name.as_ref().is_none_or(|n| name(n, begin.symbols)),
            Call::Write => true,
        })
}
