//! Trees for the speed tests.

use crate::random::Random;
use crate::*;

/// What is special about the trees.
#[derive(Clone, Copy, PartialEq, Eq)]
pub enum Kind {
    /// Roots one after the other, with names as a compiler makes them.
    Plain,
    /// Names that differ in the middle only, after 100 equal bytes and before 100 others.
    Alike,
    /// Roots at multiples of 4,096, each at its first address: low bits that are all zero.
    Spread,
}

impl Kind {
    /// The address of root `i`.
    pub fn base(self, i: u64) -> u64 {
        match self {
            Kind::Plain | Kind::Alike => 0x1000 + i * 176,
            Kind::Spread => i * 4096,
        }
    }

    fn name(self, i: u64, hash: u64) -> String {
        match self {
            Kind::Plain | Kind::Spread => format!("_ZN7project9component6detail8function{i:08}17h{hash:016x}E"),
            Kind::Alike => format!("{:a<100}{i:08}{:z<100}", "", ""),
        }
    }
}

/// How a tree of 65,536 function rows, each with a line, reaches depth 41.
#[derive(Clone, Copy, PartialEq, Eq)]
pub enum Deep {
    /// Chains from depth 1 to 41, side by side below the root.
    Chains,
    /// One chain of 42, each of whose callers has 1,598 inlinees beside the chain, or a few less: a row is passed by all its callers as they gather their
    /// inlinee ranges.
    Wide,
}

impl Deep {
    fn depth(self, i: u32) -> u32 {
        match self {
            Deep::Chains if i > 0 => 1 + (i - 1) % MAX_DEPTH,
            Deep::Chains => 0,
            Deep::Wide if i <= MAX_DEPTH => i,
            Deep::Wide => MAX_DEPTH - (i - MAX_DEPTH - 1) / 1598,
        }
    }
}

/// Tree `i` of 65,536 rows. Every row covers what its inlinees cover, and two addresses more.
pub fn deep_tree(i: u64, kind: Deep) -> Vec<Row> {
    const ROWS: u32 = 65_536;
    let base = i << 20;
    let depths: Vec<u32> = (0..ROWS).map(|row| kind.depth(row)).collect();
    // A row begins at an address of its own; it ends an address behind the last one that begins below it, and one more for each level between.
    let mut open: Vec<usize> = Vec::new();
    let mut ends = vec![0u64; depths.len()];
    let mut at = base;
    let mut starts = Vec::with_capacity(depths.len());
    for (row, depth) in depths.iter().map(|d| *d as usize).chain([0]).enumerate() {
        while open.len() > depth {
            at += 1;
            ends[open.pop().unwrap()] = at;
        }
        starts.push(at);
        open.push(row);
        at += 1;
    }
    let file = |row: u64| (format!("module_{:04}_source.rs", row % 1000).into_bytes(), b"library/component/src/detail".to_vec());
    let rows = depths.iter().zip(&starts).zip(&ends).enumerate().map(|(row, ((depth, start), end))| {
        let (name, dir) = file(row as u64);
        let size = end - start;
        Row {
            depth: *depth,
            address: *start,
            size,
            inline: *depth > 0,
            language: 7,
            name: format!("_ZN7project9component6detail8function{:08}E", row % 20_000).into_bytes(),
            comp_dir: b"/build/workspace/project".to_vec(),
            lines: vec![Line { address: *start, size: Some(size), number: 1 + row as u64 % 4000, name, dir, srcsrv: [None, None, None] }],
        }
    });
    rows.collect()
}

/// Functions of ten lines, 160 bytes each; three inlinees, one of them a level deeper.
pub fn tree(r: &mut Random, i: u64, kind: Kind) -> Vec<Row> {
    let base = kind.base(i);
    let file = |r: &mut Random| {
        let n = r.below(3000);
        (
            format!("module_{n:04}_source.rs").into_bytes(),
            format!("library/component_{:03}/src/detail", n % 211).into_bytes(),
        )
    };
    let home = file(r);
    let row = |depth, address, size, name: String, lines: Vec<Line>| Row {
        depth,
        address,
        size,
        inline: depth > 0,
        language: 7,
        name: name.into_bytes(),
        comp_dir: b"/build/workspace/project".to_vec(),
        lines,
    };
    let line = |address, size, number, file: &(Vec<u8>, Vec<u8>)| Line {
        address,
        size: Some(size),
        number,
        name: file.0.clone(),
        dir: file.1.clone(),
        srcsrv: [None, None, None],
    };
    let number = 1 + r.below(4000);
    let lines = (0..10).map(|k| line(base + 16 * k, 16, number + k, &home)).collect();
    let mut rows = vec![row(
        0,
        base,
        160,
        kind.name(i, r.next()),
        lines,
    )];
    let inlinee = |r: &mut Random, rows: &mut Vec<Row>, depth, at: u64, size: u64| {
        let n = r.below(20_000);
        let name = format!("_ZN4core4iter8adapters6inlined{n:08}17h{:016x}E", n * 0x9e37_79b9);
        let home = file(r);
        let number = 1 + n % 900;
        let half = size / 2;
        let lines = vec![line(at, half, number, &home), line(at + half, size - half, number + 3, &home)];
        rows.push(row(depth, at, size, name, lines));
    };
    inlinee(r, &mut rows, 1, base + 18, 12);
    inlinee(r, &mut rows, 2, base + 20, 4);
    inlinee(r, &mut rows, 1, base + 66, 10);
    rows
}
