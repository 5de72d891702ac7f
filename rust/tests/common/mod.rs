//! What the tests share: document 01's small worked tree, and random trees.
#![allow(dead_code)]

use symcache::debuginfo::{FileInfo, Function, LineInfo, Symbol};
use symcache::{Capacity, Converter, ConverterBuilder};

pub fn line<'a>(address: u64, size: u64, line: u64, name: &'a str) -> LineInfo<'a> {
    LineInfo {
        address,
        size: Some(size),
        line,
        file: FileInfo::new(name, "src"),
    }
}

/// A file with all texts but the compilation directory, each another one.
pub fn line_file() -> FileInfo<'static> {
    FileInfo {
        name: "name".into(),
        dir: "dir".into(),
        srcsrv_name: Some("sname".into()),
        srcsrv_dir: Some("sdir".into()),
        srcsrv_revision: Some("rev".into()),
    }
}

/// Root trk with the inlinee pos.
pub fn worked_tree() -> Function<'static> {
    Function {
        address: 0x1000,
        size: 16,
        name: "trk".into(),
        language: 2,
        compilation_dir: b"/b"[..].into(),
        lines: vec![line(0x1000, 8, 10, "a.rs"), line(0x1008, 8, 11, "a.rs")],
        inlinees: vec![Function {
            address: 0x1002,
            size: 4,
            name: "pos".into(),
            language: 2,
            compilation_dir: b"/b"[..].into(),
            lines: vec![line(0x1002, 4, 50, "p.rs")],
            inline: true,
            ..Function::default()
        }],
        ..Function::default()
    }
}

pub fn worked_file() -> Vec<u8> {
    let mut converter = Converter::builder().build();
    converter.process_symbolic_function(&worked_tree()).unwrap();
    converter.serialize().unwrap()
}

/// Numbers from a seed (SplitMix64).
pub struct Random(u64);

impl Random {
    pub fn new(seed: u64) -> Self {
        Random(seed)
    }

    pub fn next(&mut self) -> u64 {
        self.0 = self.0.wrapping_add(0x9e3779b97f4a7c15);
        let mut z = self.0;
        z = (z ^ (z >> 30)).wrapping_mul(0xbf58476d1ce4e5b9);
        z = (z ^ (z >> 27)).wrapping_mul(0x94d049bb133111eb);
        z ^ (z >> 31)
    }

    pub fn below(&mut self, n: u64) -> u64 {
        self.next() % n
    }

    fn text(&mut self, kinds: u64) -> String {
        match self.below(6) {
            0 => String::new(),
            1 => format!("_f{}@4", self.below(kinds)),
            2 => "long/".repeat(30),
            _ => format!("t{}", self.below(kinds)),
        }
    }

    fn optional(&mut self) -> Option<std::borrow::Cow<'static, str>> {
        (self.below(4) == 0).then(|| self.text(5).into())
    }

    fn line(&mut self, base: u64) -> LineInfo<'static> {
        LineInfo {
            address: base + self.below(40),
            size: (self.below(5) != 0).then(|| self.below(12)),
            line: self.below(1 << 33),
            file: FileInfo {
                name: self.text(20).into(),
                dir: self.text(4).into(),
                srcsrv_name: self.optional(),
                srcsrv_dir: self.optional(),
                srcsrv_revision: self.optional(),
            },
        }
    }

    /// Any tree: lines need not be sorted, inlinees may lie outside their callers.
    pub fn tree(&mut self, depth: u64) -> Function<'static> {
        let base = match self.below(12) {
            0 => u64::from(u32::MAX) - 20,
            1 => u64::from(u32::MAX) + self.below(9),
            _ => self.below(300),
        };
        Function {
            address: base,
            size: self.below(50),
            name: self.text(30).into(),
            language: self.below(30) as u32,
            compilation_dir: [&b"/b"[..], b"\xff", b""][self.below(3) as usize].into(),
            lines: (0..self.below(6)).map(|_| self.line(base)).collect(),
            inlinees: match depth {
                0 => Vec::new(),
                _ => (0..self.below(4)).map(|_| self.tree(depth - 1)).collect(),
            },
            inline: self.below(4) != 0,
        }
    }

    pub fn symbol(&mut self) -> Symbol<'static> {
        Symbol {
            name: (self.below(5) != 0).then(|| self.text(30).into()),
            address: match self.below(12) {
                0 => u64::from(u32::MAX) + self.below(3),
                _ => self.below(400),
            },
            size: self.below(20),
        }
    }

    /// A list of trees and symbols.
    pub fn list(&mut self, calls: u64) -> Vec<Call> {
        (0..calls)
            .map(|_| match self.below(3) {
                0 => Call::Symbol(self.symbol()),
                _ => Call::Tree(self.tree(3)),
            })
            .collect()
    }
}

pub enum Call {
    Tree(Function<'static>),
    Symbol(Symbol<'static>),
}

impl Call {
    pub fn make(&self, converter: &mut Converter) -> Result<(), symcache::Error> {
        match self {
            Call::Tree(tree) => converter.process_symbolic_function(tree),
            Call::Symbol(symbol) => converter.process_symbolic_symbol(symbol),
        }
    }
}

/// Functions, lines, symbols and text bytes of a list.
pub fn totals(list: &[Call]) -> (usize, usize, usize, usize) {
    fn add(tree: &Function<'_>, all: &mut (usize, usize, usize, usize)) {
        all.0 += 1;
        all.1 += tree.lines.len();
        all.3 += tree.name.len();
        for line in &tree.lines {
            let file = &line.file;
            let srcsrv = [&file.srcsrv_name, &file.srcsrv_dir, &file.srcsrv_revision];
            all.3 += file.name.len() + file.dir.len() + tree.compilation_dir.len();
            all.3 += srcsrv
                .into_iter()
                .flatten()
                .map(|text| text.len())
                .sum::<usize>();
        }
        for inlinee in &tree.inlinees {
            add(inlinee, all);
        }
    }
    let mut all = (0, 0, 0, 0);
    for call in list {
        match call {
            Call::Tree(tree) => add(tree, &mut all),
            Call::Symbol(symbol) => {
                all.2 += 1;
                all.3 += symbol.name.as_deref().map_or(0, str::len);
            }
        }
    }
    all
}

/// A builder with no room at all.
pub fn without_room() -> ConverterBuilder {
    Converter::builder().capacity(Capacity {
        string_bytes: 0,
        strings: 0,
        files: 0,
        functions: 0,
        call_locations: 0,
        ranges: 0,
    })
}
