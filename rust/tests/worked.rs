//! Document 01's small worked file, from its rows to its frames.

mod common;

use common::{line_file, worked_file, worked_tree};
use symcache::debuginfo::{LineInfo, Symbol};
use symcache::{Converter, Layout, Rows, Section, SymCache};

/// The file that the original writes; the lister's.
const STORED: &[u8] = include_bytes!("../../crates/lister/data/cache.sym");

fn listing(cache: &SymCache<'_>, address: u64) -> String {
    let mut lines = String::new();
    for (i, frame) in cache.lookup(address).enumerate() {
        lines += &format!(
            "{address:016X} {i:08X} {:08X} {:08X} {:08X} {:08X}\n",
            frame.location_idx(),
            frame.function_idx(),
            frame.line(),
            frame.file_idx()
        );
    }
    if lines.is_empty() {
        lines = format!("{address:016X} FFFFFFFF\n");
    }
    lines
}

#[test]
fn the_305_bytes() {
    let file = worked_file();
    assert_eq!(file.len(), 305);
    assert_eq!(file, STORED);
}

#[test]
fn the_same_from_rows() {
    let mut rows = Rows::new();
    rows.push_function(0, 0x1000, 16, false, 2, "trk", b"/b")
        .unwrap();
    rows.push_line(&common::line(0x1000, 8, 10, "a.rs"))
        .unwrap();
    rows.push_line(&common::line(0x1008, 8, 11, "a.rs"))
        .unwrap();
    rows.push_function(1, 0x1002, 4, true, 2, "pos", b"/b")
        .unwrap();
    rows.push_line(&common::line(0x1002, 4, 50, "p.rs"))
        .unwrap();
    let mut converter = Converter::builder().build();
    converter.process_rows(&rows.columns()).unwrap();
    assert_eq!(converter.serialize().unwrap(), STORED);
}

#[test]
fn frames() {
    let cache = SymCache::parse(STORED).unwrap();
    assert_eq!(
        listing(&cache, 0x1003) + &listing(&cache, 0x1010),
        "0000000000001003 00000000 00000002 00000001 00000032 00000001\n\
         0000000000001003 00000001 00000000 00000000 0000000A 00000000\n\
         0000000000001010 FFFFFFFF\n"
    );
    for address in [0, 0xfff, 0x1010, 0xffff_ffff, 1 << 32, u64::MAX] {
        assert_eq!(cache.lookup(address).count(), 0, "{address:x}");
    }
    for (address, lines) in [
        (0x1000, vec![10]),
        (0x1002, vec![50, 10]),
        (0x1005, vec![50, 10]),
        (0x1006, vec![10]),
        (0x1008, vec![11]),
        (0x100f, vec![11]),
    ] {
        let found: Vec<u32> = cache.lookup(address).map(|frame| frame.line()).collect();
        assert_eq!(found, lines, "{address:x}");
    }
}

#[test]
fn what_a_frame_holds() {
    let cache = SymCache::parse(STORED).unwrap();
    let mut frames = cache.lookup(0x1003);
    let (inner, outer) = (frames.next().unwrap(), frames.next().unwrap());
    assert!(frames.next().is_none() && frames.next().is_none());

    assert_eq!(inner.function().name(), "pos");
    assert_eq!(inner.function().entry_pc(), u32::MAX);
    assert_eq!(inner.function().language(), 2);
    assert_eq!(outer.function().name(), "trk");
    assert_eq!(outer.function().entry_pc(), 0x1000);
    assert_eq!(cache.get_function(0), Some(outer.function()));
    assert_eq!(cache.get_function(2), None);

    let file = inner.file().unwrap();
    assert_eq!(file.name(), "p.rs");
    assert_eq!(file.directory(), Some("src"));
    assert_eq!(file.comp_dir(), Some("/b"));
    assert_eq!(file.srcsrv_name(), None);
    assert_eq!(file.srcsrv_dir(), None);
    assert_eq!(file.srcsrv_revision(), None);
    assert_eq!(cache.get_file(1), Some(file));
    assert_eq!(cache.get_file(2), None);

    // What a location holds outlives the cache that gave it.
    let name = SymCache::parse(STORED)
        .unwrap()
        .lookup(0x1003)
        .next()
        .unwrap()
        .function()
        .name();
    assert_eq!(name, "pos");
}

/// The two trees of demand3/proofs/SmallCalls.antt: a line with no file name and a compilation directory that is not
/// UTF-8; a root without lines.
#[test]
fn a_file_without_a_name() {
    let mut rows = Rows::new();
    rows.push_function(0, 0x1000, 4, false, 2, "f", b"\xff")
        .unwrap();
    rows.push_line(&LineInfo {
        file: symcache::debuginfo::FileInfo::new("", "d"),
        ..common::line(0x1000, 4, 7, "")
    })
    .unwrap();
    let mut bare = Rows::new();
    bare.push_function(0, 0x1004, 4, false, 3, "g", b"")
        .unwrap();
    let mut converter = Converter::builder().build();
    converter.process_rows(&rows.columns()).unwrap();
    converter.process_rows(&bare.columns()).unwrap();
    let bytes = converter.serialize().unwrap();
    assert_eq!(bytes.len(), 206);

    let cache = SymCache::parse(&bytes).unwrap();
    let frames: Vec<_> = cache.lookup(0x1002).collect();
    assert_eq!(frames.len(), 1);
    assert_eq!((frames[0].function().name(), frames[0].line()), ("f", 7));
    let file = frames[0].file().unwrap();
    assert_eq!(file.name(), "");
    assert_eq!(file.directory(), Some("d"));
    assert_eq!(file.comp_dir(), None);

    let frames: Vec<_> = cache.lookup(0x1006).collect();
    assert_eq!(frames.len(), 1);
    assert_eq!((frames[0].function().name(), frames[0].line()), ("g", 0));
    assert!(frames[0].file().is_none());
    assert_eq!(cache.lookup(1 << 32).count(), 0);
}

#[test]
fn tables() {
    let cache = SymCache::parse(STORED).unwrap();
    let names: Vec<&str> = cache.functions().map(|function| function.name()).collect();
    assert_eq!(names, ["trk"], "pos has no entry");
    assert_eq!(cache.functions().next(), cache.get_function(0));
    assert_eq!(cache.files().nth(1), cache.get_file(1));
    let files: Vec<&str> = cache.files().map(|file| file.name()).collect();
    assert_eq!(files, ["a.rs", "p.rs"]);
    let layout = Layout::parse(STORED).unwrap();
    assert_eq!(layout, cache.layout());
    assert_eq!(
        layout.source_locations,
        Section {
            offset: 160,
            count: 6
        }
    );
    assert_eq!(
        layout.ranges,
        Section {
            offset: 256,
            count: 5
        }
    );
    assert_eq!(
        layout.strings,
        Section {
            offset: 280,
            count: 25
        }
    );
    assert_eq!(cache.find(0xfff), None);
    assert_eq!(cache.find(0x1003), Some(2));
    assert_eq!(
        cache.find(0x1010),
        Some(5),
        "the end, for which there is no frame"
    );
    assert_eq!(cache.get_string(0), Some("trk"));
    assert_eq!(
        cache.get_string(1),
        None,
        "a length that reaches past the texts"
    );
    assert_eq!(cache.get_string(u32::MAX), None);
    assert_eq!(cache.version(), 9);
    let shown = format!("{cache:?} {:?}", cache.lookup(0x1003).next());
    assert!(
        shown.contains("ranges: 5") && shown.contains("pos"),
        "{shown}"
    );
}

#[test]
fn header_values() {
    let id: [u8; 32] = std::array::from_fn(|i| 7 * i as u8);
    let converter = Converter::builder().debug_id(id).arch(0x89abcdef).build();
    let file = converter.serialize().unwrap();
    assert_eq!(file.len(), 80);
    let cache = SymCache::parse(&file).unwrap();
    assert_eq!(cache.debug_id(), id);
    assert_eq!(cache.arch(), 0x89abcdef);
    assert_eq!(cache.lookup(0).count(), 0);
}

#[test]
fn the_six_texts() {
    let mut tree = worked_tree();
    tree.inlinees.clear();
    tree.compilation_dir = b"comp"[..].into();
    tree.lines = vec![LineInfo {
        address: 0x1000,
        size: None,
        line: 3,
        file: line_file(),
    }];
    let mut converter = Converter::builder().build();
    converter.process_symbolic_function(&tree).unwrap();
    let bytes = converter.serialize().unwrap();
    let cache = SymCache::parse(&bytes).unwrap();
    let file = cache.lookup(0x1000).next().unwrap().file().unwrap();
    let texts = (
        file.comp_dir(),
        file.directory(),
        file.name(),
        file.srcsrv_name(),
        file.srcsrv_dir(),
        file.srcsrv_revision(),
    );
    assert_eq!(
        texts,
        (
            Some("comp"),
            Some("dir"),
            "name",
            Some("sname"),
            Some("sdir"),
            Some("rev")
        )
    );
}

#[test]
fn undecorating() {
    for (functions, symbols) in [(false, false), (true, false), (false, true), (true, true)] {
        let mut converter = Converter::builder()
            .undecorate_functions(functions)
            .undecorate_symbols(symbols)
            .build();
        let mut tree = worked_tree();
        tree.name = "_foo@4".into();
        converter.process_symbolic_function(&tree).unwrap();
        let symbol = Symbol {
            name: Some("_bar@4".into()),
            address: 0x2000,
            size: 4,
        };
        converter.process_symbolic_symbol(&symbol).unwrap();
        let bytes = converter.serialize().unwrap();
        let cache = SymCache::parse(&bytes).unwrap();
        let names: Vec<&str> = cache.functions().map(|function| function.name()).collect();
        let wanted = [
            if functions { "foo" } else { "_foo@4" },
            if symbols { "bar" } else { "_bar@4" },
        ];
        assert_eq!(names, wanted);
        let frame = cache.lookup(0x2003).next().unwrap();
        assert_eq!(
            (frame.line(), frame.file(), frame.file_idx()),
            (0, None, u32::MAX)
        );
        assert_eq!(frame.function().language(), u32::MAX);
        assert_eq!(cache.lookup(0x2004).count(), 0);
    }
}

#[test]
fn an_empty_name_is_a_question_mark() {
    let mut converter = Converter::builder().build();
    let symbol = Symbol {
        name: Some("".into()),
        address: 0x10,
        size: 0,
    };
    converter.process_symbolic_symbol(&symbol).unwrap();
    let bytes = converter.serialize().unwrap();
    let function = SymCache::parse(&bytes)
        .unwrap()
        .lookup(u64::from(u32::MAX))
        .next()
        .unwrap()
        .function();
    assert_eq!((function.name(), function.stored_name()), ("?", None));
}

#[test]
fn any_alignment() {
    let mut bytes = vec![0; 8 + STORED.len()];
    for shift in 0..8 {
        bytes[shift..shift + STORED.len()].copy_from_slice(STORED);
        let cache = SymCache::parse(&bytes[shift..]).unwrap();
        assert_eq!(cache.lookup(0x1003).count(), 2);
    }
}

#[test]
fn threads() {
    fn shared<T: Send + Sync + 'static>() {}
    shared::<Converter>();
    shared::<SymCache<'static>>();
    std::thread::scope(|scope| {
        for _ in 0..4 {
            scope.spawn(|| {
                for _ in 0..50 {
                    assert_eq!(worked_file(), STORED);
                }
            });
        }
    });
}
