//! Depth 41 and its 42 frames, in room that was laid out in advance.

mod common;

use std::alloc::{GlobalAlloc, Layout, System};
use std::cell::Cell;

use common::line;
use symcache::debuginfo::Function;
use symcache::{Converter, Error, Frames, SymCache, MAX_DEPTH, MAX_FRAMES};

/// Counts what a thread allocates.
struct Counting;

thread_local! {
    static ALLOCATIONS: Cell<u64> = const { Cell::new(0) };
}

unsafe impl GlobalAlloc for Counting {
    unsafe fn alloc(&self, layout: Layout) -> *mut u8 {
        ALLOCATIONS.with(|n| n.set(n.get() + 1));
        System.alloc(layout)
    }

    unsafe fn dealloc(&self, at: *mut u8, layout: Layout) {
        System.dealloc(at, layout)
    }
}

#[global_allocator]
static COUNTING: Counting = Counting;

/// Rows inside each other down to a depth; each has a line that covers all addresses.
fn chain(deepest: u32) -> Function<'static> {
    let mut tree = None;
    for depth in (0..=deepest).rev() {
        tree = Some(Function {
            address: 0x100,
            size: 16,
            name: format!("f{depth}").into(),
            lines: vec![line(0x100, 16, depth.into(), "a")],
            inlinees: tree.into_iter().collect(),
            inline: depth != 0,
            ..Function::default()
        });
    }
    tree.unwrap()
}

#[test]
fn depth_41_gives_42_frames() {
    assert_eq!((MAX_DEPTH, MAX_FRAMES), (41, 42));
    let mut converter = Converter::builder().build();
    // A tree without lines beside it.
    converter
        .process_symbolic_function(&Function {
            size: 4,
            ..Function::default()
        })
        .unwrap();
    converter.process_symbolic_function(&chain(41)).unwrap();
    let bytes = converter.serialize().unwrap();
    let cache = SymCache::parse(&bytes).unwrap();
    let lines: Vec<u32> = cache.lookup(0x108).map(|frame| frame.line()).collect();
    assert_eq!(lines, (0..42).rev().collect::<Vec<u32>>());

    let mut frames = Frames::new();
    assert!(frames.is_empty());
    assert_eq!(frames.rest().count(), 0);
    let before = ALLOCATIONS.with(Cell::get);
    cache.lookup_into(0x108, &mut frames);
    let (len, name) = (frames.len(), frames[41].function().name());
    assert_eq!(ALLOCATIONS.with(Cell::get), before);
    assert_eq!((len, name), (42, "f0"));
    assert!(frames.iter().map(|frame| frame.line()).eq((0..42).rev()));
    assert_eq!(frames.rest().count(), 0);
    cache.lookup_into(0x110, &mut frames);
    assert!(frames.is_empty());
}

#[test]
fn depth_42_is_refused() {
    let mut converter = Converter::builder().build();
    converter.process_symbolic_function(&chain(41)).unwrap();
    let before = (converter.used(), converter.serialize());
    let deeper = chain(42);
    let refused = converter.process_symbolic_function(&deeper);
    assert_eq!(refused, Err(Error::TooDeep));
    assert_eq!(refused.unwrap_err().number(), 25);
    assert_eq!((converter.used(), converter.serialize()), before);
}

/// A file of another maker: a range, and so many locations, each inlined into the one before it.
fn made(locations: u32) -> Vec<u8> {
    let mut file = b"SYMC".to_vec();
    file.extend(9u32.to_le_bytes());
    file.extend([0; 36]);
    for count in [0, 0, locations, 1, 0] {
        file.extend(count.to_le_bytes());
    }
    file.extend([0; 16]);
    for i in 0..locations {
        let row = [u32::MAX, i, u32::MAX, i.wrapping_sub(1)];
        file.extend(row.iter().flat_map(|word| word.to_le_bytes()));
    }
    file.extend([0; 8]);
    file
}

#[test]
fn chains_of_any_length_are_read() {
    for locations in [1, 41, 42, 43, 2000] {
        let file = made(locations);
        let cache = SymCache::parse(&file).unwrap();
        let lines = || (0..locations).rev();
        assert!(cache.lookup(5).map(|frame| frame.line()).eq(lines()));
        let mut frames = Frames::new();
        cache.lookup_into(5, &mut frames);
        assert_eq!(frames.len(), (locations as usize).min(MAX_FRAMES));
        let all = frames.iter().copied().chain(frames.rest());
        assert!(all.map(|frame| frame.line()).eq(lines()));
    }
}
