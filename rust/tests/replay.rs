//! A converter that keeps its calls grows where a table is full, and writes the same file as one
//! with large tables from the start.

mod common;

use common::{line_file, totals, without_room, worked_file, worked_tree, Call, Random};
use symcache::debuginfo::{Function, LineInfo, Symbol};
use symcache::{Capacity, Converter, Error, Rows, SymCache};

fn large() -> Converter {
    Converter::builder()
        .capacity(Capacity::for_input(20_000, 60_000, 2_000, 10_000_000))
        .build()
}

#[test]
fn the_worked_tree_from_no_room_at_all() {
    let mut converter = without_room().keep_calls(true).build();
    converter.process_symbolic_function(&worked_tree()).unwrap();
    assert_eq!(converter.serialize().unwrap(), worked_file());
    assert!(converter.capacity().string_bytes >= 25);
}

#[test]
fn random_lists_from_no_room_at_all() {
    let mut grew = 0;
    for seed in 0..40 {
        let list = Random::new(seed).list(60);
        let mut plain = large();
        let mut growing = without_room().keep_calls(true).build();
        for (i, call) in list.iter().enumerate() {
            let before = growing.capacity();
            call.make(&mut plain).unwrap();
            call.make(&mut growing).unwrap();
            grew += u32::from(growing.capacity() != before);
            if i % 7 == 0 {
                assert_eq!(
                    growing.serialize(),
                    plain.serialize(),
                    "seed {seed}, call {i}"
                );
            }
        }
        assert_eq!(growing.serialize(), plain.serialize(), "seed {seed}");
        assert_eq!(growing.used(), plain.used());
    }
    assert!(grew > 40, "{grew}");
}

/// Refused calls are not kept; kept rows are those of the call, whatever becomes of the memory it
/// lent.
#[test]
fn what_is_kept() {
    let mut growing = without_room().keep_calls(true).build();
    let mut plain = large();
    for seed in 0..30 {
        let mut random = Random::new(seed);
        let mut rows = Rows::new();
        rows.push_tree(&random.tree(3)).unwrap();
        let columns = rows.columns();
        let wrong = symcache::Columns {
            functions64: &columns.functions64[1..],
            ..columns
        };
        assert_eq!(growing.process_rows(&wrong), Err(Error::InvalidRows));
        growing.process_rows(&columns).unwrap();
        plain.process_rows(&columns).unwrap();
        // As a part of a longer text, lent once for all.
        let mut long = columns.text.to_vec();
        long.extend(b"and more");
        let same = symcache::Columns {
            text: &long,
            ..columns
        };
        growing.process_rows(&same).unwrap();
        plain.process_rows(&same).unwrap();
        long.fill(0xff);
        rows.clear();
    }
    assert_eq!(growing.serialize(), plain.serialize());
}

/// With the caller's scratch memory, too.
#[test]
fn scratch_of_the_caller() {
    let mut rows = Rows::new();
    rows.push_tree(&worked_tree()).unwrap();
    let columns = rows.columns();
    let mut converter = without_room().keep_calls(true).build();
    let mut scratch = vec![7; columns.scratch_words()];
    converter.process_rows_with(&columns, &mut scratch).unwrap();
    assert_eq!(scratch, vec![0; scratch.len()]);
    assert_eq!(
        converter.process_rows_with(&columns, &mut scratch[1..]),
        Err(Error::ScratchTooSmall)
    );
    assert_eq!(converter.serialize().unwrap(), worked_file());
}

#[test]
fn a_restart_drops_what_was_kept() {
    let mut converter = without_room().keep_calls(true).build();
    for call in Random::new(9).list(30) {
        call.make(&mut converter).unwrap();
    }
    converter.restart_with(Capacity {
        ranges: 0,
        ..converter.capacity()
    });
    converter.process_symbolic_function(&worked_tree()).unwrap();
    assert_eq!(converter.serialize().unwrap(), worked_file());
}

#[test]
fn a_clone_goes_its_own_way() {
    let mut one = without_room().keep_calls(true).build();
    one.process_symbolic_function(&worked_tree()).unwrap();
    let mut other = one.clone();
    for call in Random::new(3).list(30) {
        call.make(&mut other).unwrap();
    }
    assert_eq!(one.serialize().unwrap(), worked_file());
    assert_ne!(other.serialize().unwrap(), worked_file());
}

/// `Capacity::for_input` is enough, however trees and symbols lie.
#[test]
fn capacities_from_the_input() {
    for seed in 0..300 {
        let list = Random::new(1000 + seed).list(12);
        let (functions, lines, symbols, text_bytes) = totals(&list);
        let capacity = Capacity::for_input(functions, lines, symbols, text_bytes);
        let mut converter = Converter::builder().capacity(capacity).build();
        for call in &list {
            call.make(&mut converter).unwrap();
        }
        let file = converter.serialize().unwrap();
        assert_eq!(file.len(), converter.serialized_len());
        SymCache::parse(&file).unwrap();
    }
}

/// And no row too many: these lists need all of their texts, or all of their ranges.
#[test]
fn capacities_that_are_all_used() {
    let symbol = Symbol {
        name: Some("s".into()),
        address: 1,
        size: 1,
    };
    let tree = Function {
        size: 9,
        name: "f".into(),
        compilation_dir: b"comp"[..].into(),
        lines: vec![LineInfo {
            address: 2,
            size: Some(1),
            line: 1,
            file: line_file(),
        }],
        ..Function::default()
    };
    let uses = |call: Call| {
        let (functions, lines, symbols, text_bytes) = totals(std::slice::from_ref(&call));
        let capacity = Capacity::for_input(functions, lines, symbols, text_bytes);
        let mut converter = Converter::builder().capacity(capacity).build();
        call.make(&mut converter).unwrap();
        (converter.used(), capacity)
    };
    let (used, capacity) = uses(Call::Symbol(symbol));
    assert_eq!((used.ranges, used.functions, used.strings), (2, 1, 1));
    assert_eq!(
        (used.ranges, used.functions, used.strings),
        (capacity.ranges, 1, 1)
    );
    let (used, capacity) = uses(Call::Tree(tree));
    assert_eq!((used.strings, used.files), (7, 1));
    assert_eq!((capacity.strings, capacity.files), (7, 1));
}
