//! Every number that the crate can reach, and what a refusal leaves.

mod common;

use common::{without_room, worked_file, worked_tree, Random};
use symcache::debuginfo::{Function, Symbol};
use symcache::{Capacity, Columns, Converter, Error, Layout, Rows, SymCache};

/// The number that reading gives.
fn number(bytes: &[u8]) -> u32 {
    SymCache::parse(bytes)
        .err()
        .map_or(0, |error| error.number())
}

fn changed(at: usize, byte: u8) -> Vec<u8> {
    let mut file = worked_file();
    file[at] = byte;
    file
}

#[test]
fn numbers_1_to_12_of_files() {
    let file = worked_file();
    assert_eq!(number(&file), 0);
    assert_eq!(number(&file[..7]), 1);
    assert_eq!(number(b"CMYS\0\0\0\x09"), 2);
    assert_eq!(number(&changed(0, b'T')), 3);
    assert_eq!(number(&changed(4, 8)), 4);
    assert_eq!(number(&file[..79]), 5);
    assert_eq!(number(&file[..127]), 6);
    assert_eq!(number(&file[..159]), 7);
    assert_eq!(number(&file[..255]), 8);
    assert_eq!(number(&file[..275]), 9);
    let error = SymCache::parse(&file[..304]).unwrap_err();
    assert_eq!(
        error,
        Error::UnexpectedStringBytes {
            expected: 25,
            found: 24
        }
    );
    assert_eq!(error.number(), 10);
    assert_eq!(number(&changed(64, 1)), 11, "the variable header");
    assert_eq!(number(&changed(64, 2)), 0, "any other is passed over");
    assert_eq!(
        number(&changed(256, 0xff)),
        12,
        "the first start is above the second"
    );
}

#[test]
fn every_cut_of_the_worked_file() {
    let file = worked_file();
    for cut in 0..file.len() {
        let wanted = match cut {
            0..=7 => 1,
            8..=79 => 5,
            80..=127 => 6,
            128..=159 => 7,
            160..=255 => 8,
            256..=275 => 9,
            _ => 10,
        };
        let error = SymCache::parse(&file[..cut]).unwrap_err();
        assert_eq!(error.number(), wanted, "{cut}");
        assert_eq!(Layout::parse(&file[..cut]), Err(error));
        if wanted == 10 {
            let found = cut.saturating_sub(280) as u64;
            assert_eq!(
                error,
                Error::UnexpectedStringBytes {
                    expected: 25,
                    found
                }
            );
        }
    }
}

#[test]
fn nine_where_ranges_are_more_than_locations() {
    let mut file = Converter::builder().build().serialize().unwrap();
    file.extend([0; 8]);
    assert_eq!(number(&file), 0);
    file[56] = 1;
    assert_eq!(number(&file), 9);
}

#[test]
fn unordered_files_have_a_layout() {
    let file = changed(256, 0xff);
    assert_eq!(SymCache::parse(&file).unwrap_err(), Error::UnorderedRanges);
    assert_eq!(Layout::parse(&file).unwrap().ranges.count, 5);
}

/// The worked tree in columns, for changes.
#[derive(Clone)]
struct Given {
    functions64: Vec<u64>,
    functions32: Vec<u32>,
    lines64: Vec<u64>,
    lines32: Vec<u32>,
    text: Vec<u8>,
}

impl Given {
    fn worked() -> Self {
        let mut rows = Rows::new();
        rows.push_tree(&worked_tree()).unwrap();
        let columns = rows.columns();
        Given {
            functions64: columns.functions64.to_vec(),
            functions32: columns.functions32.to_vec(),
            lines64: columns.lines64.to_vec(),
            lines32: columns.lines32.to_vec(),
            text: columns.text.to_vec(),
        }
    }

    fn with(change: impl FnOnce(&mut Given)) -> Self {
        let mut given = Given::worked();
        change(&mut given);
        given
    }

    fn columns(&self) -> Columns<'_> {
        Columns {
            functions64: &self.functions64,
            functions32: &self.functions32,
            lines64: &self.lines64,
            lines32: &self.lines32,
            text: &self.text,
        }
    }
}

/// A refused call leaves the converter as it was: the counts, and the file that it writes.
fn refused(converter: &mut Converter, given: &Given, error: Error) {
    let before = (converter.used(), converter.serialize());
    assert_eq!(converter.process_rows(&given.columns()), Err(error));
    assert_eq!((converter.used(), converter.serialize()), before);
}

#[test]
fn numbers_13_to_15_and_25_of_rows() {
    let mut converter = Converter::builder().build();
    converter.process_symbolic_function(&worked_tree()).unwrap();
    let cases = [
        (
            Error::InvalidRows,
            Given::with(|g| {
                *g = Given {
                    functions64: vec![],
                    functions32: vec![],
                    lines64: vec![],
                    lines32: vec![],
                    text: vec![],
                }
            }),
        ),
        (Error::InvalidRows, Given::with(|g| g.functions32[0] = 1)),
        (Error::InvalidRows, Given::with(|g| g.functions32[8] = 0)),
        (Error::InvalidRows, Given::with(|g| g.functions32[8] = 2)),
        (Error::InvalidRows, Given::with(|g| g.functions32[7] = 1)),
        (Error::InvalidRows, Given::with(|g| g.functions32[7] = 3)),
        (
            Error::InvalidRows,
            Given::with(|g| g.functions64.truncate(3)),
        ),
        (
            Error::InvalidRows,
            Given::with(|g| g.functions32.truncate(15)),
        ),
        (Error::InvalidRows, Given::with(|g| g.lines64.truncate(8))),
        (Error::InvalidRows, Given::with(|g| g.lines32.truncate(41))),
        (
            Error::InvalidRows,
            Given::with(|g| g.functions64.truncate(2)),
        ),
        (Error::InvalidText, Given::with(|g| g.text.truncate(5))),
        (Error::InvalidText, Given::with(|g| g.functions32[4] = 100)),
        (Error::InvalidText, Given::with(|g| g.text[0] = 0xff)),
        (
            Error::InvalidText,
            Given::with(|g| g.lines32[5] = 1).then(|g| g.lines32[6] = 1000),
        ),
        (
            Error::AddressOverflow,
            Given::with(|g| g.functions64[3] = u64::MAX),
        ),
        (Error::TooDeep, Given::with(|g| g.deepen(42))),
    ];
    for (error, given) in &cases {
        refused(&mut converter, given, *error);
    }
    // Not refused: a compilation directory that isn't UTF-8, an absent text that lies anywhere, and depth 41.
    for given in [
        Given::with(|g| {
            let at = g.functions32[5] as usize;
            g.text[at] = 0xff;
        }),
        Given::with(|g| g.lines32[6] = 1000),
        Given::with(|g| g.deepen(41)),
        Given::worked(),
    ] {
        converter.process_rows(&given.columns()).unwrap();
    }
}

impl Given {
    /// Rows without lines below the last one, down to this depth. They have no size, so they are
    /// skipped.
    fn deepen(&mut self, bottom: u32) {
        for depth in 2..=bottom {
            self.functions64.extend([0, 0]);
            self.functions32.extend([depth, 1, 0, 0, 0, 0, 0, 0]);
        }
    }

    fn then(mut self, change: impl FnOnce(&mut Given)) -> Self {
        change(&mut self);
        self
    }
}

#[test]
fn earlier_numbers_come_first() {
    let all = Given::with(|g| {
        g.functions32[0] = 1;
        g.deepen(42);
        g.text[0] = 0xff;
        g.functions64[3] = u64::MAX;
    });
    let mut converter = Converter::builder().build();
    assert_eq!(
        converter.process_rows_with(&all.columns(), &mut []),
        Err(Error::InvalidRows)
    );
    let all = all.then(|g| g.functions32[0] = 0);
    assert_eq!(
        converter.process_rows_with(&all.columns(), &mut []),
        Err(Error::TooDeep)
    );
    let all = all.then(|g| {
        g.functions64.truncate(4);
        g.functions32.truncate(16);
    });
    assert_eq!(
        converter.process_rows_with(&all.columns(), &mut []),
        Err(Error::InvalidText)
    );
    let all = all.then(|g| g.text[0] = b't');
    assert_eq!(
        converter.process_rows_with(&all.columns(), &mut []),
        Err(Error::AddressOverflow)
    );
    let all = all.then(|g| g.functions64[3] = 4);
    assert_eq!(
        converter.process_rows_with(&all.columns(), &mut []),
        Err(Error::ScratchTooSmall)
    );
    assert_eq!(
        converter.process_rows_with(&all.columns(), &mut [0; 20]),
        Ok(())
    );
}

#[test]
fn sixty_five_thousand_function_rows() {
    let leaf = |i: u64| Function {
        address: i,
        size: 1,
        inline: true,
        ..Function::default()
    };
    let mut tree = Function {
        size: 1 << 17,
        inlinees: (0..65_535).map(leaf).collect(),
        ..Function::default()
    };
    let mut converter = Converter::builder().build();
    converter.process_symbolic_function(&tree).unwrap();
    tree.inlinees.push(leaf(65_535));
    assert_eq!(
        converter.process_symbolic_function(&tree),
        Err(Error::InvalidRows)
    );
}

#[test]
fn number_14_of_symbols() {
    let mut converter = Converter::builder().build();
    converter
        .process_symbol_bytes(Some("é".as_bytes()), 5, 1)
        .unwrap();
    let before = (converter.used(), converter.serialize());
    // M12: a surrogate is refused, the last scalar value isn't. At an address above MAX, too.
    for address in [5, 1 << 40] {
        assert_eq!(
            converter.process_symbol_bytes(Some(b"\xed\xa0\x80"), address, 1),
            Err(Error::InvalidText)
        );
    }
    assert_eq!((converter.used(), converter.serialize()), before);
    converter
        .process_symbol_bytes(Some(b"\xf4\x8f\xbf\xbf"), 6, 1)
        .unwrap();
    converter.process_symbol_bytes(None, 7, 1).unwrap();
}

#[test]
fn number_16_leaves_scratch() {
    let given = Given::worked();
    assert_eq!(given.columns().scratch_words(), 20);
    let mut converter = Converter::builder().build();
    let before = converter.serialize();
    let mut scratch = [7; 19];
    assert_eq!(
        converter.process_rows_with(&given.columns(), &mut scratch),
        Err(Error::ScratchTooSmall)
    );
    assert_eq!(scratch, [7; 19]);
    assert_eq!(converter.serialize(), before);
    let mut scratch = [7; 25];
    assert_eq!(
        converter.process_rows_with(&given.columns(), &mut scratch),
        Ok(())
    );
    assert_eq!(scratch, [0; 25]);
}

/// One table at a time lacks one row of what the worked tree needs: 17, and 19 until a restart.
#[test]
fn numbers_17_and_19() {
    let mut converter = Converter::builder().build();
    converter.process_symbolic_function(&worked_tree()).unwrap();
    let needed = converter.used();
    assert_eq!(
        needed,
        Capacity {
            string_bytes: 25,
            strings: 6,
            files: 2,
            functions: 2,
            call_locations: 1,
            ranges: 5
        }
    );
    let mut exact = Converter::builder().capacity(needed).build();
    exact.process_symbolic_function(&worked_tree()).unwrap();
    assert_eq!(exact.serialize().unwrap(), worked_file());

    let lacks: [fn(&mut Capacity); 6] = [
        |c| c.string_bytes -= 1,
        |c| c.strings -= 1,
        |c| c.files -= 1,
        |c| c.functions -= 1,
        |c| c.call_locations -= 1,
        |c| c.ranges -= 1,
    ];
    for lack in lacks {
        let mut capacity = needed;
        lack(&mut capacity);
        let mut converter = Converter::builder().capacity(capacity).build();
        let mut scratch = [7; 21];
        let given = Given::worked();
        assert_eq!(
            converter.process_rows_with(&given.columns(), &mut scratch),
            Err(Error::TableFull)
        );
        assert_eq!(scratch, [0; 21]);
        assert!(!converter.is_open());
        assert_eq!(converter.used(), without_room().build().used());
        assert_eq!(
            converter.process_symbolic_function(&worked_tree()),
            Err(Error::Closed)
        );
        assert_eq!(
            converter.process_symbolic_symbol(&Symbol::default()),
            Err(Error::Closed)
        );
        assert_eq!(converter.serialize(), Err(Error::Closed));
        converter.restart_with(needed);
        converter.process_symbolic_function(&worked_tree()).unwrap();
        assert_eq!(converter.serialize().unwrap(), worked_file());
    }
}

#[test]
fn number_17_of_a_symbol() {
    let symbol = Symbol {
        name: Some("s".into()),
        address: 1,
        size: 1,
    };
    let mut converter = without_room().build();
    assert_eq!(
        converter.process_symbolic_symbol(&Symbol::default()),
        Ok(())
    );
    assert_eq!(
        converter.process_symbolic_symbol(&symbol),
        Err(Error::TableFull)
    );
    assert_eq!(
        converter.process_symbolic_symbol(&symbol),
        Err(Error::Closed)
    );
    converter.restart();
    assert_eq!(converter.serialize().unwrap().len(), 80);
}

#[test]
fn number_18_leaves_the_output() {
    let mut converter = Converter::builder().build();
    converter.process_symbolic_function(&worked_tree()).unwrap();
    assert_eq!(converter.serialized_len(), 305);
    let mut out = [7; 400];
    assert_eq!(
        converter.serialize_into(&mut out[..304]),
        Err(Error::OutputTooShort)
    );
    assert_eq!(out, [7; 400]);
    assert_eq!(converter.serialize_into(&mut out), Ok(305));
    assert_eq!(out[..305], worked_file()[..]);
    assert_eq!(out[305..], [7; 95]);
}

#[test]
fn a_list_goes_on_after_refusals_and_writes() {
    let mut plain = Converter::builder().build();
    let mut disturbed = Converter::builder().build();
    let mut random = Random::new(4);
    let refusals = [
        Given::with(|g| g.functions32[0] = 1),
        Given::with(|g| g.text[0] = 0xff),
        Given::with(|g| g.functions64[3] = u64::MAX),
    ];
    for call in random.list(60) {
        call.make(&mut plain).unwrap();
        call.make(&mut disturbed).unwrap();
        let i = random.below(3) as usize;
        disturbed.process_rows(&refusals[i].columns()).unwrap_err();
        disturbed
            .process_rows_with(&Given::worked().columns(), &mut [0; 3])
            .unwrap_err();
        disturbed.serialize_into(&mut []).unwrap_err();
        disturbed.serialize().unwrap();
    }
    assert_eq!(disturbed.serialize(), plain.serialize());
    assert!(plain.used().ranges > 50);
}
