//! The proved library beside the original, in one process.

pub mod case;
pub mod generate;
pub mod memory;
pub mod ours;
pub mod reader;

use std::time::Instant;

use oracle::claims::{Place, take_apart};
use reader::{Compared, Difference};

/// Frames found equal whose file has an empty name, and the lists that have one.
#[derive(Clone, Copy, Default)]
pub struct EmptyNames {
    frames: u64,
    lists: u64,
}

impl EmptyNames {
    /// So many frames of a list.
    pub fn add(&mut self, frames: u64) {
        self.frames += frames;
        self.lists += u64::from(frames > 0);
    }

    /// Prints them; whether a run of so many random lists has one, as it must from 1,000 lists on.
    pub fn shown(&self, lists: u64) -> bool {
        println!("frames with an empty file name, found equal: {}, in {} lists", self.frames, self.lists);
        let enough = self.frames > 0 || lists < 1000;
        if !enough {
            println!("no frame with an empty file name was found equal: a run of 1,000 lists or more must have some");
        }
        enough
    }
}

/// Lookups in written files that give as many frames as there may be, 42, and the most frames of any.
#[derive(Clone, Copy, Default)]
pub struct FullWalks {
    lookups: u64,
    most: usize,
}

impl FullWalks {
    /// So many lookups of a file with 42 frames; the most frames of one.
    pub fn add(&mut self, lookups: u64, most: usize) {
        self.lookups += lookups;
        self.most = self.most.max(most);
    }

    /// Prints them; whether none has more, and a run of so many random lists has some, and refused some tree with 25, as it must from 1,000 lists on.
    pub fn shown(&self, lists: u64, refused: u64) -> bool {
        println!("lookups with 42 frames: {}; most frames of any: {}; trees refused with 25: {refused}", self.lookups, self.most);
        let enough = self.lookups > 0 && refused > 0 || lists < 1000;
        if !enough {
            println!("no lookup has 42 frames, or no tree was refused with 25: a run of 1,000 lists or more must have both");
        }
        enough && self.most <= oracle::MAX_FRAMES
    }
}

/// Clamped lines of accepted trees, counted alike, and the lists whose count stayed at 2^64 - 1.
#[derive(Clone, Copy, Default)]
pub struct ClampedLines {
    lines: u64,
    saturated: u64,
}

impl ClampedLines {
    /// So many lines of a list; whether its count stayed there.
    pub fn add(&mut self, lines: u64, saturated: bool) {
        self.lines += lines;
        self.saturated += u64::from(saturated);
    }

    /// Prints them; whether a run of so many random lists has both, as it must from 1,000 lists on.
    pub fn shown(&self, lists: u64) -> bool {
        println!("clamped lines, counted alike: {}; lists whose count stayed at 2^64 - 1: {}", self.lines, self.saturated);
        let enough = self.lines > 0 && self.saturated > 0 || lists < 1000;
        if !enough {
            println!("no clamped line, or no count at 2^64 - 1: a run of 1,000 lists or more must have both");
        }
        enough
    }
}

/// Lookups at which K13 says what is found: in the extents of symbols, and in none.
#[derive(Clone, Copy, Default)]
pub struct SymbolsAndGaps {
    files: u64,
    symbols: u64,
    gaps: u64,
}

impl SymbolsAndGaps {
    /// A file whose calls meet K13's premises.
    pub fn file(&mut self) {
        self.files += 1;
    }

    /// A lookup in such a file.
    pub fn add(&mut self, place: Place) {
        match place {
            Place::Symbol => self.symbols += 1,
            Place::Gap => self.gaps += 1,
        }
    }

    /// Prints them; whether a run of so many random lists has both, as it must from 1,000 lists on.
    pub fn shown(&self, lists: u64) -> bool {
        println!("K13: {} files; {} lookups in symbols, {} in gaps", self.files, self.symbols, self.gaps);
        let enough = self.symbols > 0 && self.gaps > 0 || lists < 1000;
        if !enough {
            println!("no lookup in a symbol, or none in a gap: a run of 1,000 lists or more must have both");
        }
        enough
    }
}

/// The bytes of a file twice: on a multiple of 8 for the original, and anywhere for the library.
#[derive(Default)]
pub struct TwoFiles {
    words: Vec<u64>,
    bytes: Vec<u8>,
}

impl TwoFiles {
    /// Compares everything that is read from a file.
    pub fn compare(&mut self, file: &[u8]) -> Result<Compared, Difference> {
        assert!(cfg!(target_endian = "little"));
        self.words.clear();
        self.words.resize(file.len().div_ceil(8), 0);
        let aligned: &mut [u8] =
            unsafe { std::slice::from_raw_parts_mut(self.words.as_mut_ptr().cast(), file.len()) };
        aligned.copy_from_slice(file);
        let at = file.len() % 5;
        self.bytes.clear();
        self.bytes.resize(at, 0);
        self.bytes.extend_from_slice(file);
        let compared = reader::compare(aligned, &self.bytes[at..])?;
        if self.bytes[at..] != *file {
            return Err("the file changed while it was read".into());
        }
        Ok(compared)
    }

    /// Smaller files that still differ, as long as there are any and `until` has not come.
    pub fn shrink(&mut self, file: &[u8], until: Instant) -> Vec<u8> {
        let mut file = file.to_vec();
        loop {
            let found = smaller_files(&file).into_iter().find(|f| Instant::now() < until && self.compare(f).is_err());
            match found {
                Some(f) => file = f,
                None => return file,
            }
        }
    }
}

/// Files with a row, a run of bytes, or a byte's value taken away.
fn smaller_files(file: &[u8]) -> Vec<Vec<u8>> {
    let mut out = Vec::new();
    if let Some(laid) = take_apart(file) {
        let (nf, nfun, nloc) = (laid.files.len(), laid.functions.len(), laid.locations.len());
        let functions = 80 + 24 * nf;
        let locations = functions + 16 * nfun;
        let ranges = locations + 16 * nloc;
        let tables = [(80, 24, nf), (functions, 16, nfun), (locations, 16, nloc), (ranges, 4, laid.ranges.len())];
        for (table, (start, row, count)) in tables.into_iter().enumerate() {
            for i in 0..count {
                let mut f = file.to_vec();
                f.drain(start + row * i..start + row * (i + 1));
                f[44 + 4 * table..48 + 4 * table].copy_from_slice(&(count as u32 - 1).to_le_bytes());
                out.push(f);
            }
        }
    }
    let mut run = file.len().next_power_of_two();
    while run > 0 {
        let mut end = file.len();
        while end >= run {
            let mut f = file.to_vec();
            f.drain(end - run..end);
            out.push(f);
            end -= run;
        }
        run /= 2;
    }
    for at in 0..file.len() {
        if file[at] != 0 {
            let mut f = file.to_vec();
            f[at] = 0;
            out.push(f);
        }
    }
    out
}
