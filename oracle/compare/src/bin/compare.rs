//! Random lists of calls and random files through the original and through the proved library.
//!
//!     compare LISTS SEED
//!
//! Last line: 'LISTS lists, FILES files, N differences'. Exit code 1 if there is one, or if 1,000 lists or more give no
//! frame with an empty file name, no lookup of 42 frames, or no tree that is refused with 25.

use std::time::{Duration, Instant};

use compare::case::{Case, Item, Op, Room, TRAITS};
use compare::generate;
use compare::memory::Memory;
use compare::reader::{Compared, addresses};
use compare::{ClampedLines, EmptyNames, FullWalks, TwoFiles};
use oracle::answers::Columns;
use oracle::claims::take_apart;
use oracle::lists::{chain, small};
use oracle::random::Random;
use oracle::*;

/// Differences that are made small and printed; the others are counted.
const SHOWN: u64 = 3;

/// For so long a difference is made smaller.
const SHRINKING: Duration = Duration::from_secs(10);

/// Of a script, so many bytes are printed at most.
const LONGEST: usize = 20_000;

#[derive(Default)]
struct Run {
    memory: Memory,
    two: TwoFiles,
    lists: u64,
    files: u64,
    differences: u64,
    /// Lists by what they hold.
    traits: [u64; TRAITS.len()],
    /// Answers to calls, by number.
    numbers: [u64; 26],
    /// Files by document 01's number.
    read: [u64; 13],
    lookups: u64,
    frames: u64,
    /// Of files that lists wrote.
    empty_names: EmptyNames,
    full_walks: FullWalks,
    clamped_lines: ClampedLines,
}

impl Run {
    fn list(&mut self, case: &Case) -> Vec<u8> {
        self.lists += 1;
        for (sum, holds) in self.traits.iter_mut().zip(case.traits()) {
            *sum += u64::from(holds);
        }
        match case.run(&mut self.memory) {
            Ok(outcome) => {
                for (sum, n) in self.numbers.iter_mut().zip(outcome.numbers) {
                    *sum += n;
                }
                self.clamped_lines.add(outcome.clamped, outcome.saturated);
                outcome.file
            }
            Err(what) => {
                self.differences += 1;
                if self.differences <= SHOWN {
                    println!("difference in list {}: {what}", self.lists);
                    let memory = &mut self.memory;
                    let until = Instant::now() + SHRINKING;
                    let small = case.shrink(until, &mut |c| (c.numbers_only || c.in_domain()) && c.run(memory).is_err());
                    println!("made small: {}", small.run(memory).err().unwrap_or_default());
                    let script = small.script();
                    match script.get(..LONGEST) {
                        None => print!("{script}"),
                        Some(start) => println!("{start}\n# and {} bytes more", script.len() - LONGEST),
                    }
                }
                Vec::new()
            }
        }
    }

    /// A file that a list wrote.
    fn written(&mut self, file: &[u8]) {
        let compared = self.file(file);
        self.empty_names.add(compared.empty_names);
        self.full_walks.add(compared.full, compared.most);
    }

    fn file(&mut self, file: &[u8]) -> Compared {
        self.files += 1;
        match self.two.compare(file) {
            Ok(compared) => {
                let unordered = take_apart(file).is_some_and(|laid| laid.ranges.windows(2).any(|p| p[0] >= p[1]));
                let number = answers::file_number(file).0;
                self.read[if number == 0 && unordered { 12 } else { number as usize }] += 1;
                self.lookups += compared.lookups;
                self.frames += compared.frames;
                compared
            }
            Err(what) => {
                self.differences += 1;
                if self.differences <= SHOWN {
                    println!("difference in file {}: {what}", self.files);
                    let file = self.two.shrink(file, Instant::now() + SHRINKING);
                    println!("made small: {}", self.two.compare(&file).err().unwrap_or_default());
                    println!("file {}\ntables\nfunctions\nfiles", text_word(&file));
                    if let Some(laid) = take_apart(&file) {
                        let at: Vec<String> = addresses(&laid.ranges).iter().map(u64::to_string).collect();
                        println!("lookup {}", at.join(" "));
                    }
                }
                Compared::default()
            }
        }
    }
}

/// Lists that chance would not find: the worked file; chains down to depth 41 and 42; as many function rows as document 01 allows, and one more.
fn chosen() -> Vec<Case> {
    let (begin, calls) = small();
    let mut out = vec![Case::plain(&begin, &calls)];
    for depth in [MAX_DEPTH, MAX_DEPTH + 1] {
        let (begin, calls) = chain(depth);
        out.push(Case::plain(&begin, &calls));
    }
    for (rows, last) in [(65_536, Room::More(0)), (65_537, Room::More(0)), (65_536, Room::Less(1))] {
        let row = |i: u64| Row {
            depth: u32::from(i > 0),
            address: 2 * i,
            size: 2,
            inline: i > 0,
            language: 1,
            name: b"n".to_vec(),
            comp_dir: b"/".to_vec(),
            lines: vec![Line { address: 2 * i, number: i, name: b"f".to_vec(), dir: b"d".to_vec(), ..Line::default() }],
        };
        let mut case = Case::plain(&begin, &[Call::Write]);
        let tree = Op::Tree(Columns::of(&(0..rows).map(row).collect::<Vec<Row>>()));
        case.items.insert(1, Item::plain(tree));
        case.items[1].lend.room = last;
        out.push(case);
    }
    out
}

fn run(lists: u64, seed: u64) -> bool {
    let begun = Instant::now();
    let mut r = Random::new(seed);
    let mut run = Run::default();
    for case in chosen() {
        let written = run.list(&case);
        // The largest files have too many starts to be looked up at each.
        if !written.is_empty() && written.len() < 100_000 {
            run.written(&written);
        }
    }
    while run.lists < lists {
        let case = generate::case(&mut r);
        let written = run.list(&case);
        if !written.is_empty() {
            run.written(&written);
        }
        let other = generate::file(&mut r, &written);
        run.file(&other);
    }
    let shown = |counts: &[u64]| {
        let shown = counts.iter().enumerate().filter(|(_, n)| **n > 0).map(|(i, n)| format!("{i}: {n}"));
        shown.collect::<Vec<_>>().join(", ")
    };
    for (what, n) in TRAITS.iter().zip(run.traits) {
        println!("lists with {what}: {n}");
    }
    println!("calls by number: {}", shown(&run.numbers));
    println!("files by number: {}", shown(&run.read));
    println!("{} lookups, {} frames, {:.0} s", run.lookups, run.frames, begun.elapsed().as_secs_f64());
    let enough = run.empty_names.shown(run.lists)
        & run.full_walks.shown(run.lists, run.numbers[25])
        & run.clamped_lines.shown(run.lists);
    println!("{} lists, {} files, {} differences", run.lists, run.files, run.differences);
    run.differences == 0 && enough
}

fn main() {
    let args: Vec<u64> = std::env::args().skip(1).map(|a| a.parse().expect("a number")).collect();
    let [lists, seed] = args[..] else {
        eprintln!("compare LISTS SEED");
        std::process::exit(2);
    };
    // Nested functions are dropped by recursion in the original's types: deep trees want stack.
    let same = std::thread::Builder::new().stack_size(1 << 28).spawn(move || run(lists, seed)).unwrap().join().unwrap();
    if !same {
        std::process::exit(1);
    }
}
