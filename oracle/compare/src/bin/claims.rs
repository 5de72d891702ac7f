//! Demand 3, and K13 where its premises hold, on files that the proved library wrote and looked up: frames against the
//! rows of the list, not against the original.
//!
//!     claims LISTS SEED
//!     claims exhaustive     # every small tree in five addresses, with every symbol, and pairs of trees
//!
//! Every list meets demand 3's premises. Refused calls stand in between, and files are written in between. Last line:
//! 'LISTS lists, WRITES files, LOOKUPS lookups, N differences'. Exit code 1 if there is one, or if 1,000 random lists
//! or more give no frame with an empty file name, no lookup of 42 frames, no tree that is refused with 25, or no lookup
//! in a symbol or in a gap under K13's premises.

use std::time::{Duration, Instant};

use compare::{EmptyNames, FullWalks, SymbolsAndGaps};
use compare::ours::{Ours, bounds};
use compare::reader::{Reader, empty_names};
use oracle::answers::Columns;
use oracle::claims::{breakpoints, demand3_at, is_covered, k13_at, take_apart, violations, violations13};
use oracle::lists::{refused, vary};
use oracle::random::{Random, Symbols, good_list, good_list_of, mutate};
use oracle::shrink::{shrink, weight};
use oracle::*;

/// For so long a difference is made smaller.
const SHRINKING: Duration = Duration::from_secs(10);

#[derive(Default)]
struct Tally {
    files: u64,
    lookups: u64,
    /// Lookups at addresses that a root's line covers, and the frames found there.
    covered: u64,
    frames: u64,
    /// Of these frames, those that fit and whose file has an empty name.
    empty_names: u64,
    /// Refused calls by number.
    refused: [u64; 26],
    full_walks: FullWalks,
    symbols_and_gaps: SymbolsAndGaps,
}

/// A file that was written after these calls.
fn check_file(begin: &Begin, calls: &[Call], file: &[u8], tally: &mut Tally) -> Result<(), String> {
    tally.files += 1;
    let laid = take_apart(file).ok_or("not laid out as document 01 says")?;
    // Only the texts can need padding before them.
    let rows = 80 + 24 * laid.files.len() + 16 * (laid.functions.len() + laid.locations.len()) + 4 * laid.ranges.len();
    let padding = &file[rows..laid.end - laid.texts.len()];
    if laid.end != file.len()
        || laid.debug_id != begin.debug_id
        || laid.arch != begin.arch
        || laid.variable_header != 0
        || laid.reserved.iter().any(|b| *b != 0)
        || padding.iter().any(|b| *b != 0)
    {
        return Err("the file's header, padding or length".into());
    }
    let mut reader = Reader::open(file).map_err(|number| format!("the file is refused with {number}"))?;
    if reader.starts() != laid.ranges {
        return Err("the starts read are not those laid out".into());
    }
    let gaps = violations13(calls) == 0;
    if gaps {
        tally.symbols_and_gaps.file();
    }
    for address in breakpoints(calls, &laid.ranges) {
        tally.lookups += 1;
        let frames = reader.frames(address)?;
        tally.full_walks.add(u64::from(frames.len() == MAX_FRAMES), frames.len());
        if is_covered(calls, address) {
            tally.covered += 1;
            tally.frames += frames.len() as u64;
            demand3_at(begin, calls, address, &frames)
                .map_err(|f| format!("{} at {address}: {}", f.claim, f.what))?;
            tally.empty_names += empty_names(&frames);
        }
        if gaps {
            let place = k13_at(begin, calls, address, &frames).map_err(|f| format!("{} at {address}: {}", f.claim, f.what))?;
            place.into_iter().for_each(|p| tally.symbols_and_gaps.add(p));
        }
    }
    Ok(())
}

/// A call that is refused, made out of the next one; its number must be `number`.
struct Refused {
    number: u32,
    op: Spoiled,
}

enum Spoiled {
    Columns(Columns, isize),
    Symbol(Sym),
    Write,
}

/// Refused calls, each before the call with its index.
fn spoil(r: &mut Random, calls: &[Call]) -> Vec<(usize, Refused)> {
    let mut out = Vec::new();
    if !r.one_in(2) {
        return out;
    }
    for (i, call) in calls.iter().enumerate() {
        if !r.one_in(3) {
            continue;
        }
        let spoiled = match call {
            Call::Tree(rows) => {
                let c = Columns::of(rows);
                if r.one_in(4) {
                    Refused { number: 16, op: Spoiled::Columns(c, -1 - r.below(8) as isize) }
                } else {
                    let c = refused(r, c);
                    match c.refusal() {
                        Some(number) => Refused { number, op: Spoiled::Columns(c, 0) },
                        None => continue,
                    }
                }
            }
            Call::Symbol(s) => {
                Refused { number: 14, op: Spoiled::Symbol(Sym { name: Some(b"a\x80".to_vec()), ..s.clone() }) }
            }
            Call::Write => Refused { number: 18, op: Spoiled::Write },
        };
        out.push((i, spoiled));
    }
    out
}

/// Runs a list through the library, with the refused calls in between.
fn run(
    ours: &mut Ours,
    begin: &Begin,
    calls: &[Call],
    spoiled: &[(usize, Refused)],
    full_first: bool,
    tally: &mut Tally,
) -> Result<(), String> {
    ours.lend(bounds(calls));
    let number = |what: &str, wanted: u32, found: u32| {
        if wanted == found { Ok(()) } else { Err(format!("{what}: number {wanted} expected, ours {found}")) }
    };
    if full_first {
        // A list before this one, which ends when a table is full. A beginning starts a new list.
        let room = bounds(calls);
        ours.lend([room[0], room[1], room[2], 0, room[4], room[5]]);
        number("begin", 0, ours.begin(begin))?;
        let named = Sym { address: 3, size: 2, name: Some(b"s".to_vec()) };
        number("a symbol without room", 17, ours.symbol(&named))?;
        tally.refused[17] += 1;
        number("a symbol after 17", 19, ours.symbol(&named))?;
        tally.refused[19] += 1;
        ours.lend(room);
    }
    number("begin", 0, ours.begin(begin))?;
    let mut length = 0;
    for (i, call) in calls.iter().enumerate() {
        for (_, bad) in spoiled.iter().filter(|(at, _)| *at == i) {
            let answer = match &bad.op {
                Spoiled::Columns(c, more) => ours.columns(c, *more),
                Spoiled::Symbol(s) => ours.symbol(s),
                Spoiled::Write => {
                    length = ours.write().map_err(|n| format!("a write answers {n}"))?.len();
                    ours.write_into(length - 1).err().unwrap_or(0)
                }
            };
            number("a refused call", bad.number, answer)?;
            tally.refused[bad.number as usize] += 1;
        }
        match call {
            Call::Write => {
                let file = ours.write().map_err(|n| format!("a write answers {n}"))?;
                if length != 0 && matches!(spoiled.iter().find(|(at, _)| *at == i), Some((_, b)) if b.number == 18) {
                    number("the length of a file written twice", length as u32, file.len() as u32)?;
                }
                check_file(begin, &calls[..i], &file, tally)?;
            }
            _ => number("a call", 0, ours.call(call))?,
        }
    }
    Ok(())
}

/// A list that meets the premises.
fn list(r: &mut Random) -> (Begin, Vec<Call>) {
    let kind = if r.one_in(2) { Symbols::Any } else { Symbols::Gaps };
    let (begin, mut calls) = if r.one_in(300) {
        let span = r.within(100, 600);
        good_list_of(r, kind, span)
    } else {
        good_list(r, kind)
    };
    if r.one_in(3) {
        // Changed, as far as the premises hold.
        for _ in 0..r.within(1, 8) {
            let before = calls.clone();
            mutate(r, &mut calls);
            if violations(&calls) != 0 || calls.iter().any(|c| matches!(c, Call::Tree(t) if tree_refusal(t).is_some())) {
                calls = before;
            }
        }
    }
    if r.one_in(6) {
        vary(r, &mut calls);
    }
    while r.one_in(2) {
        let at = r.below(calls.len() as u64 + 1) as usize;
        calls.insert(at, Call::Write);
    }
    if calls.last() != Some(&Call::Write) {
        calls.push(Call::Write);
    }
    (begin, calls)
}

/// A run: its lists and what was found.
struct Run {
    ours: Ours,
    tally: Tally,
    empty_names: EmptyNames,
    lists: u64,
    differences: u64,
    begun: Instant,
}

impl Run {
    fn new() -> Run {
        Run {
            ours: Ours::default(),
            tally: Tally::default(),
            empty_names: EmptyNames::default(),
            lists: 0,
            differences: 0,
            begun: Instant::now(),
        }
    }

    fn list(&mut self, begin: &Begin, calls: &[Call], spoiled: &[(usize, Refused)], full_first: bool) {
        self.lists += 1;
        let before = self.tally.empty_names;
        let result = run(&mut self.ours, begin, calls, spoiled, full_first, &mut self.tally);
        self.empty_names.add(self.tally.empty_names - before);
        let Err(what) = result else { return };
        self.differences += 1;
        if self.differences > 3 {
            return;
        }
        println!("difference: {what}");
        let ours = std::cell::RefCell::new(&mut self.ours);
        let again = |b: &Begin, c: &[Call]| run(&mut ours.borrow_mut(), b, c, &[], false, &mut Tally::default());
        let until = Instant::now() + SHRINKING;
        let keep = |b: &Begin, c: &[Call]| Instant::now() < until && violations(c) == 0 && again(b, c).is_err();
        if weight(calls) < 2000 && keep(begin, calls) {
            let (begin, calls) = shrink(begin, calls, &keep);
            println!("made small: {}", again(&begin, &calls).err().unwrap_or_default());
            print!("{}", script(&begin, &calls));
        } else {
            println!("not made small, or only so with refused calls in between:");
            print!("{}", script(begin, calls));
        }
    }

    /// Prints what was found; whether nothing differs, and random lists gave empty file names, 42 frames, 25, symbols and gaps
    /// (every file of `exhaustive` has a name, and its trees are small).
    fn end(&self, random: bool) -> bool {
        let by_number = self.tally.refused.iter().enumerate().filter(|(_, n)| **n > 0);
        let by_number: Vec<String> = by_number.map(|(i, n)| format!("{i}: {n}")).collect();
        println!("refused calls by number: {}", by_number.join(", "));
        let seconds = self.begun.elapsed().as_secs_f64();
        println!("{} lookups at addresses of lines, {} frames, {seconds:.0} s", self.tally.covered, self.tally.frames);
        let places = self.tally.symbols_and_gaps.shown(self.lists);
        let enough = places
            && (!random
                || self.empty_names.shown(self.lists) & self.tally.full_walks.shown(self.lists, self.tally.refused[25]));
        println!(
            "{} lists, {} files, {} lookups, {} differences",
            self.lists, self.tally.files, self.tally.lookups, self.differences
        );
        self.differences == 0 && enough
    }
}

fn random(lists: u64, seed: u64) -> bool {
    let mut r = Random::new(seed);
    let mut run = Run::new();
    for _ in 0..lists {
        let (begin, calls) = list(&mut r);
        assert_eq!(violations(&calls), 0, "the list breaks a premise");
        let spoiled = spoil(&mut r, &calls);
        let full_first = r.one_in(20);
        run.list(&begin, &calls, &spoiled, full_first);
    }
    run.end(true)
}

fn exhaustive() -> bool {
    let mut run = Run::new();
    oracle::exhaustive::lists(|calls| run.list(&Begin::default(), calls, &[], false));
    run.end(false)
}

fn main() {
    let args: Vec<String> = std::env::args().skip(1).collect();
    let args: Vec<&str> = args.iter().map(String::as_str).collect();
    let number = |w: &str| w.parse::<u64>().expect("a number");
    let holds = match args[..] {
        ["exhaustive"] => exhaustive(),
        [lists, seed] => random(number(lists), number(seed)),
        _ => {
            eprintln!("claims LISTS SEED, claims exhaustive");
            std::process::exit(2);
        }
    };
    if !holds {
        std::process::exit(1);
    }
}
