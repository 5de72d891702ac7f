//! Which premises of demand 3 and of K13 bite: for each a small list that breaks it alone and on which the claim fails, on the
//! original and on the proved library, with equal bytes and equal frames.
//!
//!     premises search LISTS SEED DIR   # makes DIR/NAME.txt, scripts for `oracle`
//!     premises check DIR               # runs the stored ones through both
//!
//! Last line of `check`: 'PREMISES premises, LOOKUPS lookups, N differences'. Exit code 1 if there is one.

use compare::ours::{Ours, bounds};
use compare::reader::Reader;
use oracle::claims::{Mode, PREMISES, PREMISES13, breakpoints, demand3_at, is_covered, k13_at, run};
use oracle::original::Frame;
use oracle::premises::{Broken, breaks_demand3, breaks_k13, search};
use oracle::*;

/// A claim, its premises by name, and what it is to fail.
struct Claim {
    name: &'static str,
    premises: &'static [(&'static str, &'static str)],
    mode: Mode,
    /// Whether the list breaks this premise alone, and the original's file the claim.
    breaks: fn(usize, &Begin, &[Call]) -> bool,
    /// Whether it fails at an address, on the frames found there.
    fails_at: fn(&Begin, &[Call], u64, &[Frame<'_>]) -> bool,
}

const CLAIMS: [Claim; 2] = [
    Claim {
        name: "Demand 3",
        premises: PREMISES,
        mode: Mode::Force3,
        breaks: breaks_demand3,
        fails_at: |b, c, a, f| is_covered(c, a) && demand3_at(b, c, a, f).is_err(),
    },
    Claim {
        name: "K13",
        premises: PREMISES13,
        mode: Mode::Force13,
        breaks: breaks_k13,
        fails_at: |b, c, a, f| k13_at(b, c, a, f).is_err(),
    },
];

fn search_and_store(lists: u64, seed: u64, folder: &str) {
    let found = search(lists, seed);
    for (claim, broken) in CLAIMS.iter().zip([&found.demand3, &found.k13]) {
        for ((name, text), b) in claim.premises.iter().zip(broken) {
            println!("{name}: {} lists break it alone, the claim fails on {} -- {text}", b.seen, b.failed);
            if let Some(out) = stored(claim, text, b, lists, seed) {
                std::fs::write(format!("{folder}/{name}.txt"), out).expect("a folder to write in");
            }
        }
    }
}

/// The smallest list on which the claim fails, as a script for `oracle`.
fn stored(claim: &Claim, text: &str, b: &Broken, lists: u64, seed: u64) -> Option<String> {
    let (begin, calls) = b.smallest.as_ref()?;
    let failure = run(begin, calls, claim.mode).expect_err("fails");
    let mut out = format!("# {} without the premise '{text}', every other one met.\n", claim.name);
    out += &format!("# Found by `premises search {lists} {seed}`: {} lists break this premise alone, the claim fails on {}.\n", b.seen, b.failed);
    out += &format!("# At {}: {}\n", failure.address.unwrap(), failure.what);
    out += &script(begin, calls);
    let (last, before) = calls.split_last().unwrap();
    assert_eq!(*last, Call::Write);
    let at: Vec<String> = breakpoints(before, &[]).iter().map(u64::to_string).collect();
    out += &format!("lookup {}\n", at.join(" "));
    Some(out)
}

/// A list whose one write is its end: bytes and frames of both, and where the claim fails.
fn both(claim: &Claim, begin: &Begin, calls: &[Call]) -> Result<(u64, u64, Vec<u64>), String> {
    let (last, before) = calls.split_last().ok_or("no calls")?;
    if *last != Call::Write || before.contains(&Call::Write) {
        return Err("not one write at the end".into());
    }
    let mut session = Session::begin(begin).map_err(|k| format!("{k:?}"))?;
    let mut ours = Ours::default();
    ours.lend(bounds(calls));
    let mut answers = vec![ours.begin(begin)];
    for call in before {
        match call {
            Call::Tree(t) => session.tree(t).map_err(|k| format!("{k:?}"))?,
            Call::Symbol(s) => session.symbol(s).map_err(|k| format!("{k:?}"))?,
            Call::Write => unreachable!(),
        }
        answers.push(ours.call(call));
    }
    if answers.iter().any(|n| *n != 0) {
        return Err(format!("ours answers {answers:?}"));
    }
    let theirs = Aligned::new(&session.write());
    let written = ours.write().map_err(|n| format!("ours answers {n} to the write"))?;
    if written != theirs.bytes() {
        return Err("the files differ".into());
    }
    let cache = SymCache::parse(theirs.bytes()).map_err(|e| format!("{e:?}"))?;
    let mut reader = Reader::open(&written).map_err(|n| format!("ours refuses its file with {n}"))?;
    let (mut lookups, mut frames, mut fails) = (0, 0, Vec::new());
    for address in breakpoints(before, &cache.starts()) {
        let (theirs, ours) = (cache.frames(address), reader.frames(address)?);
        if theirs != ours {
            return Err(format!("frames at {address}: the original {theirs:?}, ours {ours:?}"));
        }
        lookups += 1;
        frames += ours.len() as u64;
        if (claim.fails_at)(begin, before, address, &ours) {
            fails.push(address);
        }
    }
    Ok((lookups, frames, fails))
}

fn check(folder: &str) -> bool {
    let (mut checked, mut all, mut differences) = (0, 0, 0);
    for claim in &CLAIMS {
        for (i, (name, text)) in claim.premises.iter().enumerate() {
            let Ok(stored) = std::fs::read_to_string(format!("{folder}/{name}.txt")) else {
                println!("{name}: no list stored -- {text}");
                continue;
            };
            checked += 1;
            let result = scripts::list(&stored).and_then(|(begin, calls)| {
                if !(claim.breaks)(i, &begin, &calls) {
                    return Err("the original does not fail the claim with this premise alone broken".into());
                }
                both(claim, &begin, &calls)
            });
            match result {
                Ok((lookups, frames, fails)) if !fails.is_empty() => {
                    all += lookups;
                    println!("{name}: {} fails at {fails:?} on both; {frames} frames at {lookups} addresses equal -- {text}", claim.name);
                }
                Ok(_) => {
                    differences += 1;
                    println!("{name}: DIFFERENCE: the claim holds on ours");
                }
                Err(what) => {
                    differences += 1;
                    println!("{name}: DIFFERENCE: {what}");
                }
            }
        }
    }
    println!("{checked} premises, {all} lookups, {differences} differences");
    differences == 0
}

fn main() {
    let args: Vec<String> = std::env::args().skip(1).collect();
    let args: Vec<&str> = args.iter().map(String::as_str).collect();
    let number = |w: &str| w.parse::<u64>().expect("a number");
    match args[..] {
        ["search", lists, seed, folder] => search_and_store(number(lists), number(seed), folder),
        ["check", folder] => {
            if !check(folder) {
                std::process::exit(1);
            }
        }
        _ => {
            eprintln!("premises search LISTS SEED DIR, premises check DIR");
            std::process::exit(2);
        }
    }
}
