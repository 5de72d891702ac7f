//! Makes and checks the stored answers that the gate replays. See FORMAT.md.
//!
//!     answers reader SEED DIR       # DIR/reader.cases, reader.stdout, reader.txt
//!     answers converter SEED DIR    # DIR/converter.cases, converter.stdout, converter.txt
//!     answers check DIR             # answers every stored case again
//!     answers show DIR reader|converter N   # case N (from 1) as a script for `oracle`

use std::collections::BTreeMap;
use std::fmt::Write as _;

use oracle::answers::*;
use oracle::claims::ranges_in_domain;
use oracle::files::*;
use oracle::lists::*;
use oracle::random::*;
use oracle::*;

/// No record's body is longer, so that a replay program can hold one in a fixed buffer.
const LONGEST: usize = 16_384;

#[derive(Default)]
struct Made {
    cases: Vec<u8>,
    stdout: String,
    count: usize,
    /// How many of each kind.
    tally: BTreeMap<String, usize>,
    /// The most of each that a replay program has to hold.
    most: BTreeMap<&'static str, usize>,
}

impl Made {
    fn one(&mut self, what: impl Into<String>) {
        *self.tally.entry(what.into()).or_default() += 1;
    }

    fn most(&mut self, what: &'static str, n: usize) {
        let most = self.most.entry(what).or_default();
        *most = n.max(*most);
    }
}

fn reader(seed: u64) -> Made {
    let mut r = Random::new(seed);
    let mut made = Made::default();
    let add = |made: &mut Made, r: &mut Random, what: &str, file: Vec<u8>| {
        if file.len() > 4096 {
            return false;
        }
        let case = ReaderCase { addresses: boundaries(r, &file), file };
        let mut record = Vec::new();
        case.put(&mut record);
        if record.len() > LONGEST + 4 {
            return false;
        }
        let words = reader_words(&case.file, &case.addresses);
        made.cases.extend(record);
        made.stdout.push_str(&stdout_line(&words));
        made.count += 1;
        let unordered = words[0] == 0 && words.last() == Some(&12);
        let number = if unordered { 12 } else { words[0] };
        made.one(what);
        made.one(format!("number {number:02}"));
        made.most("bytes of a file", case.file.len());
        made.most("addresses", case.addresses.len());
        true
    };
    let (begin, calls) = small();
    let worked = written(&begin, &calls);
    assert_eq!(worked.len(), 305);
    add(&mut made, &mut r, "worked", worked.clone());
    for n in [0, 7, 8, 79, 80, 127, 128, 159, 160, 255, 256, 275, 276, 279, 280, 304] {
        add(&mut made, &mut r, "worked, cut", worked[..n].to_vec());
    }
    let kinds = [Kind::Good, Kind::Gaps, Kind::Wild, Kind::Changed];
    let mut left = 560;
    while left > 0 {
        let (begin, calls) = list(&mut r, kinds[left % 4]);
        left -= usize::from(add(&mut made, &mut r, "written", written(&begin, &calls)));
    }
    let mut left = 100 * DAMAGES.len();
    while left > 0 {
        let (begin, calls) = list(&mut r, kinds[left % 4]);
        let mut file = written(&begin, &calls);
        if file.len() < 150 || file.len() > 900 {
            continue;
        }
        let kind = left % DAMAGES.len();
        let before = file.clone();
        damage(&mut r, kind, &mut file);
        if r.one_in(4) {
            let other = r.below(DAMAGES.len() as u64) as usize;
            damage(&mut r, other, &mut file);
        }
        if file == before {
            continue;
        }
        left -= usize::from(add(&mut made, &mut r, &format!("damaged: {}", DAMAGES[kind]), file));
    }
    let mut left = 300;
    while left > 0 {
        let file = random_file(&mut r);
        left -= usize::from(add(&mut made, &mut r, "random", file));
    }
    made
}

// ---- lists for the converter

fn steps_of(begin: &Begin, calls: &[Call]) -> Vec<Step> {
    let mut steps = vec![Step::Begin(begin.clone())];
    steps.extend(calls.iter().map(|c| match c {
        Call::Tree(rows) => Step::Tree(Columns::of(rows)),
        Call::Symbol(s) => Step::Symbol(s.clone()),
        Call::Write => Step::Write,
    }));
    steps.push(Step::End);
    steps
}

/// The greatest depth among the rows.
fn deepest(c: &Columns) -> u32 {
    c.functions32.chunks(FUNCTION32).map(|f| f[0]).max().unwrap_or(0)
}

/// Sizes that a replay program has to hold: rows of a tree, and the converter's tables.
fn measure(made: &mut Made, steps: &[Step]) {
    let mut session = None;
    for step in steps {
        match step {
            Step::Begin(b) => session = Session::begin(b).ok(),
            Step::Tree(c) => {
                made.most("function rows of a tree", c.functions32.len() / FUNCTION32);
                made.most("line rows of a tree", c.lines32.len() / LINE32);
                made.most("text bytes of a tree", c.text.len());
                if c.refusal().is_none() {
                    session.as_mut().unwrap().tree(&c.rows()).unwrap();
                }
            }
            Step::Symbol(s) => drop(session.as_mut().unwrap().symbol(s)),
            Step::Write => made.most("bytes of a written file", session.as_ref().unwrap().write().len()),
            Step::End => {
                let state = session.as_ref().unwrap().converter.state();
                made.most("files of a converter", state.files);
                made.most("functions of a converter", state.functions);
                made.most("call locations of a converter", state.call_locations);
                made.most("ranges of a converter", state.ranges + 1);
                made.most("text bytes of a converter", state.text_bytes);
            }
        }
    }
}

fn converter(seed: u64) -> Made {
    let mut r = Random::new(seed);
    let mut made = Made::default();
    let add = |made: &mut Made, what: &str, steps: &[Step]| {
        let mut bytes = Vec::new();
        steps.iter().for_each(|s| s.put(&mut bytes));
        // Few lists are long: the container stays small.
        let room = if made.count % 25 == 0 || what.contains("deep") { 14_000 } else { 5_000 };
        if records(&bytes).iter().any(|b| b.len() > LONGEST) || bytes.len() > room {
            return false;
        }
        let lists = converter_words(steps);
        assert_eq!(lists.len(), 1);
        made.cases.extend(bytes);
        made.stdout.push_str(&stdout_line(&lists[0]));
        made.count += 1;
        made.one(what);
        measure(made, steps);
        for step in steps {
            let kind = match step {
                Step::Begin(b) if b.functions || b.symbols => "begun with undecoration".to_string(),
                Step::Begin(_) => "begun without undecoration".to_string(),
                Step::Tree(c) => c.refusal().map_or("trees accepted".into(), |n| format!("trees refused with {n}")),
                Step::Symbol(s) => symbol_refusal(s).map_or("symbols accepted".into(), |n| format!("symbols refused with {n}")),
                Step::Write => "writes".to_string(),
                Step::End => continue,
            };
            made.one(kind);
            if matches!(step, Step::Tree(c) if c.refusal().is_none() && deepest(c) == MAX_DEPTH) {
                made.one("trees accepted, of depth 41");
            }
        }
        true
    };
    let (begin, calls) = small();
    add(&mut made, "in the domain: worked", &steps_of(&begin, &calls));
    let (begin, calls) = chain(MAX_DEPTH);
    add(&mut made, "in the domain: as deep as may be", &steps_of(&begin, &calls));
    for (kind, what, lists) in [
        (Kind::Good, "in the domain: well nested", 250),
        (Kind::Gaps, "in the domain: well nested, symbols in gaps", 100),
        (Kind::Changed, "in the domain: well nested, then changed", 350),
        (Kind::Wild, "in the domain: wild", 320),
    ] {
        let mut left = lists;
        while left > 0 {
            let (begin, mut calls) = list(&mut r, kind);
            fill(&mut r, &begin, &mut calls);
            assert!(in_domain(&begin, &calls));
            if !calls.iter().any(|c| matches!(c, Call::Tree(_))) && !r.one_in(10) {
                continue;
            }
            left -= usize::from(add(&mut made, what, &steps_of(&begin, &calls)));
        }
    }
    // Outside the domain for equality, yet fixed by documents 01 and 02. First depth 42, between a tree that is kept and its write.
    let (_, deeper) = chain(MAX_DEPTH + 1);
    let (begin, mut calls) = small();
    calls.splice(1..1, deeper);
    add(&mut made, "beyond it: deeper than that, refused", &steps_of(&begin, &calls));
    let mut left = 120;
    while left > 0 {
        let kind = if left % 2 == 0 { Kind::Wild } else { Kind::Good };
        let (begin, mut calls) = list(&mut r, kind);
        let what = if left % 3 == 0 { "beyond it: empty texts" } else { "beyond it: refused calls" };
        if left % 3 == 0 {
            left -= usize::from(add(&mut made, what, &steps_of(&begin, &calls)));
            continue;
        }
        fill(&mut r, &begin, &mut calls);
        let mut steps = Vec::new();
        let mut any = false;
        for step in steps_of(&begin, &calls) {
            match &step {
                Step::Tree(c) if r.one_in(2) => {
                    let bad = refused(&mut r, c.clone());
                    any = any || bad.refusal().is_some();
                    steps.push(Step::Tree(bad));
                }
                Step::Symbol(s) if s.name.is_some() && r.one_in(3) => {
                    steps.push(Step::Symbol(Sym { name: Some(b"a\x80".to_vec()), ..s.clone() }));
                    any = true;
                }
                _ => {}
            }
            steps.push(step);
        }
        // A tree that `refused` left accepted may lie outside the domain.
        let ranges = |s: &Step| match s {
            Step::Tree(c) => c.refusal().is_some() || ranges_in_domain(&c.rows()),
            _ => true,
        };
        if any && steps.iter().all(ranges) {
            left -= usize::from(add(&mut made, what, &steps));
        }
    }
    made
}

// ---- the program

fn store(name: &str, seed: u64, folder: &str, made: &Made) -> std::io::Result<()> {
    let longest = records(&made.cases).iter().map(|b| b.len()).max().unwrap_or(0);
    let mut note = String::new();
    writeln!(note, "{name}.cases and {name}.stdout were made, in oracle/, by").unwrap();
    writeln!(note, "    answers {name} {seed} answers").unwrap();
    writeln!(note, "and answered by the original (FORMAT.md says how). `answers check answers` answers them again.").unwrap();
    writeln!(note, "{} cases, {} bytes; the longest record has {longest} bytes.", made.count, made.cases.len()).unwrap();
    for (what, n) in &made.most {
        writeln!(note, "    at most {n} {what}").unwrap();
    }
    for (what, n) in &made.tally {
        writeln!(note, "    {n:6} {what}").unwrap();
    }
    std::fs::create_dir_all(folder)?;
    std::fs::write(format!("{folder}/{name}.cases"), &made.cases)?;
    std::fs::write(format!("{folder}/{name}.stdout"), &made.stdout)?;
    std::fs::write(format!("{folder}/{name}.txt"), &note)?;
    print!("{note}");
    Ok(())
}

fn reader_cases(container: &[u8]) -> Vec<ReaderCase> {
    records(container).into_iter().map(ReaderCase::of).collect()
}

fn check(folder: &str) -> bool {
    let read = |name: &str| std::fs::read(format!("{folder}/{name}")).expect("stored answers");
    let reader: String = reader_cases(&read("reader.cases"))
        .iter()
        .map(|c| stdout_line(&reader_words(&c.file, &c.addresses)))
        .collect();
    let steps: Vec<Step> = records(&read("converter.cases")).into_iter().map(Step::of).collect();
    let converter: String = converter_words(&steps).iter().map(|w| stdout_line(w)).collect();
    let mut same = true;
    for (name, found) in [("reader", reader), ("converter", converter)] {
        let stored = read(&format!("{name}.stdout"));
        let right = stored == found.as_bytes();
        println!("{name}: {} cases, {}", found.lines().count(), if right { "same" } else { "NOT THE SAME" });
        same = same && right;
    }
    same
}

fn show(folder: &str, name: &str, n: usize) {
    let container = std::fs::read(format!("{folder}/{name}.cases")).expect("stored answers");
    if name == "reader" {
        let case = &reader_cases(&container)[n - 1];
        println!("file {}\ntables\nfunctions\nfiles", text_word(&case.file));
        let words: Vec<String> = case.addresses.iter().map(u64::to_string).collect();
        println!("lookup {}", words.join(" "));
        println!("# {:?}", reader_words(&case.file, &case.addresses));
        return;
    }
    let steps: Vec<Step> = records(&container).into_iter().map(Step::of).collect();
    let lists: Vec<&[Step]> = steps.split_inclusive(|s| *s == Step::End).collect();
    for step in lists[n - 1] {
        match step {
            Step::Begin(b) => print!("{}", begin_script(b)),
            Step::Tree(c) => match c.refusal() {
                Some(n) => println!("# refused {n}: {c:?}"),
                None => print!("{}", call_script(&Call::Tree(c.rows()))),
            },
            Step::Symbol(s) => print!("{}", call_script(&Call::Symbol(s.clone()))),
            Step::Write => println!("write"),
            Step::End => {}
        }
    }
    println!("# {:?}", converter_words(lists[n - 1])[0]);
}

fn main() {
    let args: Vec<String> = std::env::args().skip(1).collect();
    let args: Vec<&str> = args.iter().map(String::as_str).collect();
    let number = |w: &str| w.parse::<u64>().expect("a number");
    match args[..] {
        ["reader", seed, folder] => store("reader", number(seed), folder, &reader(number(seed))).unwrap(),
        ["converter", seed, folder] => store("converter", number(seed), folder, &converter(number(seed))).unwrap(),
        ["check", folder] => {
            if !check(folder) {
                std::process::exit(1);
            }
        }
        ["show", folder, name, n] => show(folder, name, number(n) as usize),
        _ => {
            eprintln!("answers reader|converter SEED DIR, answers check DIR, answers show DIR reader|converter N");
            std::process::exit(2);
        }
    }
}
