//! The proved lister and one over the original, side by side: `listers PROVED ORIGINAL`, the two programs.
//!
//! Both get the same file of almost 65,536 bytes and the same million lines, through a pipe, and their output is read from a pipe, to the end; it must be
//! the same. Times are those from the start of a program to the end of its output. They take turns; a ratio is taken in each of seven turns, and its
//! median counts. Last line: 'lister-ratio R'.

use std::io::{Read, Write};
use std::path::Path;
use std::process::{Command, Stdio};
use std::time::Instant;

use oracle::random::Random;
use oracle::trees::{Kind, tree};
use oracle::*;

const RUNS: usize = 7;
const LINES: usize = 1_000_000;

/// The largest file of whole trees that a lister holds, and an address past it.
fn file() -> (Vec<u8>, u64) {
    let mut r = Random::new(3);
    let rows: Vec<Vec<Row>> = (0..1000).map(|i| tree(&mut r, i, Kind::Plain)).collect();
    let written = |n: usize| {
        let mut converter = SymCacheConverter::new();
        for t in &rows[..n] {
            converter.process_symbolic_function(&build(t));
        }
        let mut bytes = Vec::new();
        converter.serialize(&mut bytes).expect("a file");
        bytes
    };
    let n = (1..1000).take_while(|n| written(*n).len() <= 65_536).last().expect("a tree");
    (written(n), Kind::Plain.base(n as u64))
}

/// What a program prints, and the seconds it takes.
fn run(program: &Path, folder: &Path, input: &[u8]) -> (Vec<u8>, f64) {
    let begun = Instant::now();
    let mut child =
        Command::new(program).current_dir(folder).stdin(Stdio::piped()).stdout(Stdio::piped()).spawn().expect("a program");
    let mut pipe = child.stdin.take().unwrap();
    let mut printed = Vec::with_capacity(256 << 20);
    std::thread::scope(|s| {
        s.spawn(move || pipe.write_all(input).expect("the program reads all"));
        child.stdout.take().unwrap().read_to_end(&mut printed).expect("output");
    });
    assert!(child.wait().expect("an end").success());
    (printed, begun.elapsed().as_secs_f64())
}

fn main() {
    let programs: Vec<_> = std::env::args().skip(1).map(|p| std::fs::canonicalize(p).expect("a program")).collect();
    let [proved, original] = &programs[..] else { panic!("listers PROVED ORIGINAL") };
    let (file, top) = file();
    let folder = std::env::temp_dir().join(format!("listers-{}", std::process::id()));
    std::fs::create_dir(&folder).expect("a folder");
    std::fs::write(folder.join("cache.sym"), &file).expect("a file");
    let mut r = Random::new(5);
    let mut input = Vec::new();
    for _ in 0..LINES {
        writeln!(input, "{:x}", r.within(0x1000, top)).unwrap();
    }
    let (mut ours, mut theirs, mut ratios) = (Vec::new(), Vec::new(), Vec::new());
    let mut bytes = 0;
    for _ in 0..RUNS {
        let (a, t) = run(original, &folder, &input);
        let (b, o) = run(proved, &folder, &input);
        assert!(a == b, "the listings differ");
        bytes = a.len();
        (ours.push(o), theirs.push(t), ratios.push(o / t));
    }
    std::fs::remove_dir_all(&folder).expect("the folder");
    for list in [&mut ours, &mut theirs, &mut ratios] {
        list.sort_by(f64::total_cmp);
    }
    let middle = RUNS / 2;
    println!(
        "{LINES} lines, a file of {} bytes, {bytes} bytes printed: the original {:.3} s (least {:.3}), ours {:.3} s (least {:.3})",
        file.len(), theirs[middle], theirs[0], ours[middle], ours[0]
    );
    println!("lister-ratio {:.2}", ratios[middle]);
}
