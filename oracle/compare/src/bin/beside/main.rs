//! The original and the proved library side by side: same input, same driver, one process. `beside [TREES]`, `beside deep`; `beside once KIND` converts
//! by the library alone, for `tools/instructions`.
//!
//! Conversion and writing are timed at ten times TREES (trees of 16 line rows), as one file and as ten files of TREES, in address order and
//! shuffled; lookups on the large file. The tenths are the trees of the whole, so that both read the same input: what differs is how much the
//! tables hold. What both are given is made before the clock starts; the library's memory is lent by the driver and zeroed by `begin`, inside
//! the time. The original's output keeps its room from run to run, as the library's does. Times are those that the thread ran (CPU time). A
//! ratio is taken in each of seven runs, in which theirs and ours, the tenths and the whole come in turn; its median counts. Last come
//! trees of 65,536 function rows at depths up to 41.

mod clock;
mod library;

use std::hint::black_box;

use clock::Moment;
use library::{Cache, Capacities, Library, Packed};
use oracle::random::Random;
use oracle::trees::{Deep, Kind, deep_tree, tree};
use oracle::*;

const RUNS: usize = 7;
const LOOKUPS: usize = 2_000_000;

/// Least and median of some times.
fn least_median(mut times: Vec<f64>) -> (f64, f64) {
    times.sort_by(f64::total_cmp);
    (times[0], times[times.len() / 2])
}

fn capacities(trees: usize) -> Capacities {
    Capacities { text: 260 * trees + 1_000_000, strings: 2 * trees + 40_000, files: 8_000, functions: 2 * trees + 40_000, call_locations: 4 * trees, ranges: 20 * trees }
}

/// Trees that are made into files of `each` trees, one file after the other.
struct Input<'a> {
    each: usize,
    rows: &'a [Vec<Row>],
    packed: &'a [Packed],
    library: Library,
    theirs: Vec<u8>,
    ours: Vec<u8>,
    /// Seconds for all the files together, of each run: theirs (converting, writing) and ours.
    times: Vec<[f64; 4]>,
}

impl<'a> Input<'a> {
    fn new(each: usize, rows: &'a [Vec<Row>], packed: &'a [Packed], capacities: Capacities) -> Self {
        Input { each, rows, packed, library: Library::new(capacities), theirs: Vec::new(), ours: Vec::new(), times: Vec::new() }
    }

    fn run(&mut self) {
        let mut times = [0.0; 4];
        for (rows, packed) in self.rows.chunks(self.each).zip(self.packed.chunks(self.each)) {
            let built: Vec<_> = rows.iter().map(|t| build(t)).collect();
            let begun = Moment::now();
            let mut converter = SymCacheConverter::new();
            for function in &built {
                converter.process_symbolic_function(function);
            }
            times[0] += begun.seconds();
            self.theirs.clear();
            let begun = Moment::now();
            converter.serialize(&mut self.theirs).unwrap();
            times[1] += begun.seconds();
            drop(built);

            let begun = Moment::now();
            self.library.begin();
            for tree in packed {
                let number = self.library.tree(tree);
                assert_eq!(number, 0);
            }
            times[2] += begun.seconds();
            self.ours.resize(self.theirs.len(), 0);
            let begun = Moment::now();
            let len = self.library.serialize(&mut self.ours).expect("a file");
            times[3] += begun.seconds();
            assert!(len == self.theirs.len() && self.ours == self.theirs, "the files differ");
        }
        self.times.push(times);
    }

    /// Least and median over the runs of what `f` makes of a run's times.
    fn over(&self, f: impl Fn(&[f64; 4]) -> f64) -> (f64, f64) {
        least_median(self.times.iter().map(f).collect())
    }

    fn report(&self, what: &str) {
        let [(tc0, tc), (tw0, tw), (oc0, oc), (ow0, ow)] = [0, 1, 2, 3].map(|i| self.over(|t| t[i]));
        println!(
            "{what}, files of {} trees: convert {tc:.3} s (least {tc0:.3}) and {oc:.3} s (least {oc0:.3}), ratio {:.2}; write {tw:.3} s (least {tw0:.3}) and {ow:.3} s (least {ow0:.3}), ratio {:.2}; together {:.2}; the last has {} bytes, equal",
            self.each,
            self.over(|t| t[2] / t[0]).1,
            self.over(|t| t[3] / t[1]).1,
            self.over(ratio).1,
            self.ours.len()
        );
    }
}

/// Ours over theirs, converting and writing together.
fn ratio(t: &[f64; 4]) -> f64 {
    (t[2] + t[3]) / (t[0] + t[1])
}

/// What converting and writing showed: ours over theirs in the whole, and the time of the whole over that of its tenths, theirs and ours.
struct Made {
    ratio: f64,
    growth: [f64; 2],
    file: Vec<u8>,
}

/// The trees as one file, and as ten files of a tenth each, in turn; every ratio is the median of those of the runs.
fn convert(what: &str, rows: &[Vec<Row>]) -> Made {
    let packed: Vec<Packed> = rows.iter().map(|t| Packed::new(t)).collect();
    let mut tenths = Input::new(rows.len() / 10, rows, &packed, capacities(rows.len() / 10));
    let mut whole = Input::new(rows.len(), rows, &packed, capacities(rows.len()));
    for _ in 0..RUNS {
        tenths.run();
        whole.run();
    }
    tenths.report(what);
    whole.report(what);
    let growth = [0, 2].map(|i| {
        let each = whole.times.iter().zip(&tenths.times).map(|(w, t)| (w[i] + w[i + 1]) / (t[i] + t[i + 1]));
        least_median(each.collect()).1
    });
    println!("{what}: time of the whole over that of its tenths: {:.3} and {:.3}", growth[0], growth[1]);
    Made { ratio: whole.over(ratio).1, growth, file: whole.ours }
}

/// Trees of 65,536 function rows at depths up to 41, four for a file.
fn deep_trees(kind: Deep) -> Vec<Vec<Row>> {
    (0..4).map(|i| deep_tree(i, kind)).collect()
}

fn deep_capacities(trees: &[Vec<Row>]) -> Capacities {
    let n = trees.iter().map(Vec::len).sum();
    Capacities { text: 80 * n, strings: n, files: 2_000, functions: n, call_locations: n, ranges: 4 * n }
}

/// Ours over theirs on such trees, converting and writing together.
fn deep(what: &str, kind: Deep) -> f64 {
    let rows = deep_trees(kind);
    let packed: Vec<Packed> = rows.iter().map(|t| Packed::new(t)).collect();
    let mut whole = Input::new(rows.len(), &rows, &packed, deep_capacities(&rows));
    for _ in 0..RUNS {
        whole.run();
    }
    whole.report(what);
    whole.over(ratio).1
}

/// The worse of the two kinds.
fn deep_ratio() -> f64 {
    deep("depth 41, chains side by side", Deep::Chains).max(deep("depth 41, a chain of 42 with wide subtrees", Deep::Wide))
}

/// Trees of one kind, converted once by the library.
fn once(kind: &str) {
    let shallow = |kind| {
        let mut r = Random::new(3);
        let rows: Vec<Vec<Row>> = (0..4_000).map(|i| tree(&mut r, i, kind)).collect();
        (capacities(rows.len()), rows)
    };
    let deep = |kind| {
        let rows = deep_trees(kind);
        (deep_capacities(&rows), rows)
    };
    let (room, rows) = match kind {
        "plain" => shallow(Kind::Plain),
        "alike" => shallow(Kind::Alike),
        "spread" => shallow(Kind::Spread),
        "chains" => deep(Deep::Chains),
        "wide" => deep(Deep::Wide),
        _ => panic!("plain, alike, spread, chains or wide"),
    };
    let packed: Vec<Packed> = rows.iter().map(|t| Packed::new(t)).collect();
    let mut library = Library::new(room);
    library.begin();
    for tree in &packed {
        assert_eq!(library.tree(tree), 0);
    }
}

/// Ours over theirs (the median of the runs) on one list of addresses: the first location, whole walks, whole walks with all texts; and of the library's search
/// alone beside the original's first location. In a walk without texts the library reads the function and the file row of each frame, the original neither.
fn lookups(what: &str, theirs: &SymCache, ours: &Cache, list: &[u64]) -> [f64; 4] {
    let time = |f: &mut dyn FnMut(u64) -> u64| {
        let begun = Moment::now();
        let mut sum = 0u64;
        for a in list {
            sum = sum.wrapping_add(f(*a));
        }
        (begun.seconds(), black_box(sum))
    };
    let mut result = [0.0; 4];
    for (i, name) in ["first location", "walk", "walk with texts", "first location and search alone"].into_iter().enumerate() {
        let (mut t, mut o) = (vec![], vec![]);
        for _ in 0..RUNS {
            let (a, x) = match i {
                0 | 3 => time(&mut |a| u64::from(black_box(theirs.first_location(a)))),
                1 => time(&mut |a| black_box(theirs.count_frames(a)) as u64),
                _ => time(&mut |a| {
                    let mut bytes = 0;
                    for location in theirs.lookup(a) {
                        bytes += location.function().name().len();
                        if let Some(file) = location.file() {
                            bytes += bytes_of(file);
                        }
                    }
                    bytes as u64
                }),
            };
            let (b, y) = match i {
                0 => time(&mut |a| u64::from(black_box(ours.first(a)))),
                1 => time(&mut |a| ours.walk(a, |_| ()) as u64),
                3 => time(&mut |a| u64::from(black_box(ours.find(a)))),
                _ => time(&mut |a| {
                    let mut bytes = 0;
                    ours.walk(a, |frame| bytes += ours.texts(frame));
                    bytes as u64
                }),
            };
            assert!(i == 3 || x == y, "{what}, {name}: the answers differ");
            t.push(a);
            o.push(b);
        }
        result[i] = least_median(o.iter().zip(&t).map(|(o, t)| o / t).collect()).1;
        let ((t0, t), (o0, o)) = (least_median(t), least_median(o));
        let n = list.len() as f64 / 1e9;
        println!("{what} lookups, {name}: {:.0} ns (least {:.0}) and {:.0} ns (least {:.0}), ratio {:.2}", t / n, t0 / n, o / n, o0 / n, result[i]);
    }
    result
}

/// The bytes of a file's six texts, as the original reads them.
fn bytes_of(file: symbolic_symcache::File) -> usize {
    let t = original::texts(file);
    let part = |t: Option<&str>| t.map_or(0, str::len);
    t.name.len() + part(t.directory) + part(t.comp_dir) + part(t.srcsrv_name) + part(t.srcsrv_dir) + part(t.revision)
}

fn main() {
    match std::env::args().nth(1).as_deref() {
        Some("deep") => return println!("deep-ratio {:.2}", deep_ratio()),
        Some("once") => return once(&std::env::args().nth(2).unwrap_or_default()),
        _ => (),
    }
    let trees: usize = std::env::args().nth(1).map_or(10_000, |a| a.parse().expect("a number"));
    assert!(trees > 0 && trees * 190 <= 16_777_216, "ten times TREES would need more ranges than a table may have (16,777,216)");
    let mut growth: f64 = 0.0;
    let mut last = None;
    for kind in [Kind::Alike, Kind::Spread, Kind::Plain] {
        let name = match kind {
            Kind::Plain => "plain",
            Kind::Alike => "names alike",
            Kind::Spread => "addresses of 4,096",
        };
        let mut r = Random::new(3);
        let mut rows: Vec<Vec<Row>> = (0..10 * trees as u64).map(|i| tree(&mut r, i, kind)).collect();
        let mut large = Vec::new();
        for order in ["in order", "shuffled"] {
            if order == "shuffled" {
                r.shuffle(&mut rows);
            }
            let made = convert(&format!("{name}, {order}"), &rows);
            growth = growth.max(made.growth[1]);
            large.push(made);
        }
        last = Some(large);
    }
    let [ordered, shuffled] = &last.unwrap()[..] else { unreachable!() };
    let file = Aligned::new(&ordered.file);
    let theirs = SymCache::parse(file.bytes()).unwrap();
    let ours = Cache::open(file.bytes()).expect("a cache");
    assert_eq!(theirs.counts(), ours.counts());
    let [f, fun, loc, ranges, texts] = ours.counts();
    println!("tables of both: files {f} functions {fun} locations {loc} ranges {ranges} texts {texts}");
    let mut r = Random::new(4);
    let top = Kind::Plain.base(10 * trees as u64);
    let random: Vec<u64> = (0..LOOKUPS).map(|_| r.within(0x1000, top)).collect();
    let mut ascending = random.clone();
    ascending.sort();
    let a = lookups("random", &theirs, &ours, &random);
    let b = lookups("ascending", &theirs, &ours, &ascending);
    let deep = deep_ratio();
    let worse = |i: usize| a[i].max(b[i]);
    println!("convert-ratio {:.2}", ordered.ratio);
    println!("shuffled-ratio {:.2}", shuffled.ratio);
    println!("lookup-ratio {:.2}", worse(0));
    println!("walk-ratio {:.2}", worse(2));
    println!("growth-ratio {growth:.3}");
    println!("deep-ratio {deep:.2}");
}
