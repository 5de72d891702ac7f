//! All lists of a tiny size that meet demand 3's premises.

use crate::claims::{row_extent, violations};
use crate::*;

/// Trees in five addresses, with up to two inlinees and one more below the last.
fn trees(span: u64) -> Vec<Vec<Row>> {
    // Trees: root extent, root lines (cut mask + gap mask), an inlinee as a subset of addresses.
    let mut trees: Vec<Vec<Row>> = Vec::new();
    for a in 0..span {
        for e in a + 1..=span {
            let n = e - a;
            // Each address: 0 no line, 1 begins a line, 2 goes on.
            for code in 0..3u64.pow(n as u32) {
                let digits: Vec<u64> = (0..n).map(|i| code / 3u64.pow(i as u32) % 3).collect();
                if digits.iter().enumerate().any(|(i, d)| *d == 2 && (i == 0 || digits[i - 1] == 0)) {
                    continue;
                }
                let mut lines: Vec<(u64, u64)> = Vec::new();
                for (i, d) in digits.iter().enumerate() {
                    match d {
                        1 => lines.push((a + i as u64, a + i as u64 + 1)),
                        2 => lines.last_mut().unwrap().1 += 1,
                        _ => {}
                    }
                }
                let root = Row {
                    address: a,
                    size: n,
                    name: b"r".to_vec(),
                    lines: lines
                        .iter()
                        .enumerate()
                        .map(|(i, l)| Line {
                            address: l.0,
                            size: Some(l.1 - l.0),
                            number: 1 + i as u64,
                            name: b"f".to_vec(),
                            ..Line::default()
                        })
                        .collect(),
                    ..Row::default()
                };
                trees.push(vec![root.clone()]);
                // Two inlinees: each covered address belongs to none, one or the other; a part
                // ends where the caller's line ends, where the owner changes, or (3, 4) by choice.
                let covered: Vec<u64> =
                    (a..e).filter(|x| lines.iter().any(|l| l.0 <= *x && *x < l.1)).collect();
                if covered.is_empty() {
                    continue;
                }
                for own in 1..3u64.pow(covered.len() as u32) {
                    let owner: Vec<u64> =
                        (0..covered.len()).map(|i| own / 3u64.pow(i as u32) % 3).collect();
                    let mut parts: [Vec<(u64, u64)>; 2] = [Vec::new(), Vec::new()];
                    for (i, x) in covered.iter().enumerate() {
                        if owner[i] == 0 {
                            continue;
                        }
                        let mine = &mut parts[owner[i] as usize - 1];
                        let goes_on = i > 0
                            && covered[i - 1] + 1 == *x
                            && owner[i - 1] == owner[i]
                            && !lines.iter().any(|l| l.0 == *x);
                        if goes_on {
                            mine.last_mut().unwrap().1 += 1;
                        } else {
                            mine.push((*x, *x + 1));
                        }
                    }
                    let row = |parts: &[(u64, u64)], name: &[u8], number: u64, depth: u32| Row {
                        depth,
                        address: parts[0].0,
                        size: parts.last().unwrap().1 - parts[0].0,
                        inline: true,
                        name: name.to_vec(),
                        lines: parts
                            .iter()
                            .enumerate()
                            .map(|(i, l)| Line {
                                address: l.0,
                                size: Some(l.1 - l.0),
                                number: number + i as u64,
                                name: b"g".to_vec(),
                                ..Line::default()
                            })
                            .collect(),
                        ..Row::default()
                    };
                    let mut rows = vec![root.clone()];
                    for (i, p) in parts.iter().enumerate() {
                        if !p.is_empty() {
                            rows.push(row(p, [&b"i"[..], b"j"][i], 10 * (i as u64 + 1), 1));
                        }
                    }
                    trees.push(rows.clone());
                    // A second level: the last row once more, below itself.
                    let last = rows.last().unwrap().clone();
                    let below = Row {
                        depth: last.depth + 1,
                        name: b"k".to_vec(),
                        lines: last
                            .lines
                            .iter()
                            .map(|l| Line { number: l.number + 100, ..l.clone() })
                            .collect(),
                        ..last
                    };
                    rows.push(below);
                    trees.push(rows);
                }
            }
        }
    }
    trees
}

/// Every tree alone, and with every symbol before it and after it; and pairs of small trees. Answers how many trees
/// there are.
pub fn lists(mut each: impl FnMut(&[Call])) -> usize {
    let span = 5u64;
    let trees = trees(span);
    let mut symbols: Vec<Option<Sym>> = vec![None];
    for a in 0..=span + 1 {
        for size in 0..=span + 1 - a {
            symbols.push(Some(Sym { address: a, size, name: Some(b"s".to_vec()) }));
        }
    }
    let mut check = |calls: &[Call]| {
        if violations(calls) == 0 {
            each(calls);
        }
    };
    // Every tree with every symbol, before and after.
    for t in &trees {
        for s in &symbols {
            let tree = Call::Tree(t.clone());
            match s {
                None => check(&[tree, Call::Write]),
                Some(s) => {
                    let s = Call::Symbol(s.clone());
                    check(&[tree.clone(), s.clone(), Call::Write]);
                    check(&[s, tree, Call::Write]);
                }
            }
        }
    }
    // Every ordered pair of trees of at most three addresses with disjoint extents.
    let small: Vec<&Vec<Row>> = trees.iter().filter(|t| t[0].size <= 3).collect();
    for t in &small {
        for u in &small {
            let (te, ue) = (row_extent(&t[0]), row_extent(&u[0]));
            if te.1 <= ue.0 || ue.1 <= te.0 {
                check(&[Call::Tree((*t).clone()), Call::Tree((*u).clone()), Call::Write]);
            }
        }
    }
    trees.len()
}
