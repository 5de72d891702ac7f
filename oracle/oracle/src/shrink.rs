//! Makes a list of calls small.

use crate::*;

/// Smaller lists that `keep` still accepts, as long as there are any.
pub fn shrink(begin: &Begin, calls: &[Call], keep: &dyn Fn(&Begin, &[Call]) -> bool) -> (Begin, Vec<Call>) {
    let mut begin = begin.clone();
    let mut calls = calls.to_vec();
    for plain in [
        Begin { debug_id: [0; 32], arch: 0, ..begin.clone() },
        Begin { debug_id: [0; 32], arch: 0, functions: false, symbols: false },
    ] {
        if keep(&plain, &calls) {
            begin = plain;
        }
    }
    loop {
        let mut better = None;
        'search: {
            let mut try_one = |candidate: Vec<Call>| -> bool {
                if cost(&candidate) < cost(&calls) && keep(&begin, &candidate) {
                    better = Some(candidate);
                    return true;
                }
                false
            };
            for i in 0..calls.len() {
                let mut c = calls.clone();
                c.remove(i);
                if try_one(c) {
                    break 'search;
                }
            }
            for i in 0..calls.len() {
                if let Call::Tree(rows) = &calls[i] {
                    for k in 1..rows.len() {
                        // Without row k, alone or with all below it.
                        let mut stop = k + 1;
                        while stop < rows.len() && rows[stop].depth > rows[k].depth {
                            stop += 1;
                        }
                        for stop in [stop, k + 1] {
                            let mut c = calls.clone();
                            let Call::Tree(t) = &mut c[i] else { unreachable!() };
                            t.drain(k..stop);
                            if try_one(c) {
                                break 'search;
                            }
                        }
                    }
                    for k in 0..rows.len() {
                        for l in 0..rows[k].lines.len() {
                            let mut c = calls.clone();
                            let Call::Tree(t) = &mut c[i] else { unreachable!() };
                            t[k].lines.remove(l);
                            if try_one(c) {
                                break 'search;
                            }
                        }
                    }
                }
            }
            // Smaller numbers and plainer texts.
            let lower = |n: u64| {
                let mut v = vec![0];
                v.extend((0..64).rev().map(|k| n.saturating_sub(1u64 << k)).filter(|m| *m > 0 && *m < n));
                v.retain(|m| *m < n);
                v
            };
            // Everything lower together.
            for d in (0..40).rev().map(|k| 1u64 << k) {
                let mut c = calls.clone();
                let mut room = true;
                let mut down = |n: &mut u64| {
                    room &= *n >= d;
                    *n = n.saturating_sub(d);
                };
                for call in &mut c {
                    match call {
                        Call::Write => {}
                        Call::Symbol(s) => down(&mut s.address),
                        Call::Tree(rows) => {
                            for r in rows {
                                down(&mut r.address);
                                r.lines.iter_mut().for_each(|l| down(&mut l.address));
                            }
                        }
                    }
                }
                if room && try_one(c) {
                    break 'search;
                }
            }
            // Without some addresses: what lies above them comes down.
            for from in boundaries(&calls) {
                for d in (0..33).rev().map(|k| 1u64 << k) {
                    if let Some(c) = without(&calls, from, d) {
                        if try_one(c) {
                            break 'search;
                        }
                    }
                }
            }
            for i in 0..calls.len() {
                match &calls[i] {
                    Call::Write => {}
                    Call::Symbol(s) => {
                        for a in lower(s.address) {
                            let mut c = calls.clone();
                            c[i] = Call::Symbol(Sym { address: a, ..s.clone() });
                            if try_one(c) {
                                break 'search;
                            }
                        }
                        for a in lower(s.size) {
                            let mut c = calls.clone();
                            c[i] = Call::Symbol(Sym { size: a, ..s.clone() });
                            if try_one(c) {
                                break 'search;
                            }
                        }
                        if s.name.as_deref().is_some_and(|n| n != b"s") {
                            let mut c = calls.clone();
                            c[i] = Call::Symbol(Sym { name: Some(b"s".to_vec()), ..s.clone() });
                            if try_one(c) {
                                break 'search;
                            }
                        }
                    }
                    Call::Tree(rows) => {
                        // The whole tree lower.
                        for d in (0..40).rev().map(|k| 1u64 << k) {
                            let low = rows
                                .iter()
                                .flat_map(|r| r.lines.iter().map(|l| l.address).chain([r.address]))
                                .min()
                                .unwrap();
                            if low >= d {
                                let mut c = calls.clone();
                                let Call::Tree(t) = &mut c[i] else { unreachable!() };
                                for r in t.iter_mut() {
                                    r.address -= d;
                                    r.lines.iter_mut().for_each(|l| l.address -= d);
                                }
                                if try_one(c) {
                                    break 'search;
                                }
                            }
                        }
                        for k in 0..rows.len() {
                            let row = &rows[k];
                            let mut tries: Vec<Row> = Vec::new();
                            for a in lower(row.address) {
                                tries.push(Row { address: a, ..row.clone() });
                                let end = row.address + row.size;
                                tries.push(Row { address: a, size: end - a, ..row.clone() });
                            }
                            for a in lower(row.size) {
                                tries.push(Row { size: a, ..row.clone() });
                            }
                            // Starting where its first line does.
                            if let Some(l) = row.lines.first() {
                                if l.address > row.address && row.address + row.size >= l.address {
                                    let size = row.address + row.size - l.address;
                                    tries.push(Row { address: l.address, size, ..row.clone() });
                                }
                            }
                            let plain: &[u8] = [&b"r"[..], b"i", b"j", b"k"][k.min(3)];
                            if row.name != plain {
                                tries.push(Row { name: plain.to_vec(), ..row.clone() });
                            }
                            if !row.comp_dir.is_empty() {
                                tries.push(Row { comp_dir: Vec::new(), ..row.clone() });
                            }
                            if row.language != 0 {
                                tries.push(Row { language: 0, ..row.clone() });
                            }
                            for (l, line) in row.lines.iter().enumerate() {
                                let mut line_tries: Vec<Line> = Vec::new();
                                for a in lower(line.address) {
                                    line_tries.push(Line { address: a, ..line.clone() });
                                }
                                if let Some(size) = line.size {
                                    for a in lower(size) {
                                        line_tries.push(Line { size: Some(a), ..line.clone() });
                                    }
                                    // Lower start, same end.
                                    if size > 1 {
                                        line_tries.push(Line {
                                            address: line.address.saturating_add(1),
                                            size: Some(size - 1),
                                            ..line.clone()
                                        });
                                    }
                                } else {
                                    line_tries.push(Line { size: Some(1), ..line.clone() });
                                }
                                for a in lower(line.number) {
                                    line_tries.push(Line { number: a, ..line.clone() });
                                }
                                // Lines told apart by their numbers alone.
                                line_tries.push(Line {
                                    address: line.address,
                                    size: line.size,
                                    number: l as u64,
                                    name: b"f".to_vec(),
                                    ..Line::default()
                                });
                                if line.name != b"f" {
                                    line_tries.push(Line { name: b"f".to_vec(), ..line.clone() });
                                }
                                if !line.dir.is_empty() {
                                    line_tries.push(Line { dir: Vec::new(), ..line.clone() });
                                }
                                if line.srcsrv.iter().any(Option::is_some) {
                                    line_tries
                                        .push(Line { srcsrv: [None, None, None], ..line.clone() });
                                }
                                for t in line_tries {
                                    let mut r = row.clone();
                                    r.lines[l] = t;
                                    tries.push(r);
                                }
                            }
                            for t in tries {
                                let mut c = calls.clone();
                                let Call::Tree(rows) = &mut c[i] else { unreachable!() };
                                rows[k] = t;
                                if try_one(c) {
                                    break 'search;
                                }
                            }
                        }
                    }
                }
            }
        }
        match better {
            Some(b) => calls = b,
            None => return (begin, calls),
        }
    }
}

/// Size of a list, for choosing the smallest counterexample.
pub fn weight(calls: &[Call]) -> usize {
    calls
        .iter()
        .map(|c| match c {
            Call::Write => 1,
            Call::Symbol(_) => 10,
            Call::Tree(t) => t.iter().map(|r| 10 + 5 * r.lines.len()).sum(),
        })
        .sum()
}

/// Every step of shrinking lowers this.
pub fn cost(calls: &[Call]) -> (usize, u128, u128, usize, u128) {
    let (mut sizes, mut addresses, mut numbers, mut texts) = (0u128, 0u128, 0u128, 0usize);
    let plain = |name: &[u8]| usize::from(name.len() != 1) + usize::from(!b"rijksf".contains(&name.first().copied().unwrap_or(0)));
    for call in calls {
        match call {
            Call::Write => {}
            Call::Symbol(s) => {
                sizes += u128::from(s.size);
                addresses += u128::from(s.address);
                texts += plain(s.name.as_deref().unwrap_or(b"s"));
            }
            Call::Tree(rows) => {
                for r in rows {
                    sizes += u128::from(r.size);
                    addresses += u128::from(r.address);
                    texts += plain(&r.name) + r.comp_dir.len() + r.language as usize;
                    for l in &r.lines {
                        sizes += u128::from(l.size.unwrap_or(2));
                        addresses += u128::from(l.address);
                        numbers += u128::from(l.number);
                        texts += plain(&l.name) + l.dir.len() + l.srcsrv.iter().flatten().count();
                    }
                }
            }
        }
    }
    (weight(calls), sizes, addresses, texts, numbers)
}

/// Where anything begins or ends.
fn boundaries(calls: &[Call]) -> std::collections::BTreeSet<u64> {
    let mut out = std::collections::BTreeSet::from([0]);
    let mut add = |address: u64, size: u64| out.extend([address, address.saturating_add(size)]);
    for call in calls {
        match call {
            Call::Write => {}
            Call::Symbol(s) => add(s.address, s.size),
            Call::Tree(rows) => {
                for row in rows {
                    add(row.address, row.size);
                    row.lines.iter().for_each(|l| add(l.address, l.size.unwrap_or(1)));
                }
            }
        }
    }
    out
}

/// The calls without `n` addresses from `from` on; none if something ends past 64 bits.
fn without(calls: &[Call], from: u64, n: u64) -> Option<Vec<Call>> {
    let place = |a: u64| if a <= from { a } else { a.saturating_sub(n).max(from) };
    let extent = |address: &mut u64, size: &mut u64| {
        let end = place(address.checked_add(*size)?);
        *address = place(*address);
        *size = end - *address;
        Some(())
    };
    let mut calls = calls.to_vec();
    for call in &mut calls {
        match call {
            Call::Write => {}
            Call::Symbol(s) => extent(&mut s.address, &mut s.size)?,
            Call::Tree(rows) => {
                for row in rows {
                    extent(&mut row.address, &mut row.size)?;
                    for line in &mut row.lines {
                        match &mut line.size {
                            Some(size) => extent(&mut line.address, size)?,
                            None => line.address = place(line.address),
                        }
                    }
                }
            }
        }
    }
    Some(calls)
}
