//! Files for the reader: damaged ones and random ones.

use crate::answers::file_number;
use crate::claims::take_apart;
use crate::random::*;
use crate::*;

pub fn word(bytes: &[u8], at: usize) -> u32 {
    u32::from_le_bytes(bytes[at..at + 4].try_into().unwrap())
}

pub fn set(bytes: &mut [u8], at: usize, w: u32) {
    if at + 4 <= bytes.len() {
        bytes[at..at + 4].copy_from_slice(&w.to_le_bytes());
    }
}

/// A number near an index, at the end of its table, or far away.
pub fn index(r: &mut Random, count: u32) -> u32 {
    match r.below(8) {
        0 => u32::MAX,
        1 => u32::MAX - 1,
        2 => count,
        3 => count.wrapping_add(1),
        4 => r.next() as u32,
        _ => r.below(u64::from(count) + 1) as u32,
    }
}

pub const DAMAGES: &[&str] = &[
    "counts", "alignment", "variable header", "unordered starts", "callers", "indexes", "text offsets",
    "text bytes", "cut", "appended", "magic and version", "entries and languages", "empty mapping",
];

/// Damages a file that reads. Where its tables lie is taken from `take_apart` of the file before.
pub fn damage(r: &mut Random, kind: usize, bytes: &mut Vec<u8>) {
    let Some(laid) = take_apart(bytes) else { return };
    let (nf, nfun, nloc, nr) = (laid.files.len(), laid.functions.len(), laid.locations.len(), laid.ranges.len());
    let texts = laid.texts.len();
    let functions = 80 + 24 * nf;
    let locations = functions + 16 * nfun;
    let ranges = locations + 16 * nloc;
    let section = laid.end - texts;
    match kind {
        0 => {
            let at = 44 + 4 * r.below(5) as usize;
            let old = word(bytes, at);
            let new = match r.below(8) {
                0 => 0,
                1 => u32::MAX,
                2 => old.wrapping_sub(1),
                3 => 1 << 28,
                4 => r.below(64) as u32,
                _ => old.wrapping_add(1 + r.below(3) as u32),
            };
            set(bytes, at, new);
        }
        1 => {
            let place = *r.pick(&[80, functions, locations, ranges, ranges + 4 * nr, section]);
            for _ in 0..r.within(1, 8) {
                if r.one_in(2) {
                    bytes.insert(place.min(bytes.len()), r.next() as u8);
                } else if place < bytes.len() {
                    bytes.remove(place);
                }
            }
            // Padding may hold anything.
            for at in ranges + 4 * nr..section.min(bytes.len()) {
                bytes[at] = r.next() as u8;
            }
        }
        2 => {
            let new: u16 = *r.pick(&[1, 1, 1, 0, 2, 256, 257, 65535]);
            bytes[64..66].copy_from_slice(&new.to_le_bytes());
            if r.one_in(3) {
                bytes[66 + r.below(14) as usize] = r.next() as u8;
            }
        }
        3 if nr > 0 => {
            let i = r.below(nr as u64) as usize;
            let j = if i + 1 < nr { i + 1 } else { r.below(nr as u64) as usize };
            let (a, b) = (word(bytes, ranges + 4 * i), word(bytes, ranges + 4 * j));
            match r.below(4) {
                0 => set(bytes, ranges + 4 * i, b),
                1 => set(bytes, ranges + 4 * i, index(r, a)),
                _ => {
                    set(bytes, ranges + 4 * i, b);
                    set(bytes, ranges + 4 * j, a);
                }
            }
        }
        4 if nloc > 0 => {
            for _ in 0..r.within(1, 3) {
                let i = r.below(nloc as u64) as usize;
                let new = if r.one_in(4) { i as u32 } else { index(r, nloc as u32) };
                set(bytes, locations + 16 * i + 12, new);
            }
        }
        5 if nloc > 0 => {
            let i = r.below(nloc as u64) as usize;
            if r.one_in(2) {
                let new = index(r, nf as u32);
                set(bytes, locations + 16 * i, new);
            } else {
                let new = index(r, nfun as u32);
                set(bytes, locations + 16 * i + 8, new);
            }
        }
        6 if nf + nfun > 0 => {
            let i = r.below((nf + nfun) as u64) as usize;
            let at = if i < nf { 80 + 24 * i + 4 * r.below(6) as usize } else { functions + 16 * (i - nf) };
            let new = index(r, texts as u32);
            set(bytes, at, new);
        }
        7 if texts > 0 => {
            let at = section + r.below(texts as u64) as usize;
            let new: &[u8] = match r.below(12) {
                0 => b"\x80\x00",
                1 => b"\x81\x80\x00",
                2 => b"\x83\x80\x80\x80\x80\x80\x80\x80\x80\x00",
                3 => b"\x83\x80\x80\x80\x80\x80\x80\x80\x80\x80\x00",
                4 => b"\x82\x80\x80\x80\x80\x80\x80\x80\x80\x02",
                5 => b"\xff\xff\xff\xff\xff\xff\xff\xff\xff\x01",
                6 => b"\x03\xed\xa0\x80",
                7 => b"\x04\xf4\x8f\xbf\xbf",
                8 => b"\x04\xf4\x90\x80\x80",
                9 => b"\x02\xc0\x80",
                10 => b"\x00",
                _ => b"\xff",
            };
            for (i, b) in new.iter().enumerate() {
                if at + i < bytes.len() {
                    bytes[at + i] = *b;
                }
            }
            if nf > 0 && r.one_in(2) {
                let i = r.below(nf as u64) as usize;
                set(bytes, 80 + 24 * i + 4 * r.below(6) as usize, (at - section) as u32);
            } else if nfun > 0 {
                let i = r.below(nfun as u64) as usize;
                set(bytes, functions + 16 * i, (at - section) as u32);
            }
        }
        8 => {
            let n = bytes.len() as u64;
            let keep = match r.below(8) {
                0 => r.below(9),
                1 => r.within(8, 80),
                2 => n - 1,
                3 => section as u64 - r.below(8).min(section as u64),
                _ => r.below(n),
            };
            bytes.truncate(keep as usize);
        }
        9 => {
            for _ in 0..r.within(1, 12) {
                bytes.push(r.next() as u8);
            }
        }
        10 => match r.below(6) {
            0 => bytes[..4].reverse(),
            1 => bytes[r.below(4) as usize] ^= 1 << r.below(8),
            2 => set(bytes, 4, 8),
            3 => set(bytes, 4, 10),
            4 => set(bytes, 4, 9 << 24),
            _ => {
                let new = r.next() as u32;
                set(bytes, 4, new);
            }
        },
        11 if nfun > 0 => {
            let i = r.below(nfun as u64) as usize;
            let entry = if r.one_in(2) { u32::MAX } else { r.next() as u32 };
            set(bytes, functions + 16 * i + 8, entry);
            if r.one_in(2) {
                let language = if r.one_in(2) { r.next() as u32 } else { u32::MAX };
                set(bytes, functions + 16 * i + 12, language);
            }
        }
        12 if nloc > 0 => {
            let at = locations + 16 * r.below(nloc as u64) as usize;
            for k in 0..4 {
                set(bytes, at + 4 * k, u32::MAX);
            }
            if r.one_in(3) {
                set(bytes, at + 4 * r.below(4) as usize, 0);
            }
        }
        _ => {}
    }
}

/// A file that no writer made: small tables of random rows, or nothing but random bytes.
pub fn random_file(r: &mut Random) -> Vec<u8> {
    if r.one_in(8) {
        return (0..r.below(120)).map(|_| r.next() as u8).collect();
    }
    let mut out = b"SYMC\x09\0\0\0".to_vec();
    if r.one_in(12) {
        out.extend((0..r.below(140)).map(|_| r.next() as u8));
        return out;
    }
    let (nf, nfun, nloc) = (r.below(4), r.below(4), r.below(8));
    let nr = r.below(nloc + 1);
    let texts = r.below(48);
    out.extend((0..32).map(|_| r.next() as u8));
    for n in [r.below(8) * 101, nf, nfun, nloc, nr, texts] {
        out.extend((n as u32).to_le_bytes());
    }
    out.extend(if r.one_in(10) { 1u16 } else { r.below(3) as u16 * 2 }.to_le_bytes());
    out.extend((0..14).map(|_| if r.one_in(8) { r.next() as u8 } else { 0 }));
    let rows = nf * 6 + nfun * 4 + nloc * 4;
    for _ in 0..rows {
        let w = match r.below(8) {
            0 => u32::MAX,
            1 => r.next() as u32,
            _ => r.below(12) as u32,
        };
        out.extend(w.to_le_bytes());
    }
    let mut start = r.below(6);
    for _ in 0..nr {
        out.extend((start.min(MAX) as u32).to_le_bytes());
        start += if r.one_in(20) { 0 } else { r.within(1, 9) };
        if r.one_in(20) {
            start += r.below(1 << 32);
        }
    }
    while out.len() % 8 != 0 {
        out.push(r.next() as u8);
    }
    let mut section = Vec::new();
    while (section.len() as u64) < texts {
        let n = r.below(6);
        watto::write_leb128(&mut section, n);
        for _ in 0..n {
            section.push(if r.one_in(6) { r.next() as u8 } else { b'a' + r.below(26) as u8 });
        }
    }
    section.truncate(texts as usize);
    out.extend(section);
    if r.one_in(6) {
        let n = r.below(out.len() as u64);
        out.truncate(n as usize);
    }
    out
}

/// Every start and the address before it, and addresses below, above and past 32 bits.
pub fn boundaries(r: &mut Random, file: &[u8]) -> Vec<u64> {
    if file_number(file).0 != 0 {
        return vec![r.next()];
    }
    let mut at = vec![0, MAX, MAX + 1, u64::MAX];
    for start in take_apart(file).unwrap().ranges {
        let start = u64::from(start);
        at.extend([start, start.saturating_sub(1)]);
        if r.one_in(8) {
            at.push(start + (1 << 32));
        }
    }
    at.sort();
    at.dedup();
    at
}
