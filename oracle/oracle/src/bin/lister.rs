//! The lister of document 01 over the original, for `listers` to be timed beside the proved one: cache.sym and standard input, both buffered.

use std::io::{self, BufRead, BufWriter, Write};

use oracle::*;

/// A line of 1 to 16 hexadecimal digits.
fn address(line: &[u8]) -> Option<u64> {
    if line.is_empty() || line.len() > 16 || !line.iter().all(u8::is_ascii_hexdigit) {
        return None;
    }
    u64::from_str_radix(std::str::from_utf8(line).ok()?, 16).ok()
}

fn list(cache: &SymCache<'_>, address: u64, out: &mut impl Write) -> io::Result<()> {
    let mut none = true;
    for (i, [location, function, line, file]) in cache.locations(address).enumerate() {
        none = false;
        writeln!(out, "{address:016X} {i:08X} {location:08X} {function:08X} {line:08X} {file:08X}")?;
    }
    if none {
        writeln!(out, "{address:016X} FFFFFFFF")?;
    }
    Ok(())
}

fn main() -> io::Result<()> {
    let file = Aligned::new(&std::fs::read("cache.sym")?);
    let cache = SymCache::parse(file.bytes()).expect("a cache");
    let mut input = io::stdin().lock();
    let mut out = BufWriter::with_capacity(65_536, io::stdout().lock());
    let mut line = Vec::new();
    let mut number: u32 = 0;
    while input.read_until(b'\n', &mut line)? > 0 {
        number = number.wrapping_add(1);
        match address(line.strip_suffix(b"\n").unwrap_or(&line)) {
            Some(address) => list(&cache, address, &mut out)?,
            None => writeln!(out, "? {number:08X}")?,
        }
        line.clear();
    }
    out.flush()
}
