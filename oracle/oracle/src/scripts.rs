//! The words of a script. README.md says what they mean.

use crate::*;

pub fn optional(word: &str) -> Result<Option<Vec<u8>>, String> {
    if word == "none" { Ok(None) } else { from_hex(word).map(Some) }
}

pub fn word<'a>(words: &[&'a str], i: usize) -> Result<&'a str, String> {
    words.get(i).copied().ok_or_else(|| "too few words".to_string())
}

pub fn number(words: &[&str], i: usize) -> Result<u64, String> {
    number_word(word(words, i)?)
}

pub fn number32(words: &[&str], i: usize) -> Result<u32, String> {
    number(words, i)?.try_into().map_err(|_| "number above 32 bits".to_string())
}

pub fn switch(words: &[&str], i: usize) -> Result<bool, String> {
    match word(words, i)? {
        "0" => Ok(false),
        "1" => Ok(true),
        w => Err(format!("bad switch {w}")),
    }
}

pub fn row(w: &[&str]) -> Result<Row, String> {
    Ok(Row {
        depth: number32(w, 1)?,
        address: number(w, 2)?,
        size: number(w, 3)?,
        inline: switch(w, 4)?,
        language: number32(w, 5)?,
        name: from_hex(word(w, 6)?)?,
        comp_dir: from_hex(word(w, 7)?)?,
        lines: Vec::new(),
    })
}

pub fn line(w: &[&str]) -> Result<Line, String> {
    Ok(Line {
        address: number(w, 1)?,
        size: if word(w, 2)? == "none" { None } else { Some(number(w, 2)?) },
        number: number(w, 3)?,
        name: from_hex(word(w, 4)?)?,
        dir: from_hex(word(w, 5)?)?,
        srcsrv: [optional(word(w, 6)?)?, optional(word(w, 7)?)?, optional(word(w, 8)?)?],
    })
}

pub fn begin(w: &[&str]) -> Result<Begin, String> {
    let debug_id = from_hex(word(w, 1)?)?;
    Ok(Begin {
        debug_id: debug_id.try_into().map_err(|_| "debug id isn't 32 bytes")?,
        arch: number32(w, 2)?,
        functions: switch(w, 3)?,
        symbols: switch(w, 4)?,
    })
}

pub fn symbol(w: &[&str]) -> Result<Sym, String> {
    Ok(Sym { address: number(w, 1)?, size: number(w, 2)?, name: optional(word(w, 3)?)? })
}

/// The list of calls of a script that has one `begin`, its first command; other commands are passed over.
pub fn list(text: &str) -> Result<(Begin, Vec<Call>), String> {
    let mut begun = None;
    let mut calls = Vec::new();
    let mut tree: Option<Vec<Row>> = None;
    for l in text.lines() {
        let words: Vec<&str> = l.split_ascii_whitespace().collect();
        match words.first() {
            Some(&"begin") => begun = Some(begin(&words)?),
            Some(&"tree") => tree = Some(Vec::new()),
            Some(&"f") => tree.as_mut().ok_or("f outside a tree")?.push(row(&words)?),
            Some(&"l") => {
                let rows = tree.as_mut().ok_or("l outside a tree")?;
                rows.last_mut().ok_or("line row before any function row")?.lines.push(line(&words)?);
            }
            Some(&"end") => calls.push(Call::Tree(tree.take().ok_or("end outside a tree")?)),
            Some(&"symbol") => calls.push(Call::Symbol(symbol(&words)?)),
            Some(&"write") => calls.push(Call::Write),
            _ => {}
        }
    }
    Ok((begun.ok_or("no begin")?, calls))
}
