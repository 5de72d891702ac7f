//! Reads include/symcache.h, where the C functions are declared by hand: its numbers, indices, structs
//! and functions, with Rust's types. build.rs writes the declarations of src/ffi.rs from it, and
//! tests/header.rs compares it with the library's source. It panics at what it can't read.

#[derive(Default)]
pub struct Header {
    /// `#define NAME 7u`.
    pub numbers: Vec<(String, u32)>,
    /// The members of the enums.
    pub indices: Vec<(String, u32)>,
    /// Names and fields.
    pub structs: Vec<(String, Vec<Typed>)>,
    pub functions: Vec<Function>,
}

#[derive(Debug, PartialEq, Eq)]
pub struct Function {
    pub name: String,
    pub parameters: Vec<Typed>,
    /// The type of its answer, in Rust.
    pub answer: String,
}

/// A name and its type in Rust.
#[derive(Debug, PartialEq, Eq)]
pub struct Typed(pub String, pub String);

impl Header {
    pub fn read(text: &str) -> Header {
        let mut header = Header::default();
        let mut item = String::new();
        let mut for_c = true;
        for line in without_comments(text).lines().map(str::trim) {
            if let Some(directive) = line.strip_prefix('#') {
                for_c = match directive {
                    "ifdef __cplusplus" => false,
                    "else" | "endif" => true,
                    _ => for_c,
                };
                header.define(directive);
            } else if for_c && !line.is_empty() {
                item.push_str(line);
                item.push(' ');
                // A function with a body ends with its brace, anything else with a semicolon.
                let inline = item.starts_with("static inline");
                let open = item.matches('{').count() > item.matches('}').count();
                if !open && line.ends_with(if inline { '}' } else { ';' }) {
                    header.item(item.trim());
                    item.clear();
                }
            }
        }
        assert_eq!(item.trim(), "", "an item without an end");
        header
    }

    fn define(&mut self, directive: &str) {
        let words: Vec<&str> = directive.split_whitespace().collect();
        if let ["define", name, value] = words[..] {
            if name != "SYMCACHE_RESTRICT" {
                self.numbers.push((name.to_string(), number(value)));
            }
        }
    }

    fn item(&mut self, item: &str) {
        if item.starts_with("static inline") {
            return;
        }
        if let Some(members) = between(item, "enum {", "};") {
            let mut next = 0;
            for member in parts(members, ',') {
                let (name, value) = member
                    .split_once(" = ")
                    .map_or((member, next), |(name, value)| (name, number(value)));
                self.indices.push((name.to_string(), value));
                next = value + 1;
            }
        } else if let Some(rest) = between(item, "struct ", "};") {
            let (name, fields) = rest.split_once(" {").expect(item);
            self.structs
                .push((name.to_string(), parts(fields, ';').map(typed).collect()));
        } else {
            let (declared, parameters) = item.split_once('(').expect(item);
            let parameters = parameters.strip_suffix(");").expect(item);
            let Typed(name, answer) = typed(declared);
            self.functions.push(Function {
                name,
                parameters: parts(parameters, ',').map(typed).collect(),
                answer,
            });
        }
    }

    /// The same declarations in Rust.
    pub fn to_rust(&self) -> String {
        let mut out = String::new();
        for (name, value) in &self.numbers {
            out += &format!("pub const {name}: u32 = {value};\n");
        }
        out += &format!("pub const NUMBERS: &[(&str, u32)] = &{:?};\n", self.numbers);
        for (name, value) in &self.indices {
            out += &format!("pub const {name}: usize = {value};\n");
        }
        let list = |each: &[Typed], word: &str| {
            each.iter()
                .map(|Typed(name, rust)| format!("    {word}{name}: {rust},\n"))
                .collect::<String>()
        };
        for (name, fields) in &self.structs {
            out += &format!(
                "#[repr(C)]\npub struct {name} {{\n{}}}\n",
                list(fields, "pub ")
            );
        }
        out += "extern \"C\" {\n";
        for function in &self.functions {
            let Function { name, answer, .. } = function;
            let parameters = list(&function.parameters, "");
            out += &format!("pub fn {name}(\n{parameters}) -> {answer};\n");
        }
        out + "}\n"
    }
}

fn without_comments(text: &str) -> String {
    let mut parts = text.split("/*");
    let mut out = parts.next().unwrap().to_string();
    for part in parts {
        out += part.split_once("*/").expect("a comment without an end").1;
    }
    out
}

fn between<'a>(text: &'a str, first: &str, last: &str) -> Option<&'a str> {
    text.strip_prefix(first)?.strip_suffix(last)
}

fn parts(text: &str, at: char) -> impl Iterator<Item = &str> {
    text.split(at)
        .map(str::trim)
        .filter(|part| !part.is_empty())
}

fn number(text: &str) -> u32 {
    let digits = between(text, "UINT32_C(", ")")
        .unwrap_or(text)
        .trim_end_matches('u');
    let value = match digits.strip_prefix("0x") {
        Some(digits) => u32::from_str_radix(digits, 16),
        None => digits.parse(),
    };
    value.unwrap_or_else(|_| panic!("not a number: {text}"))
}

/// `const uint8_t *SYMCACHE_RESTRICT bytes`, `uint32_t arch`, and the like.
fn typed(text: &str) -> Typed {
    let words: Vec<&str> = text
        .split_whitespace()
        .filter(|word| *word != "struct")
        .collect();
    let (kind, c, name) = match words[..] {
        ["const", c, "*SYMCACHE_RESTRICT", name] => ("*const ", c, name),
        [c, "*SYMCACHE_RESTRICT", name] => ("*mut ", c, name),
        [c, name] => ("", c, name),
        _ => panic!("not a type and a name: {text}"),
    };
    let rust = match c {
        "uint8_t" => "u8",
        "uint32_t" => "u32",
        "uint64_t" => "u64",
        "size_t" => "usize",
        "bool" => "bool",
        _ if c.starts_with("symcache_") => c,
        _ => panic!("not a type: {text}"),
    };
    Typed(name.to_string(), format!("{kind}{rust}"))
}
