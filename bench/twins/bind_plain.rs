//! The plain twin of `cpe bind fs` and `cpe bind uri`, under the word `fs` or `uri`: the same
//! answers from safe Rust with std alone and no proof, written for its reader first. A line
//! becomes eleven owned values, and these are printed.
use std::io::{self, BufRead, BufReader, BufWriter, Write};
use std::process::ExitCode;

/// The most bytes of a line before its newline.
const LONGEST: usize = 65_536;

const NAMES: [&str; 11] = [
    "part",
    "vendor",
    "product",
    "version",
    "update",
    "edition",
    "language",
    "sw_edition",
    "target_sw",
    "target_hw",
    "other",
];

#[derive(Default)]
enum Value {
    #[default]
    Any,
    Na,
    /// The text as a formatted string spells it, wildcards and backslashes included.
    Text(String),
}

/// What is still to be read. A call that answers None found what no well-formed name has there.
struct Reader<'a> {
    rest: &'a [u8],
}

impl Reader<'_> {
    fn eat(&mut self, want: &[u8]) -> bool {
        let found = self.rest.strip_prefix(want);
        self.rest = found.unwrap_or(self.rest);
        found.is_some()
    }

    fn need(&mut self, want: &[u8]) -> Option<()> {
        self.eat(want).then_some(())
    }

    /// `wfn:[`, attributes with commas between them, and `]`. One that is left out is ANY.
    fn name(&mut self) -> Option<[Value; 11]> {
        let mut values = [const { None }; 11];
        self.need(b"wfn:[")?;
        if !self.eat(b"]") {
            self.attribute(&mut values)?;
            while self.eat(b",") {
                while self.eat(b" ") {}
                self.attribute(&mut values)?;
            }
            self.need(b"]")?;
        }
        let is_whole = self.rest.is_empty();
        is_whole.then(|| values.map(Option::unwrap_or_default))
    }

    /// An attribute that isn't there yet, with a value that it can have.
    fn attribute(&mut self, values: &mut [Option<Value>; 11]) -> Option<()> {
        let end = self.rest.iter().position(|&c| c == b'=')?;
        let (name, rest) = self.rest.split_at(end);
        let number = NAMES.iter().position(|it| it.as_bytes() == name)?;
        self.rest = &rest[1..];
        let value = self.value()?;
        let fits = match (NAMES[number], &value) {
            ("part", Value::Text(text)) => matches!(text.as_str(), "a" | "h" | "o"),
            ("language", Value::Text(text)) => is_language(text),
            _ => true,
        };
        let is_new = values[number].replace(value).is_none();
        (fits && is_new).then_some(())
    }

    /// `ANY`, `NA`, or a text between double quotes.
    fn value(&mut self) -> Option<Value> {
        if self.eat(b"ANY") {
            return Some(Value::Any);
        }
        if self.eat(b"NA") {
            return Some(Value::Na);
        }
        self.need(b"\"")?;
        let text = self.text()?;
        self.need(b"\"")?;
        Some(Value::Text(text))
    }

    /// Wildcards before it, its body, wildcards after it.
    fn text(&mut self) -> Option<String> {
        let mut out = String::new();
        self.wildcards(&mut out);
        self.body(&mut out)?;
        self.wildcards(&mut out);
        // (a formatted string has no hyphen alone, which is NA there)
        (out != "-").then_some(out)
    }

    fn wildcards(&mut self, out: &mut String) {
        if self.eat(b"*") {
            out.push('*');
            return;
        }
        while self.eat(b"?") {
            out.push('?');
        }
    }

    /// One character or more, each as a formatted string quotes it.
    fn body(&mut self, out: &mut String) -> Option<()> {
        let start = out.len();
        loop {
            self.rest = match self.rest {
                [c, rest @ ..] if c.is_ascii_alphanumeric() || *c == b'_' => {
                    out.push(*c as char);
                    rest
                }
                [b'\\', c @ (b'.' | b'-'), rest @ ..] => {
                    out.push(*c as char);
                    rest
                }
                [b'\\', c, rest @ ..] if c.is_ascii_punctuation() && *c != b'_' => {
                    out.push('\\');
                    out.push(*c as char);
                    rest
                }
                _ => break,
            };
        }
        (out.len() > start).then_some(())
    }
}

/// Two or three letters, perhaps with a region.
fn is_language(text: &str) -> bool {
    let (letters, region) = match text.split_once('-') {
        Some((letters, region)) => (letters, Some(region)),
        None => (text, None),
    };
    matches!(letters.len(), 2 | 3)
        && letters.bytes().all(|c| c.is_ascii_alphabetic())
        && region.map_or(true, is_region)
}

/// Two letters or three digits.
fn is_region(text: &str) -> bool {
    match text.len() {
        2 => text.bytes().all(|c| c.is_ascii_alphabetic()),
        3 => text.bytes().all(|c| c.is_ascii_digit()),
        _ => false,
    }
}

fn write_fs(out: &mut impl Write, values: &[Value]) -> io::Result<()> {
    write!(out, "cpe:2.3")?;
    for value in values {
        match value {
            Value::Any => write!(out, ":*")?,
            Value::Na => write!(out, ":-")?,
            Value::Text(text) => write!(out, ":{text}")?,
        }
    }
    writeln!(out)
}

/// A value as a URI has it.
fn component(value: &Value) -> String {
    match value {
        Value::Any => String::new(),
        Value::Na => "-".to_string(),
        Value::Text(text) => percent_forms(text),
    }
}

/// The text with percent forms for its wildcards, and for each character after a backslash.
fn percent_forms(text: &str) -> String {
    let mut out = String::new();
    let mut chars = text.chars();
    while let Some(c) = chars.next() {
        match c {
            '?' => out.push_str("%01"),
            '*' => out.push_str("%02"),
            '\\' => out.extend(chars.next().map(|c| format!("%{:02x}", u32::from(c)))),
            _ => out.push(c),
        }
    }
    out
}

/// The edition, packed with the four values that URIs have no component for unless all are ANY.
fn edition(values: &[Value]) -> String {
    let (edition, others) = (&values[5], &values[7..]);
    if others.iter().all(|it| matches!(it, Value::Any)) {
        return component(edition);
    }
    let packed = [edition].into_iter().chain(others);
    packed.map(|it| format!("~{}", component(it))).collect()
}

fn write_uri(out: &mut impl Write, values: &[Value]) -> io::Result<()> {
    let mut components: Vec<String> = values[..7].iter().map(component).collect();
    components[5] = edition(values);
    let joined = components.join(":");
    writeln!(out, "cpe:/{}", joined.trim_end_matches(':'))
}

/// Answers the line of this number, without its newline; tells whether it was refused.
fn answer(out: &mut impl Write, to_uri: bool, number: u64, line: &[u8]) -> io::Result<bool> {
    let text = line.strip_suffix(b"\r").unwrap_or(line);
    if line.len() > LONGEST {
        writeln!(out, "refused {number} long")?;
    } else if text.is_empty() {
        return Ok(false);
    } else if let Some(values) = (Reader { rest: text }).name() {
        if to_uri {
            write_uri(out, &values)?;
        } else {
            write_fs(out, &values)?;
        }
        return Ok(false);
    } else {
        writeln!(out, "refused {number} wfn")?;
    }
    Ok(true)
}

fn main() -> io::Result<ExitCode> {
    let to_uri = std::env::args().nth(1).is_some_and(|word| word == "uri");
    let mut input = BufReader::with_capacity(1 << 16, io::stdin().lock());
    let mut output = BufWriter::with_capacity(1 << 16, io::stdout().lock());
    let (mut line, mut number, mut refused) = (Vec::new(), 0, false);
    while input.read_until(b'\n', &mut line)? > 0 {
        number += 1;
        let text = line.strip_suffix(b"\n").unwrap_or(&line);
        refused |= answer(&mut output, to_uri, number, text)?;
        line.clear();
    }
    output.flush()?;
    Ok(ExitCode::from(u8::from(refused)))
}
