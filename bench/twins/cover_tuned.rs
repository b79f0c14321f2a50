//! The tuned twin of `cpe cover`: the same answers from safe Rust with std alone and no proof, written for
//! speed. A name becomes its formatted string in lower case; these stand one after the other in one block,
//! and hash maps find one by its string, and those of a product by the hash of it. A name without specials
//! is asked of the strings that it has with `*` where names of other shapes have it; one with a special goes
//! over the names of the products that its own matches.
mod reading_tuned;

use reading_tuned::{KEYS, unbind};
use std::borrow::Cow;
use std::collections::HashMap;
use std::hash::{BuildHasherDefault, Hasher};
use std::io::{self, Read, Write};
use std::ops::Range;
use std::process::ExitCode;

/// The most bytes of a line before its newline.
const LONGEST: usize = 65_536;

/// The most names, and what all of them may weigh.
const MOST_NAMES: usize = 1_000_000;
const MOST_WEIGHT: usize = 536_870_912;

/// The place of the product among the components of a name.
const PRODUCT: usize = 2;

// ---- names

/// Puts the value of a text of a name, at its place `i`, as a formatted string has it; gives where it ends.
fn put_component(text: &[u8], mut i: usize, out: &mut Vec<u8>) -> usize {
    match text[i] {
        b'A' => out.push(b'*'),
        b'N' => out.push(b'-'),
        _ => {
            i += 1;
            while text[i] != b'"' {
                if text[i] == b'\\' {
                    i += usize::from(matches!(text[i + 1], b'.' | b'-'));
                    if text[i] == b'\\' {
                        out.push(b'\\');
                        i += 1;
                    }
                }
                out.push(text[i].to_ascii_lowercase());
                i += 1;
            }
            return i + 1;
        }
    }
    i + if text[i] == b'A' { 3 } else { 2 }
}

/// Where the eleven components of a formatted string end.
fn ends_of(name: &[u8]) -> [u32; 11] {
    let (mut ends, mut at, mut i) = ([0; 11], 0, 8);
    while i < name.len() {
        match name[i] {
            b'\\' => i += 1,
            b':' => {
                ends[at] = i as u32;
                at += 1;
            }
            _ => {}
        }
        i += 1;
    }
    ends[10] = name.len() as u32;
    ends
}

/// The component of this number.
fn component<'a>(name: &'a [u8], ends: &[u32; 11], n: usize) -> &'a [u8] {
    let start = if n == 0 { 8 } else { ends[n - 1] as usize + 1 };
    &name[start..ends[n] as usize]
}

fn is_any(text: &[u8]) -> bool {
    text == b"*"
}

/// Where the body of a component stands between its specials.
fn body_of(text: &[u8]) -> Range<usize> {
    let is_special = |c: &u8| matches!(c, b'*' | b'?');
    let low = text.iter().position(|c| !is_special(c)).unwrap_or(text.len());
    let mut high = low;
    while high < text.len() && !is_special(&text[high]) {
        high += 1 + usize::from(text[high] == b'\\');
    }
    low..high
}

fn is_pattern(text: &[u8]) -> bool {
    text.iter().any(|c| matches!(c, b'*' | b'?')) && !is_any(text) && body_of(text) != (0..text.len())
}

/// A component without its backslashes.
fn unquoted(text: &[u8]) -> Cow<'_, [u8]> {
    if !text.contains(&b'\\') {
        return Cow::Borrowed(text);
    }
    let mut plain = Vec::new();
    let mut i = 0;
    while i < text.len() {
        i += usize::from(text[i] == b'\\');
        plain.push(text[i]);
        i += 1;
    }
    Cow::Owned(plain)
}

fn most(specials: &[u8]) -> usize {
    if specials == b"*" { usize::MAX } else { specials.len() }
}

/// Whether the pattern, a component with a special, matches a component without one.
fn matches(pattern: &[u8], text: &[u8]) -> bool {
    if matches!(text, b"*" | b"-") {
        return false;
    }
    let body = body_of(pattern);
    let (before, behind) = (most(&pattern[..body.start]), most(&pattern[body.end..]));
    let (body, text) = (unquoted(&pattern[body]), unquoted(text));
    let Some(room) = text.len().checked_sub(body.len()) else {
        return false;
    };
    let (first, last) = (room - room.min(behind), room.min(before));
    (first..=last).any(|at| text[at..at + body.len()] == *body)
}

/// Whether a component with a special, `*`, `-` or a text covers a component without specials.
fn is_above(source: &[u8], target: &[u8]) -> bool {
    is_any(source) || source == target || (is_pattern(source) && matches(source, target))
}

/// A hash over eight bytes at a time.
fn hash_of(bytes: &[u8]) -> u64 {
    let mut hash = 0_u64;
    for piece in bytes.chunks(8) {
        let mut eight = [0; 8];
        eight[..piece.len()].copy_from_slice(piece);
        hash = (hash.rotate_left(5) ^ u64::from_le_bytes(eight)).wrapping_mul(0x9e37_79b9_7f4a_7c15);
    }
    hash ^ (hash >> 32)
}

/// The hash of what is a hash already.
#[derive(Default)]
struct Hashed(u64);

impl Hasher for Hashed {
    fn finish(&self) -> u64 {
        self.0
    }

    fn write(&mut self, _: &[u8]) {}

    fn write_u64(&mut self, hash: u64) {
        self.0 = hash;
    }
}

type ByHash<T> = HashMap<u64, T, BuildHasherDefault<Hashed>>;

/// What is kept of a name: where its string ends, its components, and whether it has a special.
struct Row {
    end: usize,
    ends: [u32; 11],
    has_special: bool,
}

enum Refusal {
    For(&'static [u8]),
    NoName(usize),
}

#[derive(Default)]
struct Names {
    texts: Vec<u8>,
    rows: Vec<Row>,
    weight: usize,
    /// The numbers of names by the hash of their strings, and of those without specials by that of their products.
    by_name: ByHash<Vec<u32>>,
    by_product: ByHash<Vec<u32>>,
    /// Buffers that stay from line to line.
    wfn: Vec<u8>,
    name: Vec<u8>,
}

impl Names {
    fn text(&self, n: usize) -> &[u8] {
        let start = if n == 0 { 0 } else { self.rows[n - 1].end };
        &self.texts[start..self.rows[n].end]
    }

    fn component(&self, n: usize, at: usize) -> &[u8] {
        component(self.text(n), &self.rows[n].ends, at)
    }

    fn find(&self, name: &[u8]) -> Option<usize> {
        let found = self.by_name.get(&hash_of(name))?;
        found.iter().map(|&it| it as usize).find(|&it| self.text(it) == name)
    }

    /// Reads the name of a line into the buffer.
    fn read(&mut self, text: &[u8]) -> Result<(), Refusal> {
        self.wfn.clear();
        self.name.clear();
        unbind(text, &mut self.wfn).map_err(Refusal::NoName)?;
        if text[4] == b'/' {
            self.name.extend_from_slice(b"cpe:2.3");
            let mut i = 0;
            for key in KEYS {
                self.name.push(b':');
                i = put_component(&self.wfn, i + key.len(), &mut self.name);
            }
        } else {
            self.name.extend_from_slice(text);
            self.name.make_ascii_lowercase();
        }
        Ok(())
    }

    fn add(&mut self, text: &[u8]) -> Result<(), Refusal> {
        self.read(text)?;
        if self.find(&self.name).is_some() {
            return Ok(());
        }
        let weight = self.weight + 32 + self.name.len();
        if self.rows.len() >= MOST_NAMES {
            return Err(Refusal::For(b"full names"));
        }
        if weight > MOST_WEIGHT {
            return Err(Refusal::For(b"full weight"));
        }
        let (number, ends) = (self.rows.len() as u32, ends_of(&self.name));
        let has_special =
            self.name.iter().any(|c| matches!(c, b'*' | b'?')) && (0..11).any(|n| is_pattern(component(&self.name, &ends, n)));
        self.by_name.entry(hash_of(&self.name)).or_default().push(number);
        if !has_special {
            let product = hash_of(component(&self.name, &ends, PRODUCT));
            self.by_product.entry(product).or_default().push(number);
        }
        self.texts.extend_from_slice(&self.name);
        self.rows.push(Row { end: self.texts.len(), ends, has_special });
        self.weight = weight;
        Ok(())
    }

    fn covers(&self, source: usize, target: usize) -> bool {
        (0..11).all(|at| is_above(self.component(source, at), self.component(target, at)))
    }

    /// The attributes at which a name is ANY, a bit for each.
    fn shape(&self, n: usize) -> u16 {
        (0..11).filter(|&at| is_any(self.component(n, at))).map(|at| 1 << at).sum()
    }

    /// Marks what the name of this number covers, which has a special.
    fn mark(&self, source: usize, marks: &mut [bool]) {
        let product = self.component(source, PRODUCT);
        let is_one = !is_any(product) && !is_pattern(product);
        let one = is_one.then(|| self.by_product.get(&hash_of(product)).into_iter());
        let all = (!is_one).then(|| self.by_product.values());
        for numbers in one.into_iter().flatten().chain(all.into_iter().flatten()) {
            if !is_above(product, self.component(numbers[0] as usize, PRODUCT)) {
                continue;
            }
            for &n in numbers {
                let n = n as usize;
                marks[n] = marks[n] || self.covers(source, n);
            }
        }
    }

    /// Whether the name is there with `*` at the attributes of some wider shape.
    fn is_under(&self, n: usize, shapes: &[u16], wide: &mut Vec<u8>) -> bool {
        let own = self.shape(n);
        shapes.iter().filter(|&&it| it & own == own && it != own).any(|&it| {
            wide.clear();
            wide.extend_from_slice(b"cpe:2.3");
            for at in 0..11 {
                wide.push(b':');
                wide.extend_from_slice(if it >> at & 1 == 1 { b"*" } else { self.component(n, at) });
            }
            self.find(wide).is_some()
        })
    }

    fn put_cover(&self, out: &mut Vec<u8>) {
        let mut marks = vec![false; self.rows.len()];
        let mut is_shape = vec![false; 1 << 11];
        for n in 0..self.rows.len() {
            if self.rows[n].has_special {
                self.mark(n, &mut marks);
            } else {
                is_shape[self.shape(n) as usize] = true;
            }
        }
        let shapes: Vec<u16> = (0..1 << 11).filter(|&it| is_shape[it as usize]).collect();
        let mut wide = Vec::new();
        let mut found: Vec<&[u8]> = (0..self.rows.len())
            .filter(|&n| !marks[n] && (self.rows[n].has_special || !self.is_under(n, &shapes, &mut wide)))
            .map(|n| self.text(n))
            .collect();
        found.sort_unstable();
        for name in found {
            out.extend_from_slice(name);
            out.push(b'\n');
        }
    }
}

// ---- lines

fn decimal(out: &mut Vec<u8>, number: u64) {
    let (mut digits, mut first, mut rest) = ([0; 20], 20, number);
    loop {
        first -= 1;
        digits[first] = b'0' + (rest % 10) as u8;
        rest /= 10;
        if rest == 0 {
            break;
        }
    }
    out.extend_from_slice(&digits[first..]);
}

fn refuse(out: &mut Vec<u8>, number: u64, reason: &Refusal) {
    out.extend_from_slice(b"refused ");
    decimal(out, number);
    out.push(b' ');
    match reason {
        Refusal::For(words) => out.extend_from_slice(words),
        Refusal::NoName(place) => {
            out.extend_from_slice(b"name ");
            decimal(out, *place as u64);
        }
    }
    out.push(b'\n');
}

/// Takes the line of this number, without its newline; tells whether it was refused.
fn answer(names: &mut Names, out: &mut Vec<u8>, number: u64, line: &[u8]) -> bool {
    let text = line.strip_suffix(b"\r").unwrap_or(line);
    if text.is_empty() {
        return false;
    }
    let Err(reason) = names.add(text) else {
        return false;
    };
    refuse(out, number, &reason);
    true
}

fn main() -> io::Result<ExitCode> {
    let (mut input, mut output) = (io::stdin().lock(), io::stdout().lock());
    let mut block = vec![0; 1 << 17];
    let mut out = Vec::with_capacity(1 << 18);
    let mut names = Names::default();
    // A long line is dropped as it comes, up to its newline or the end of input.
    let (mut have, mut number, mut refused, mut is_long) = (0, 0, false, false);
    loop {
        let got = input.read(&mut block[have..])?;
        have += got;
        let mut start = 0;
        while start < have || (is_long && got == 0) {
            let rest = &block[start..have];
            let (len, next) = match rest.iter().position(|&c| c == b'\n') {
                Some(k) => (k, k + 1),
                None if got == 0 => (rest.len(), rest.len()),
                None => break,
            };
            start += next;
            number += 1;
            if is_long || len > LONGEST {
                is_long = false;
                refused = true;
                refuse(&mut out, number, &Refusal::For(b"long"));
            } else {
                refused |= answer(&mut names, &mut out, number, &rest[..len]);
            }
            if out.len() >= 1 << 16 {
                output.write_all(&out)?;
                out.clear();
            }
        }
        if got == 0 {
            break;
        }
        block.copy_within(start..have, 0);
        have -= start;
        if have > LONGEST {
            is_long = true;
            have = 0;
        }
    }
    names.put_cover(&mut out);
    output.write_all(&out)?;
    output.flush()?;
    Ok(ExitCode::from(u8::from(refused)))
}
