//! The tuned twin of `cpe compare`: the same answers from safe Rust with std alone and no
//! proof, written for speed. Both names are put as texts in lower case into buffers that stay,
//! and their values compared there; a body is searched for by the standard library, whose time
//! is linear.
mod reading_tuned;

use reading_tuned::{KEYS, unbind};
use std::io::{self, Read, Write};
use std::process::ExitCode;

/// The most bytes of a line before its newline.
const LONGEST: usize = 65_536;

const WORDS: [&[u8]; 5] = [b" DISJOINT", b" EQUAL", b" SUBSET", b" SUPERSET", b" UNDEFINED"];

/// Places in `WORDS`.
const DISJOINT: usize = 0;
const EQUAL: usize = 1;
const SUBSET: usize = 2;
const SUPERSET: usize = 3;
const UNDEFINED: usize = 4;

/// Buffers that stay from line to line: the texts of the two names, and two texts without backslashes.
#[derive(Default)]
struct Pair {
    source: Vec<u8>,
    target: Vec<u8>,
    body: String,
    text: String,
}

/// Where the value that stands at `i` ends.
fn value_end(s: &[u8], i: usize) -> usize {
    match s[i] {
        b'a' => i + 3,
        b'n' => i + 2,
        _ => {
            let mut end = i + 1;
            while s[end] != b'"' {
                end += 1 + usize::from(s[end] == b'\\');
            }
            end + 1
        }
    }
}

fn is_special(c: u8) -> bool {
    c == b'*' || c == b'?'
}

/// Where the body of a text between quotes begins and ends.
fn edges(s: &[u8]) -> (usize, usize) {
    let mut low = 1;
    while is_special(s[low]) {
        low += 1;
    }
    let mut high = low;
    while high < s.len() - 1 && !is_special(s[high]) {
        high += 1 + usize::from(s[high] == b'\\');
    }
    (low, high)
}

/// Puts characters without their backslashes.
fn unquote(s: &[u8], out: &mut String) {
    out.clear();
    let mut i = 0;
    while i < s.len() {
        i += usize::from(s[i] == b'\\');
        out.push(char::from(s[i]));
        i += 1;
    }
}

/// How many characters specials allow, of so many.
fn most(specials: &[u8], room: usize) -> usize {
    match specials {
        b"*" => room,
        _ => room.min(specials.len()),
    }
}

/// Whether a text with specials between quotes matches a plain one.
fn matches(source: &[u8], (low, high): (usize, usize), target: &[u8], body: &mut String, text: &mut String) -> bool {
    unquote(&source[low..high], body);
    unquote(&target[1..target.len() - 1], text);
    if text.len() < body.len() {
        return false;
    }
    let room = text.len() - body.len();
    let last = most(&source[1..low], room);
    let first = room - most(&source[high..source.len() - 1], room);
    first <= last && text[first..last + body.len()].contains(body.as_str())
}

/// The place of a relation in `WORDS`. Values are as the text of a name has them, in lower case.
fn relation(source: &[u8], target: &[u8], body: &mut String, text: &mut String) -> usize {
    match (source[0], target[0]) {
        (_, b'"') => {
            if edges(target) != (1, target.len() - 1) {
                return UNDEFINED;
            }
            match source[0] {
                b'a' => return SUPERSET,
                b'n' => return DISJOINT,
                _ => {}
            }
            let around = edges(source);
            if around == (1, source.len() - 1) {
                return if source == target { EQUAL } else { DISJOINT };
            }
            if matches(source, around, target, body, text) { SUPERSET } else { DISJOINT }
        }
        (a, b) if a == b => EQUAL,
        (b'a', _) => SUPERSET,
        (_, b'a') => SUBSET,
        _ => DISJOINT,
    }
}

/// The place of the relation of names whose attributes have these relations, a bit each.
fn summed(seen: u8) -> usize {
    match seen {
        _ if seen & (1 << DISJOINT) != 0 => DISJOINT,
        _ if seen == 1 << EQUAL => EQUAL,
        _ if seen & !(1 << EQUAL) == 1 << SUBSET => SUBSET,
        _ if seen & !(1 << EQUAL) == 1 << SUPERSET => SUPERSET,
        _ => UNDEFINED,
    }
}

/// Puts the relations of the names in the buffers.
fn put_relations(pair: &mut Pair, out: &mut Vec<u8>) {
    let Pair { source, target, body, text } = pair;
    source.make_ascii_lowercase();
    target.make_ascii_lowercase();
    let (mut i, mut j, mut seen, mut found) = (0, 0, 0, [0; 11]);
    for (key, place) in KEYS.iter().zip(&mut found) {
        let (a, b) = (i + key.len(), j + key.len());
        i = value_end(source, a);
        j = value_end(target, b);
        *place = relation(&source[a..i], &target[b..j], body, text);
        seen |= 1 << *place;
    }
    out.extend_from_slice(&WORDS[summed(seen)][1..]);
    for place in found {
        out.extend_from_slice(WORDS[place]);
    }
    out.push(b'\n');
}

/// The reason and perhaps the place of a line that is refused.
type Refusal = (&'static [u8], Option<usize>);

fn compare(pair: &mut Pair, line: &[u8], out: &mut Vec<u8>) -> Result<(), Refusal> {
    let space = |s: &[u8]| s.iter().position(|&c| c == b' ');
    let at = space(line).ok_or((&b" pair"[..], None))?;
    let (source, target) = (&line[..at], &line[at + 1..]);
    if space(target).is_some() {
        return Err((b" pair", None));
    }
    pair.source.clear();
    pair.target.clear();
    unbind(source, &mut pair.source).map_err(|place| (&b" source "[..], Some(place)))?;
    unbind(target, &mut pair.target).map_err(|place| (&b" target "[..], Some(place)))?;
    put_relations(pair, out);
    Ok(())
}

fn decimal(out: &mut Vec<u8>, number: u64) {
    let (mut digits, mut first, mut rest) = ([0; 20], 20, number);
    loop {
        first -= 1;
        digits[first] = b'0' + (rest % 10) as u8;
        rest /= 10;
        if rest == 0 {
            break;
        }
    }
    out.extend_from_slice(&digits[first..]);
}

fn refuse(out: &mut Vec<u8>, number: u64, reason: &[u8]) {
    out.extend_from_slice(b"refused ");
    decimal(out, number);
    out.extend_from_slice(reason);
}

/// Answers the line of this number, without its newline; tells whether it was refused.
fn answer(pair: &mut Pair, out: &mut Vec<u8>, number: u64, line: &[u8]) -> bool {
    let text = line.strip_suffix(b"\r").unwrap_or(line);
    if text.is_empty() {
        return false;
    }
    let Err((reason, place)) = compare(pair, text, out) else {
        return false;
    };
    refuse(out, number, reason);
    if let Some(place) = place {
        decimal(out, place as u64);
    }
    out.push(b'\n');
    true
}

fn main() -> io::Result<ExitCode> {
    let (mut input, mut output) = (io::stdin().lock(), io::stdout().lock());
    let mut block = vec![0; 1 << 17];
    let mut out = Vec::with_capacity(1 << 18);
    let mut pair = Pair::default();
    // A long line is dropped as it comes, up to its newline or the end of input.
    let (mut have, mut number, mut refused, mut is_long) = (0, 0, false, false);
    loop {
        let got = input.read(&mut block[have..])?;
        have += got;
        let mut start = 0;
        while start < have || (is_long && got == 0) {
            let rest = &block[start..have];
            let (len, next) = match rest.iter().position(|&c| c == b'\n') {
                Some(k) => (k, k + 1),
                None if got == 0 => (rest.len(), rest.len()),
                None => break,
            };
            start += next;
            number += 1;
            if is_long || len > LONGEST {
                is_long = false;
                refused = true;
                refuse(&mut out, number, b" long\n");
            } else {
                refused |= answer(&mut pair, &mut out, number, &rest[..len]);
            }
            if out.len() >= 1 << 16 {
                output.write_all(&out)?;
                out.clear();
            }
        }
        if got == 0 {
            break;
        }
        block.copy_within(start..have, 0);
        have -= start;
        if have > LONGEST {
            is_long = true;
            have = 0;
        }
    }
    output.write_all(&out)?;
    output.flush()?;
    Ok(ExitCode::from(u8::from(refused)))
}
