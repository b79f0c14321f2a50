//! The tuned twin of `cpe bind fs` and `cpe bind uri`, under the word `fs` or `uri`: the same
//! answers from safe Rust with std alone and no proof, written for speed. One table of the
//! kinds of bytes, one pass over a line that finds where the eleven values lie, and these put
//! straight into one block of output: about what a filter of this kind, written by hand with
//! care, reaches on one core.
use std::io::{self, Read, Write};
use std::process::ExitCode;

/// The most bytes of a line before its newline.
const LONGEST: usize = 65_536;

const KEYS: [&[u8]; 11] = [
    b"part=",
    b"vendor=",
    b"product=",
    b"version=",
    b"update=",
    b"edition=",
    b"language=",
    b"sw_edition=",
    b"target_sw=",
    b"target_hw=",
    b"other=",
];

/// A letter, a digit or an underscore: stands for itself.
const PLAIN: u8 = 1;
/// `.` or `-`: loses the backslash before it.
const DOT_OR_HYPHEN: u8 = 2;
/// Another printable character: keeps the backslash before it.
const QUOTED: u8 = 3;

const CLASS: [u8; 256] = {
    let mut table = [0; 256];
    let mut c = 0x21;
    while c < 0x7f {
        table[c] = match c as u8 {
            b'a'..=b'z' | b'A'..=b'Z' | b'0'..=b'9' | b'_' => PLAIN,
            b'.' | b'-' => DOT_OR_HYPHEN,
            _ => QUOTED,
        };
        c += 1;
    }
    table
};

fn class_at(s: &[u8], i: usize) -> u8 {
    s.get(i).map_or(0, |&c| CLASS[usize::from(c)])
}

/// A value as it lies in the line, between its quotes; ANY and NA as a formatted string has them.
#[derive(Clone, Copy)]
struct Span<'a> {
    text: &'a [u8],
    /// Whether a `.` or `-` is in it, which a formatted string has bare.
    has_bare: bool,
}

const ANY: Span<'static> = Span {
    text: b"*",
    has_bare: false,
};
const NA: Span<'static> = Span {
    text: b"-",
    has_bare: false,
};

/// Where the wildcards that stand at `i` end.
fn wildcards(s: &[u8], mut i: usize) -> usize {
    if s.get(i) == Some(&b'*') {
        return i + 1;
    }
    while s.get(i) == Some(&b'?') {
        i += 1;
    }
    i
}

/// Where the characters that stand from `i` end, and whether a `.` or `-` is among them.
fn body(s: &[u8], mut i: usize) -> (usize, bool) {
    let mut has_bare = false;
    loop {
        while class_at(s, i) == PLAIN {
            i += 1;
        }
        if s.get(i) != Some(&b'\\') {
            return (i, has_bare);
        }
        match class_at(s, i + 1) {
            QUOTED => {}
            DOT_OR_HYPHEN => has_bare = true,
            _ => return (i, has_bare),
        }
        i += 2;
    }
}

/// The value that starts at `i`, and where it ends.
fn value(s: &[u8], i: usize) -> Option<(Span<'_>, usize)> {
    let start = match &s[i..] {
        [b'A', b'N', b'Y', ..] => return Some((ANY, i + 3)),
        [b'N', b'A', ..] => return Some((NA, i + 2)),
        [b'"', ..] => i + 1,
        _ => return None,
    };
    let lead_end = wildcards(s, start);
    let (body_end, has_bare) = body(s, lead_end);
    let end = wildcards(s, body_end);
    let text = &s[start..end];
    if body_end == lead_end || s.get(end) != Some(&b'"') || text == b"\\-" {
        return None;
    }
    Some((Span { text, has_bare }, end + 1))
}

fn is_part(text: &[u8]) -> bool {
    matches!(text, b"*" | b"-" | b"a" | b"h" | b"o")
}

/// ANY, NA, or two or three letters, perhaps with a region: two letters or three digits.
fn is_language(text: &[u8]) -> bool {
    let letters = text.iter().take_while(|c| c.is_ascii_alphabetic()).count();
    match (letters, &text[letters..]) {
        (0, b"*" | b"-") | (2 | 3, []) => true,
        (2 | 3, [b'\\', b'-', region @ ..]) => match region.len() {
            2 => region.iter().all(u8::is_ascii_alphabetic),
            3 => region.iter().all(u8::is_ascii_digit),
            _ => false,
        },
        _ => false,
    }
}

/// The attribute whose key stands at `i`; the one that is `likely` is tried first.
fn attribute(s: &[u8], i: usize, likely: usize) -> Option<usize> {
    let rest = &s[i..];
    let mut numbers = (likely..KEYS.len()).chain(0..likely);
    numbers.find(|&n| rest.starts_with(KEYS[n]))
}

/// The eleven values of the text of a well-formed name.
fn spans(s: &[u8]) -> Option<[Span<'_>; 11]> {
    let mut found = [ANY; 11];
    let mut i = 5;
    if !s.starts_with(b"wfn:[") {
        return None;
    }
    if s.get(i) == Some(&b']') {
        return (s.len() == i + 1).then_some(found);
    }
    let (mut seen, mut likely) = (0_u16, 0);
    loop {
        let n = attribute(s, i, likely)?;
        let (span, end) = value(s, i + KEYS[n].len())?;
        let fits = match n {
            0 => is_part(span.text),
            6 => is_language(span.text),
            _ => true,
        };
        if !fits || seen & (1 << n) != 0 {
            return None;
        }
        found[n] = span;
        seen |= 1 << n;
        likely = n + 1;
        i = end + 1;
        match s.get(end) {
            Some(b',') => {}
            Some(b']') => return (s.len() == i).then_some(found),
            _ => return None,
        }
        while s.get(i) == Some(&b' ') {
            i += 1;
        }
    }
}

/// Puts a colon and the value, without the backslashes before `.` and `-`.
fn put(span: Span, out: &mut Vec<u8>) {
    let mut rest = span.text;
    out.push(b':');
    if span.has_bare {
        while let Some(k) = rest.iter().position(|&c| c == b'\\') {
            let kept = k + usize::from(class_at(rest, k + 1) == QUOTED);
            out.extend_from_slice(&rest[..kept]);
            out.push(rest[k + 1]);
            rest = &rest[k + 2..];
        }
    }
    out.extend_from_slice(rest);
}

/// How the eleven values are put.
type Put = fn(&[Span; 11], &mut Vec<u8>);

fn put_fs(spans: &[Span; 11], out: &mut Vec<u8>) {
    out.extend_from_slice(b"cpe:2.3");
    for span in spans {
        match span.text {
            // (most values are ANY)
            &[c] => out.extend_from_slice(&[b':', c]),
            _ => put(*span, out),
        }
    }
}

/// Puts a percent sign and the code in two digits.
fn percent(c: u8, out: &mut Vec<u8>) {
    let digit = |n: u8| b"0123456789abcdef"[usize::from(n)];
    out.extend_from_slice(&[b'%', digit(c >> 4), digit(c & 15)]);
}

/// Puts the value as a URI has it.
fn put_component(text: &[u8], out: &mut Vec<u8>) {
    if text == ANY.text {
        return;
    }
    if text == NA.text {
        out.push(b'-');
        return;
    }
    let mut i = 0;
    loop {
        let run = i;
        while class_at(text, i) == PLAIN {
            i += 1;
        }
        out.extend_from_slice(&text[run..i]);
        match text[i..] {
            [b'?', ..] => percent(1, out),
            [b'*', ..] => percent(2, out),
            [b'\\', c, ..] => {
                i += 1;
                match c {
                    b'.' | b'-' => out.push(c),
                    _ => percent(c, out),
                }
            }
            _ => return,
        }
        i += 1;
    }
}

/// Puts the components and colons between them, of which none stands at the end. The edition is
/// packed with the last four values unless all of them are ANY.
fn put_uri(spans: &[Span; 11], out: &mut Vec<u8>) {
    out.extend_from_slice(b"cpe:/");
    let is_packed = spans[7..].iter().any(|it| it.text != ANY.text);
    for (n, span) in spans[..7].iter().enumerate() {
        if n > 0 {
            out.push(b':');
        }
        if n == 5 && is_packed {
            out.push(b'~');
            put_component(span.text, out);
            for other in &spans[7..] {
                out.push(b'~');
                put_component(other.text, out);
            }
        } else {
            put_component(span.text, out);
        }
    }
    while out.last() == Some(&b':') {
        out.pop();
    }
}

/// Puts the other text of the name of this text; tells whether there is one.
fn bind(s: &[u8], put: Put, out: &mut Vec<u8>) -> bool {
    let Some(spans) = spans(s) else {
        return false;
    };
    put(&spans, out);
    out.push(b'\n');
    true
}

fn decimal(out: &mut Vec<u8>, number: u64) {
    let (mut digits, mut first, mut rest) = ([0; 20], 20, number);
    loop {
        first -= 1;
        digits[first] = b'0' + (rest % 10) as u8;
        rest /= 10;
        if rest == 0 {
            break;
        }
    }
    out.extend_from_slice(&digits[first..]);
}

fn refuse(out: &mut Vec<u8>, number: u64, reason: &[u8]) {
    out.extend_from_slice(b"refused ");
    decimal(out, number);
    out.extend_from_slice(reason);
}

/// Where the first newline is; blocks without one are passed over at once.
fn newline(s: &[u8]) -> Option<usize> {
    let has_none = |block: &&[u8]| !block.iter().fold(false, |found, &c| found | (c == b'\n'));
    let passed = 32 * s.chunks_exact(32).take_while(has_none).count();
    let k = s[passed..].iter().position(|&c| c == b'\n')?;
    Some(passed + k)
}

/// Answers the line of this number, without its newline; tells whether it was refused.
fn answer(out: &mut Vec<u8>, put: Put, number: u64, line: &[u8]) -> bool {
    let text = line.strip_suffix(b"\r").unwrap_or(line);
    if text.is_empty() || bind(text, put, out) {
        return false;
    }
    refuse(out, number, b" wfn\n");
    true
}

fn main() -> io::Result<ExitCode> {
    let to_uri = std::env::args().nth(1).is_some_and(|word| word == "uri");
    let put = if to_uri { put_uri } else { put_fs };
    let (mut input, mut output) = (io::stdin().lock(), io::stdout().lock());
    let mut block = vec![0; 1 << 17];
    let mut out = Vec::with_capacity(1 << 18);
    // A long line is dropped as it comes, up to its newline or the end of input.
    let (mut have, mut number, mut refused, mut is_long) = (0, 0, false, false);
    loop {
        let got = input.read(&mut block[have..])?;
        have += got;
        let mut start = 0;
        while start < have || (is_long && got == 0) {
            let rest = &block[start..have];
            let (len, next) = match newline(rest) {
                Some(k) => (k, k + 1),
                None if got == 0 => (rest.len(), rest.len()),
                None => break,
            };
            start += next;
            number += 1;
            if is_long || len > LONGEST {
                is_long = false;
                refused = true;
                refuse(&mut out, number, b" long\n");
            } else {
                refused |= answer(&mut out, put, number, &rest[..len]);
            }
            if out.len() >= 1 << 16 {
                output.write_all(&out)?;
                out.clear();
            }
        }
        if got == 0 {
            break;
        }
        block.copy_within(start..have, 0);
        have -= start;
        if have > LONGEST {
            is_long = true;
            have = 0;
        }
    }
    output.write_all(&out)?;
    output.flush()?;
    Ok(ExitCode::from(u8::from(refused)))
}
