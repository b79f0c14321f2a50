//! How the tuned twins read a text in either binding: in one pass, which puts the text of its name as it goes.
pub const KEYS: [&[u8]; 11] = [
    b"wfn:[part=",
    b",vendor=",
    b",product=",
    b",version=",
    b",update=",
    b",edition=",
    b",language=",
    b",sw_edition=",
    b",target_sw=",
    b",target_hw=",
    b",other=",
];

/// What ends the text of a name that has no value from the vendor on.
const REST: &[u8] = b",vendor=ANY,product=ANY,version=ANY,update=ANY,edition=ANY,language=ANY,\
    sw_edition=ANY,target_sw=ANY,target_hw=ANY,other=ANY]\n";

/// Where in it each attribute begins.
const REST_FROM: [usize; 11] = {
    let mut table = [0; 11];
    let mut n = 1;
    while n < 10 {
        table[n + 1] = table[n] + KEYS[n].len() + b"ANY".len();
        n += 1;
    }
    table
};

/// A letter, a digit or an underscore: stands for itself.
const PLAIN: u8 = 1;
/// `.` or `-`: a backslash goes before it.
const DOT_OR_HYPHEN: u8 = 2;
/// Another printable character: stands only after a backslash.
const QUOTED: u8 = 3;

const CLASS: [u8; 256] = {
    let mut table = [0; 256];
    let mut c = 0x21;
    while c < 0x7f {
        table[c] = match c as u8 {
            b'a'..=b'z' | b'A'..=b'Z' | b'0'..=b'9' | b'_' => PLAIN,
            b'.' | b'-' => DOT_OR_HYPHEN,
            _ => QUOTED,
        };
        c += 1;
    }
    table
};

fn class_at(s: &[u8], i: usize) -> u8 {
    s.get(i).map_or(0, |&c| CLASS[usize::from(c)])
}

/// Puts the wildcards that stand at `i`, and gives where they end.
fn wildcards(s: &[u8], mut i: usize, out: &mut Vec<u8>) -> usize {
    if s.get(i) == Some(&b'*') {
        out.push(b'*');
        return i + 1;
    }
    while s.get(i) == Some(&b'?') {
        out.push(b'?');
        i += 1;
    }
    i
}

/// Puts the characters that stand from `i`, runs of plain ones at once, and gives where
/// they end; or the place where there is none, or a backslash stands before what it can't quote.
fn body(s: &[u8], start: usize, out: &mut Vec<u8>) -> Result<usize, usize> {
    let mut i = start;
    loop {
        let run = i;
        while class_at(s, i) == PLAIN {
            i += 1;
        }
        out.extend_from_slice(&s[run..i]);
        if class_at(s, i) == DOT_OR_HYPHEN {
            out.extend_from_slice(&[b'\\', s[i]]);
            i += 1;
        } else if s.get(i) == Some(&b'\\') {
            if class_at(s, i + 1) != QUOTED {
                return Err(i + 1);
            }
            out.extend_from_slice(&s[i..i + 2]);
            i += 2;
        } else {
            return if i > start { Ok(i) } else { Err(i) };
        }
    }
}

/// Puts the component that starts at `i`, and gives where it ends.
fn value(s: &[u8], i: usize, out: &mut Vec<u8>) -> Result<usize, usize> {
    if matches!(s.get(i + 1), None | Some(b':')) {
        match s.get(i) {
            Some(b'*') => {
                out.extend_from_slice(b"ANY");
                return Ok(i + 1);
            }
            Some(b'-') => {
                out.extend_from_slice(b"NA");
                return Ok(i + 1);
            }
            _ => {}
        }
    }
    out.push(b'"');
    let lead_end = wildcards(s, i, out);
    let body_end = body(s, lead_end, out)?;
    let end = wildcards(s, body_end, out);
    out.push(b'"');
    Ok(end)
}

fn part(s: &[u8], i: usize, out: &mut Vec<u8>) -> Result<usize, usize> {
    match s.get(i) {
        Some(b'*') => out.extend_from_slice(b"ANY"),
        Some(b'-') => out.extend_from_slice(b"NA"),
        Some(&c @ (b'a' | b'h' | b'o')) => out.extend_from_slice(&[b'"', c, b'"']),
        _ => return Err(i),
    }
    Ok(i + 1)
}

/// Where a run of such bytes from `i` on ends, of which it has so many at most.
fn run(s: &[u8], i: usize, most: usize, class: fn(&u8) -> bool) -> usize {
    i + s[i..].iter().take(most).take_while(|c| class(c)).count()
}

/// Puts two or three letters, perhaps with a region: two letters or three digits. A hyphen that
/// stands at a place ends where `hyphen` says, or goes wrong there.
fn tag(
    s: &[u8],
    i: usize,
    hyphen: fn(&[u8], usize) -> Result<usize, usize>,
    out: &mut Vec<u8>,
) -> Result<usize, usize> {
    let mut end = run(s, i, 3, u8::is_ascii_alphabetic);
    if end < i + 2 {
        return Err(end);
    }
    out.push(b'"');
    out.extend_from_slice(&s[i..end]);
    let region = hyphen(s, end)?;
    if region > end {
        end = run(s, region, 2, u8::is_ascii_alphabetic);
        if end == region {
            end = run(s, region, 3, u8::is_ascii_digit);
            if end < region + 3 {
                return Err(end);
            }
        } else if end < region + 2 {
            return Err(end);
        }
        out.extend_from_slice(b"\\-");
        out.extend_from_slice(&s[region..end]);
    }
    out.push(b'"');
    Ok(end)
}

/// `*`, `-`, or a language.
fn language(s: &[u8], i: usize, out: &mut Vec<u8>) -> Result<usize, usize> {
    match s.get(i) {
        Some(b'*') => out.extend_from_slice(b"ANY"),
        Some(b'-') => out.extend_from_slice(b"NA"),
        _ => {
            let hyphen = |s: &[u8], i| Ok(i + usize::from(s.get(i) == Some(&b'-')));
            return tag(s, i, hyphen, out);
        }
    }
    Ok(i + 1)
}

/// Puts the answer to a formatted string; or gives the place where the text goes wrong, and `out` may keep a part.
fn unbind_fs(s: &[u8], out: &mut Vec<u8>) -> Result<(), usize> {
    let prefix = b"cpe:2.3:";
    if !s.starts_with(prefix) {
        return Err(prefix.iter().zip(s).take_while(|(a, b)| a == b).count());
    }
    let mut i = prefix.len();
    for (n, key) in KEYS.iter().enumerate() {
        if n > 0 {
            if s.get(i) != Some(&b':') {
                return Err(i);
            }
            i += 1;
        }
        out.extend_from_slice(key);
        i = match n {
            0 => part(s, i, out)?,
            6 => language(s, i, out)?,
            _ => value(s, i, out)?,
        };
    }
    out.extend_from_slice(b"]\n");
    if i == s.len() { Ok(()) } else { Err(i) }
}

/// The number of a hexadecimal digit; 255 for any other byte.
const DIGIT: [u8; 256] = {
    let mut table = [255; 256];
    let mut n = 0;
    while n < 16 {
        table[b"0123456789abcdef"[n] as usize] = n as u8;
        table[b"0123456789ABCDEF"[n] as usize] = n as u8;
        n += 1;
    }
    table
};

fn digit_at(s: &[u8], i: usize) -> u8 {
    s.get(i).map_or(255, |&c| DIGIT[usize::from(c)])
}

/// The character whose percent form stands at `i`; letters, digits and `_` have none.
fn form(s: &[u8], i: usize) -> Option<u8> {
    let (high, low) = (digit_at(s, i + 1), digit_at(s, i + 2));
    if high > 7 || low > 15 {
        return None;
    }
    let c = 16 * high + low;
    (CLASS[usize::from(c)] >= DOT_OR_HYPHEN).then_some(c)
}

/// The first digits, a bit each, of the percent forms of characters, and of `%01` and `%02`.
const CHARACTERS: u8 = 0b1111_1100;
const SPECIALS: u8 = 0b0000_0001;

/// The place of a text that goes wrong at `i`, or in the percent form that begins there, whose
/// first digit may be one of these.
fn place(s: &[u8], i: usize, digits: u8) -> usize {
    if s.get(i) != Some(&b'%') {
        return i;
    }
    let first = digit_at(s, i + 1);
    let is_allowed = first < 8 && (digits >> first) & 1 == 1;
    i + 1 + usize::from(is_allowed)
}

/// Puts the wildcards whose percent forms stand at `i`, and gives where they end.
fn uri_wildcards(s: &[u8], mut i: usize, out: &mut Vec<u8>) -> usize {
    if s[i..].starts_with(b"%02") {
        out.push(b'*');
        return i + 3;
    }
    while s[i..].starts_with(b"%01") {
        out.push(b'?');
        i += 3;
    }
    i
}

/// Puts the characters that stand from `i`, runs of plain ones at once, and gives where they end.
fn uri_body(s: &[u8], mut i: usize, end: u8, out: &mut Vec<u8>) -> usize {
    loop {
        let run = i;
        while class_at(s, i) == PLAIN {
            i += 1;
        }
        let put = out.len();
        out.extend_from_slice(&s[run..i]);
        out[put..].make_ascii_lowercase();
        let c = match s.get(i) {
            Some(&c @ (b'.' | b'-')) => c,
            Some(&c @ b'~') if end != b'~' => c,
            Some(b'%') => match form(s, i) {
                Some(c) => {
                    i += 2;
                    c
                }
                None => return i,
            },
            _ => return i,
        };
        i += 1;
        out.extend_from_slice(&[b'\\', c]);
    }
}

/// Puts the component that starts at `start`, and gives where it ends: at `end`, a colon, or the
/// end of the text, or else the caller refuses it.
fn uri_value(s: &[u8], start: usize, end: u8, out: &mut Vec<u8>) -> Result<usize, usize> {
    let ends_at = |i| s.get(i).is_none_or(|&c| c == b':' || c == end);
    if ends_at(start) {
        out.extend_from_slice(b"ANY");
        return Ok(start);
    }
    if s[start] == b'-' && ends_at(start + 1) {
        out.extend_from_slice(b"NA");
        return Ok(start + 1);
    }
    out.push(b'"');
    let lead_end = uri_wildcards(s, start, out);
    let body_end = uri_body(s, lead_end, end, out);
    if body_end == lead_end {
        return Err(match &s[start..lead_end] {
            b"%02" => place(s, body_end, CHARACTERS),
            _ => place(s, body_end, CHARACTERS | SPECIALS),
        });
    }
    let end = uri_wildcards(s, body_end, out);
    out.push(b'"');
    if s.get(end) == Some(&b'%') {
        return Err(match &s[body_end..end] {
            b"" => place(s, end, CHARACTERS | SPECIALS),
            b"%02" => end,
            _ => place(s, end, SPECIALS),
        });
    }
    // (a hyphen alone is no text, however it is spelled)
    if s[start..end].eq_ignore_ascii_case(b"%2d") {
        return Err(end);
    }
    Ok(end)
}

fn uri_part(s: &[u8], i: usize, out: &mut Vec<u8>) -> Result<usize, usize> {
    match s.get(i).map(u8::to_ascii_lowercase) {
        None | Some(b':') => {
            out.extend_from_slice(b"ANY");
            return Ok(i);
        }
        Some(b'-') => out.extend_from_slice(b"NA"),
        Some(c @ (b'a' | b'h' | b'o')) => out.extend_from_slice(&[b'"', c, b'"']),
        _ => return Err(i),
    }
    Ok(i + 1)
}

/// Where the hyphen that stands at `i`, bare or in its percent form, ends.
fn uri_hyphen(s: &[u8], i: usize) -> Result<usize, usize> {
    match &s[i..] {
        [b'-', ..] => Ok(i + 1),
        [b'%', b'2', b'd' | b'D', ..] => Ok(i + 3),
        [b'%', b'2', ..] => Err(i + 2),
        [b'%', ..] => Err(i + 1),
        _ => Ok(i),
    }
}

/// Nothing, `-`, or a language.
fn uri_language(s: &[u8], i: usize, out: &mut Vec<u8>) -> Result<usize, usize> {
    match s.get(i) {
        None | Some(b':') => {
            out.extend_from_slice(b"ANY");
            Ok(i)
        }
        Some(b'-') => {
            out.extend_from_slice(b"NA");
            Ok(i + 1)
        }
        _ => {
            let put = out.len();
            let end = tag(s, i, uri_hyphen, out)?;
            out[put..].make_ascii_lowercase();
            Ok(end)
        }
    }
}

/// Puts the rest of the answer to a URI from its packed edition on. The four values that are
/// packed with it stand before the language there, and after it in the name.
fn packed(s: &[u8], start: usize, out: &mut Vec<u8>) -> Result<(), usize> {
    let mut i = uri_value(s, start + 1, b'~', out)?;
    let others = out.len();
    for key in &KEYS[7..] {
        if s.get(i) != Some(&b'~') {
            return Err(i);
        }
        out.extend_from_slice(key);
        i = uri_value(s, i + 1, b'~', out)?;
    }
    let language = out.len();
    out.extend_from_slice(KEYS[6]);
    match s.get(i) {
        None => out.extend_from_slice(b"ANY"),
        Some(b':') => i = uri_language(s, i + 1, out)?,
        _ => return Err(i),
    }
    out[others..].rotate_left(language - others);
    out.extend_from_slice(b"]\n");
    if i == s.len() { Ok(()) } else { Err(i) }
}

/// Puts the answer to a URI, which begins with `cpe:/`; or gives the place where the text goes
/// wrong, and `out` may keep a part.
fn unbind_uri(s: &[u8], out: &mut Vec<u8>) -> Result<(), usize> {
    let mut i = 5;
    for (n, key) in KEYS[..7].iter().enumerate() {
        if n > 0 {
            match s.get(i) {
                None => {
                    out.extend_from_slice(&REST[REST_FROM[n]..]);
                    return Ok(());
                }
                Some(b':') => i += 1,
                _ => return Err(i),
            }
        }
        out.extend_from_slice(key);
        i = match n {
            0 => uri_part(s, i, out)?,
            5 if s.get(i) == Some(&b'~') => return packed(s, i, out),
            6 => uri_language(s, i, out)?,
            _ => uri_value(s, i, b':', out)?,
        };
    }
    out.extend_from_slice(&REST[REST_FROM[7]..]);
    if i == s.len() { Ok(()) } else { Err(i) }
}

/// Whether the text is a URI by its first five bytes, in either case.
fn is_uri(s: &[u8]) -> bool {
    s.get(..5)
        .is_some_and(|head| head.eq_ignore_ascii_case(b"cpe:/"))
}

/// Puts the text of the name and a newline; or gives the place where the text goes wrong, and `out` may keep a part.
pub fn unbind(s: &[u8], out: &mut Vec<u8>) -> Result<(), usize> {
    if is_uri(s) {
        unbind_uri(s, out)
    } else {
        unbind_fs(s, out)
    }
}
