//! The tuned twin of `cpe resolve`: the same answers from safe Rust with std alone and no proof,
//! written for speed. JSON is read by hand into values that borrow from the line, a name becomes
//! its formatted string in lower case, a hash map finds its entry, and a search goes over the names
//! where they stand one after the other in one block. Deprecations are kept as numbers of entries,
//! both ways, and a chain is searched with marks on the entries.
mod reading_tuned;

use reading_tuned::{KEYS, unbind};
use std::borrow::Cow;
use std::collections::{BTreeMap, HashMap};
use std::hash::{BuildHasherDefault, Hasher};
use std::io::{self, Read, Write};
use std::process::ExitCode;

/// The most bytes of a line before its newline.
const LONGEST: usize = 65_536;

/// How deep arrays and objects may nest.
const DEEPEST: usize = 127;

/// The most entries, successors of an entry, and ends of one.
const MOST: usize = 2_000_000;
const MOST_SUCCESSORS: usize = 16;
const MOST_ENDS: usize = 256;

// ---- JSON

enum Value<'a> {
    Null,
    Bool(bool),
    Number,
    Text(Cow<'a, str>),
    Array(Vec<Value<'a>>),
    /// The members in order, also where a key comes twice: the last stays.
    Object(Vec<(Cow<'a, str>, Value<'a>)>),
}

impl<'a> Value<'a> {
    fn get(&self, key: &str) -> Option<&Value<'a>> {
        match self {
            Value::Object(members) => members.iter().rev().find(|(k, _)| k == key).map(|(_, v)| v),
            _ => None,
        }
    }

    fn text(&self) -> Option<&str> {
        match self {
            Value::Text(text) => Some(text),
            _ => None,
        }
    }
}

struct Reader<'a> {
    text: &'a str,
    pos: usize,
}

impl<'a> Reader<'a> {
    fn peek(&self) -> u8 {
        self.text.as_bytes().get(self.pos).copied().unwrap_or(0)
    }

    fn blanks(&mut self) {
        while matches!(self.peek(), b' ' | b'\t' | b'\n' | b'\r') {
            self.pos += 1;
        }
    }

    fn eat(&mut self, want: u8) -> bool {
        let yes = self.peek() == want;
        self.pos += usize::from(yes);
        yes
    }

    fn word(&mut self, word: &str, value: Value<'a>) -> Option<Value<'a>> {
        self.text[self.pos..].starts_with(word).then(|| {
            self.pos += word.len();
            value
        })
    }

    fn value(&mut self, depth: usize) -> Option<Value<'a>> {
        self.blanks();
        match self.peek() {
            b'"' => self.string().map(Value::Text),
            b'{' => self.object(depth.checked_sub(1)?),
            b'[' => self.array(depth.checked_sub(1)?),
            b't' => self.word("true", Value::Bool(true)),
            b'f' => self.word("false", Value::Bool(false)),
            b'n' => self.word("null", Value::Null),
            _ => self.number(),
        }
    }

    fn object(&mut self, depth: usize) -> Option<Value<'a>> {
        let mut members = Vec::new();
        self.pos += 1;
        self.blanks();
        if self.eat(b'}') {
            return Some(Value::Object(members));
        }
        loop {
            self.blanks();
            if self.peek() != b'"' {
                return None;
            }
            let key = self.string()?;
            self.blanks();
            if !self.eat(b':') {
                return None;
            }
            members.push((key, self.value(depth)?));
            self.blanks();
            if self.eat(b'}') {
                return Some(Value::Object(members));
            }
            if !self.eat(b',') {
                return None;
            }
        }
    }

    fn array(&mut self, depth: usize) -> Option<Value<'a>> {
        let mut items = Vec::new();
        self.pos += 1;
        self.blanks();
        if self.eat(b']') {
            return Some(Value::Array(items));
        }
        loop {
            items.push(self.value(depth)?);
            self.blanks();
            if self.eat(b']') {
                return Some(Value::Array(items));
            }
            if !self.eat(b',') {
                return None;
            }
        }
    }

    /// Where the bytes that stand for themselves in a string end.
    fn plain(&self) -> usize {
        let rest = &self.text.as_bytes()[self.pos..];
        let stops = |&c: &u8| c < 0x20 || c == b'"' || c == b'\\';
        self.pos + rest.iter().position(stops).unwrap_or(rest.len())
    }

    fn string(&mut self) -> Option<Cow<'a, str>> {
        self.pos += 1;
        let end = self.plain();
        let front = &self.text[self.pos..end];
        self.pos = end;
        if self.eat(b'"') {
            return Some(Cow::Borrowed(front));
        }
        let mut out = front.to_string();
        loop {
            if self.eat(b'"') {
                return Some(Cow::Owned(out));
            }
            if !self.eat(b'\\') {
                return None;
            }
            out.push(self.escaped()?);
            let end = self.plain();
            out.push_str(&self.text[self.pos..end]);
            self.pos = end;
        }
    }

    /// The character whose escape stands here, after its backslash.
    fn escaped(&mut self) -> Option<char> {
        let c = self.peek();
        self.pos += 1;
        Some(match c {
            b'"' | b'\\' | b'/' => char::from(c),
            b'b' => '\x08',
            b'f' => '\x0c',
            b'n' => '\n',
            b'r' => '\r',
            b't' => '\t',
            b'u' => {
                let unit = self.unit()?;
                if (0xd800..0xdc00).contains(&unit) && self.eat(b'\\') && self.eat(b'u') {
                    let low = self.unit()?.checked_sub(0xdc00).filter(|&it| it < 0x400)?;
                    return char::from_u32(0x10000 + ((unit - 0xd800) << 10) + low);
                }
                return char::from_u32(unit);
            }
            _ => return None,
        })
    }

    fn unit(&mut self) -> Option<u32> {
        let digits = self.text.as_bytes().get(self.pos..self.pos + 4)?;
        self.pos += 4;
        digits.iter().try_fold(0, |unit, &c| Some(16 * unit + char::from(c).to_digit(16)?))
    }

    fn digits(&mut self) -> Option<()> {
        let start = self.pos;
        while self.peek().is_ascii_digit() {
            self.pos += 1;
        }
        (self.pos > start).then_some(())
    }

    /// A number is passed over; one that no finite float is near has no value.
    fn number(&mut self) -> Option<Value<'a>> {
        let start = self.pos;
        self.eat(b'-');
        if !self.eat(b'0') {
            self.digits()?;
        }
        if self.eat(b'.') {
            self.digits()?;
        }
        let mut is_small = self.pos - start < 300;
        if matches!(self.peek(), b'e' | b'E') {
            is_small = false;
            self.pos += 1;
            if !self.eat(b'-') {
                self.eat(b'+');
            }
            self.digits()?;
        }
        let is_finite = is_small || self.text[start..self.pos].parse::<f64>().is_ok_and(f64::is_finite);
        is_finite.then_some(Value::Number)
    }
}

/// The value that a line is.
fn value_of(line: &[u8]) -> Option<Value<'_>> {
    let mut reader = Reader { text: std::str::from_utf8(line).ok()?, pos: 0 };
    let value = reader.value(DEEPEST)?;
    reader.blanks();
    (reader.pos == line.len()).then_some(value)
}

// ---- names

/// Puts the value of a text of a name, at its place `i`, as a formatted string has it; gives where it ends.
fn put_component(text: &[u8], mut i: usize, out: &mut Vec<u8>) -> usize {
    match text[i] {
        b'A' => out.push(b'*'),
        b'N' => out.push(b'-'),
        _ => {
            i += 1;
            while text[i] != b'"' {
                if text[i] == b'\\' {
                    i += usize::from(matches!(text[i + 1], b'.' | b'-'));
                    if text[i] == b'\\' {
                        out.push(b'\\');
                        i += 1;
                    }
                }
                out.push(text[i].to_ascii_lowercase());
                i += 1;
            }
            return i + 1;
        }
    }
    i + if text[i] == b'A' { 3 } else { 2 }
}

/// Buffers that stay from line to line.
#[derive(Default)]
struct Buffers {
    /// The text of a name, as `cpe unbind` writes it.
    wfn: Vec<u8>,
    /// Its formatted string in lower case.
    name: Vec<u8>,
    /// The numbers of the entries that were found.
    found: Vec<usize>,
    /// A component without its backslashes.
    plain: Vec<u8>,
    /// The numbers of the successors that were read, where they are entries.
    to: Vec<Option<u32>>,
    marks: Marks,
    /// Whether the record is of the second format, in which a name may be an object.
    is_second: bool,
}

/// Where a name goes wrong: at a byte of its text, or at an attribute of its object.
enum Place {
    Byte(usize),
    Attribute(&'static str),
}

const ATTRIBUTES: [&str; 11] =
    ["part", "vendor", "product", "version", "update", "edition", "language", "sw_edition", "target_sw", "target_hw", "other"];

impl Buffers {
    /// Reads a name in either binding, or gives the place where it goes wrong.
    fn read(&mut self, text: &[u8]) -> Result<(), usize> {
        self.wfn.clear();
        self.name.clear();
        unbind(text, &mut self.wfn)?;
        if text[4] == b'/' {
            self.name.extend_from_slice(b"cpe:2.3");
            let mut i = 0;
            for key in KEYS {
                self.name.push(b':');
                i = put_component(&self.wfn, i + key.len(), &mut self.name);
            }
        } else {
            self.name.extend_from_slice(text);
            self.name.make_ascii_lowercase();
        }
        Ok(())
    }

    /// Whether a value has the form of a name in a record of this format.
    fn is_name(&self, value: &Value) -> bool {
        matches!(value, Value::Text(_)) || self.is_second && matches!(value, Value::Object(_))
    }

    /// Reads what has the form of a name, or gives the place where it goes wrong.
    fn read_value(&mut self, value: &Value) -> Result<(), Place> {
        match value.text() {
            Some(text) => self.read(text.as_bytes()).map_err(Place::Byte),
            None => self.read_object(value).map_err(Place::Attribute),
        }
    }

    /// Reads a name that is an object of attributes, or gives the first that is none. Each is read alone, as a name that has no other.
    fn read_object(&mut self, object: &Value) -> Result<(), &'static str> {
        let mut name = b"cpe:2.3".to_vec();
        for (n, key) in ATTRIBUTES.into_iter().enumerate() {
            let text = object.get(key).map_or(Some("*"), Value::text).ok_or(key)?;
            let alone = format!("cpe:2.3{}:{text}{}", ":*".repeat(n), ":*".repeat(10 - n));
            self.wfn.clear();
            unbind(alone.as_bytes(), &mut self.wfn).map_err(|_| key)?;
            name.push(b':');
            name.extend_from_slice(text.to_ascii_lowercase().as_bytes());
        }
        self.name = name;
        Ok(())
    }
}

/// Which entries a search has come to, and which of them it goes on from.
#[derive(Default)]
struct Marks {
    /// The last search that came to an entry, by its number.
    seen: Vec<u32>,
    search: u32,
    /// Those come to, in the order of coming.
    list: Vec<u32>,
}

impl Marks {
    /// Begins a search over so many entries.
    fn begin(&mut self, entries: usize) {
        if self.search == u32::MAX {
            self.seen.clear();
            self.search = 0;
        }
        self.seen.resize(entries, 0);
        self.search += 1;
        self.list.clear();
    }

    fn add(&mut self, number: u32) {
        let seen = &mut self.seen[number as usize];
        if *seen != self.search {
            *seen = self.search;
            self.list.push(number);
        }
    }

    fn has(&self, number: u32) -> bool {
        self.seen[number as usize] == self.search
    }

    /// Adds all that is next to what was come to from this place of the list on.
    fn go_on<'a>(&mut self, from: usize, next: impl Fn(u32) -> &'a [u32]) {
        let mut at = from;
        while at < self.list.len() {
            for &number in next(self.list[at]) {
                self.add(number);
            }
            at += 1;
        }
    }
}

/// Where the eleven components of a formatted string end.
fn ends_of(name: &[u8]) -> [u32; 11] {
    let (mut ends, mut at, mut i) = ([0; 11], 0, 8);
    while i < name.len() {
        match name[i] {
            b'\\' => i += 1,
            b':' => {
                ends[at] = i as u32;
                at += 1;
            }
            _ => {}
        }
        i += 1;
    }
    ends[10] = name.len() as u32;
    ends
}

/// The component of this number.
fn component<'a>(name: &'a [u8], ends: &[u32; 11], n: usize) -> &'a [u8] {
    let start = if n == 0 { 8 } else { ends[n - 1] as usize + 1 };
    &name[start..ends[n] as usize]
}

/// A component without its backslashes, which is put into the buffer where it has any.
fn unquoted<'a>(text: &'a [u8], plain: &'a mut Vec<u8>) -> &'a [u8] {
    if !text.contains(&b'\\') {
        return text;
    }
    plain.clear();
    let mut i = 0;
    while i < text.len() {
        i += usize::from(text[i] == b'\\');
        plain.push(text[i]);
        i += 1;
    }
    plain
}

/// What a component of a searching name asks of a component of an entry; ANY asks nothing.
enum Asked<'a> {
    /// NA, or a text without specials.
    Same(&'a [u8]),
    /// A text before and after which so many characters may stand.
    Like { before: usize, body: Vec<u8>, behind: usize },
}

fn most(specials: &[u8]) -> usize {
    if specials == b"*" { usize::MAX } else { specials.len() }
}

/// Whether the body stands in the text. The standard library's search is linear and slow to begin.
fn has(text: &[u8], body: &[u8]) -> bool {
    if text.len() > 128 {
        let ascii = |it| std::str::from_utf8(it).unwrap_or_default();
        return ascii(text).contains(ascii(body));
    }
    (0..=text.len() - body.len()).any(|at| text[at] == body[0] && text[at..at + body.len()] == *body)
}

impl Asked<'_> {
    fn new(text: &[u8]) -> Option<Asked<'_>> {
        if text == b"*" {
            return None;
        }
        let is_special = |c: &u8| matches!(c, b'*' | b'?');
        let low = text.iter().position(|c| !is_special(c)).unwrap_or(text.len());
        let mut high = low;
        while high < text.len() && !is_special(&text[high]) {
            high += 1 + usize::from(text[high] == b'\\');
        }
        if low == 0 && high == text.len() {
            return Some(Asked::Same(text));
        }
        let body = unquoted(&text[low..high], &mut Vec::new()).to_vec();
        Some(Asked::Like { before: most(&text[..low]), body, behind: most(&text[high..]) })
    }

    fn fits(&self, text: &[u8], plain: &mut Vec<u8>) -> bool {
        match self {
            Asked::Same(same) => *same == text,
            Asked::Like { .. } if text == b"*" || text == b"-" => false,
            Asked::Like { before, body, behind } => {
                let text = unquoted(text, plain);
                let Some(room) = text.len().checked_sub(body.len()) else {
                    return false;
                };
                let (first, last) = (room - room.min(*behind), room.min(*before));
                first <= last && has(&text[first..last + body.len()], body)
            }
        }
    }
}

fn has_specials(text: &[u8]) -> bool {
    text != b"*" && matches!(Asked::new(text), Some(Asked::Like { .. }))
}

fn has_wildcards(name: &[u8], ends: &[u32; 11]) -> bool {
    name.iter().any(|c| matches!(c, b'*' | b'?')) && (0..11).any(|n| has_specials(component(name, ends, n)))
}

/// Reads the name of a record into the buffer.
fn read_name(record: &Value, buffers: &mut Buffers) -> Result<(), Refusal> {
    let value = record.get("name").filter(|it| buffers.is_name(it)).ok_or(For(b" member name"))?;
    buffers.read_value(value).map_err(Name)
}

// ---- rows

/// A hash over eight bytes at a time.
fn hash_of(bytes: &[u8]) -> u64 {
    let mut hash = 0_u64;
    for piece in bytes.chunks(8) {
        let mut eight = [0; 8];
        eight[..piece.len()].copy_from_slice(piece);
        hash = (hash.rotate_left(5) ^ u64::from_le_bytes(eight)).wrapping_mul(0x9e37_79b9_7f4a_7c15);
    }
    hash ^ (hash >> 32)
}

/// The hash of what is a hash already.
#[derive(Default)]
struct Hashed(u64);

impl Hasher for Hashed {
    fn finish(&self) -> u64 {
        self.0
    }

    fn write(&mut self, _: &[u8]) {}

    fn write_u64(&mut self, hash: u64) {
        self.0 = hash;
    }
}

struct Note {
    kind: &'static str,
    date: Box<str>,
    comment: Box<str>,
}

#[derive(Default)]
struct Provenance {
    submitter: Box<str>,
    authority: Box<str>,
    notes: Vec<Note>,
}

/// Where a name and its components stand, and the entry before it whose name has the same hash.
struct Row {
    start: usize,
    ends: [u32; 11],
    before: Option<u32>,
}

struct Details {
    title: Box<str>,
    provenance: Option<Box<Provenance>>,
}

/// The kind of the deprecation, if there is one, its successors, and the entries that have this one as theirs.
#[derive(Default)]
struct Links {
    kind: Option<&'static str>,
    to: Box<[u32]>,
    from: Vec<u32>,
}

impl Links {
    fn state(&self) -> &'static [u8] {
        self.kind.unwrap_or("active").as_bytes()
    }
}

#[derive(Default)]
struct Dictionary {
    /// The names, one after the other.
    names: Vec<u8>,
    rows: Vec<Row>,
    details: Vec<Details>,
    links: Vec<Links>,
    /// The last entry by the hash of its name.
    numbers: HashMap<u64, u32, BuildHasherDefault<Hashed>>,
}

/// The reason why a line is refused.
enum Refusal {
    For(&'static [u8]),
    /// With a place.
    At(&'static [u8], usize),
    /// The name of the record, and where it goes wrong.
    Name(Place),
    /// The name of a successor, by its number, likewise.
    Successor(usize, Place),
    /// The name of a fact, likewise.
    Fact(usize, Place),
    /// With the entry that would have too many ends.
    TooWide(u32),
}

use Refusal::{At, Fact, For, Name, Successor, TooWide};

const KINDS: [&str; 4] = ["ORIGINAL_RECORD", "AUTHORITY_CHANGE", "DEPRECATION", "DEPRECATION_MODIFICATION"];
const CORRECTION: &str = "NAME_CORRECTION";
const REMOVAL: &str = "NAME_REMOVAL";
const INFORMATION: &str = "ADDITIONAL_INFORMATION";

/// A member that is a text or isn't there.
fn text_or_empty(value: &Value, key: &str) -> Option<Box<str>> {
    match value.get(key) {
        None => Some(Box::default()),
        Some(text) => text.text().map(Box::from),
    }
}

fn is_date(text: &str) -> bool {
    text.len() == 10 && text.bytes().enumerate().all(|(n, c)| if n == 4 || n == 7 { c == b'-' } else { c.is_ascii_digit() })
}

fn note_of(value: &Value) -> Option<Note> {
    let word = value.get("kind")?.text()?;
    let kind = KINDS.into_iter().find(|&it| it == word)?;
    let date = value.get("date")?.text().filter(|it| is_date(it))?;
    Some(Note { kind, date: Box::from(date), comment: text_or_empty(value, "comment")? })
}

fn provenance_of(record: &Value) -> Option<Option<Box<Provenance>>> {
    let Some(value) = record.get("provenance") else {
        return Some(None);
    };
    let Value::Object(_) = value else {
        return None;
    };
    let notes = match value.get("changes") {
        None => Vec::new(),
        Some(Value::Array(items)) => items.iter().map(note_of).collect::<Option<_>>()?,
        Some(_) => return None,
    };
    let (submitter, authority) = (text_or_empty(value, "submitter")?, text_or_empty(value, "authority")?);
    Some(Some(Box::new(Provenance { submitter, authority, notes })))
}

/// Puts a text between quotes, with the shortest escapes.
fn put_text(text: &[u8], out: &mut Vec<u8>) {
    out.push(b'"');
    let mut rest = text;
    while let Some(at) = rest.iter().position(|&c| c < 0x20 || c == b'"' || c == b'\\') {
        out.extend_from_slice(&rest[..at]);
        match rest[at] {
            c @ (b'"' | b'\\') => out.extend_from_slice(&[b'\\', c]),
            8 => out.extend_from_slice(b"\\b"),
            9 => out.extend_from_slice(b"\\t"),
            10 => out.extend_from_slice(b"\\n"),
            12 => out.extend_from_slice(b"\\f"),
            13 => out.extend_from_slice(b"\\r"),
            c => {
                let digit = |n: u8| b"0123456789abcdef"[usize::from(n)];
                out.extend_from_slice(&[b'\\', b'u', b'0', b'0', digit(c >> 4), digit(c & 15)]);
            }
        }
        rest = &rest[at + 1..];
    }
    out.extend_from_slice(rest);
    out.push(b'"');
}

impl Details {
    fn show(&self, name: &[u8], out: &mut Vec<u8>) {
        let none = Provenance::default();
        let Provenance { submitter, authority, notes } = self.provenance.as_deref().unwrap_or(&none);
        out.extend_from_slice(b",\"name\":");
        put_text(name, out);
        out.extend_from_slice(b",\"provenance\":{\"authority\":");
        put_text(authority.as_bytes(), out);
        out.extend_from_slice(b",\"changes\":[");
        for (n, note) in notes.iter().enumerate() {
            out.extend_from_slice(if n > 0 { b",{\"comment\":" } else { b"{\"comment\":" });
            put_text(note.comment.as_bytes(), out);
            out.extend_from_slice(b",\"date\":");
            put_text(note.date.as_bytes(), out);
            out.extend_from_slice(b",\"kind\":");
            put_text(note.kind.as_bytes(), out);
            out.push(b'}');
        }
        out.extend_from_slice(b"],\"submitter\":");
        put_text(submitter.as_bytes(), out);
        out.extend_from_slice(b"},\"title\":");
        put_text(self.title.as_bytes(), out);
        out.extend_from_slice(b"}\n");
    }
}

impl Dictionary {
    fn add(&mut self, record: &Value, name: &[u8]) -> Result<(), Refusal> {
        let title = text_or_empty(record, "title").ok_or(For(b" member title"))?;
        let provenance = provenance_of(record).ok_or(For(b" member provenance"))?;
        let ends = ends_of(name);
        if (0..3).any(|n| matches!(component(name, &ends, n), b"*" | b"-")) {
            return Err(For(b" not-identifier"));
        }
        if has_wildcards(name, &ends) {
            return Err(For(b" wildcards"));
        }
        if self.find(name).is_some() {
            return Err(For(b" exists"));
        }
        if self.rows.len() == MOST {
            return Err(For(b" full entries"));
        }
        let before = self.numbers.insert(hash_of(name), self.rows.len() as u32);
        self.rows.push(Row { start: self.names.len(), ends, before });
        self.names.extend_from_slice(name);
        self.details.push(Details { title, provenance });
        self.links.push(Links::default());
        Ok(())
    }

    fn name(&self, row: &Row) -> &[u8] {
        &self.names[row.start..row.start + row.ends[10] as usize]
    }

    fn name_at(&self, number: u32) -> &[u8] {
        self.name(&self.rows[number as usize])
    }

    fn find(&self, name: &[u8]) -> Option<usize> {
        let mut next = self.numbers.get(&hash_of(name)).copied();
        while let Some(number) = next {
            let row = &self.rows[number as usize];
            if self.name(row) == name {
                return Some(number as usize);
            }
            next = row.before;
        }
        None
    }

    fn search(&self, active_only: bool, buffers: &mut Buffers, out: &mut Vec<u8>) {
        let Buffers { name, found, plain, .. } = buffers;
        let ends = ends_of(name);
        let asked: Vec<_> = (0..11).filter_map(|n| Some((n, Asked::new(component(name, &ends, n))?))).collect();
        found.clear();
        for (number, row) in self.rows.iter().enumerate() {
            let name = self.name(row);
            if asked.iter().all(|(n, it)| it.fits(component(name, &row.ends, *n), plain)) {
                found.push(number);
            }
        }
        if active_only {
            found.retain(|&number| self.links[number].kind.is_none());
        }
        out.extend_from_slice(b"search ");
        out.extend_from_slice(name);
        out.push(b' ');
        decimal(out, found.len() as u64);
        out.push(b'\n');
        for &number in &*found {
            self.put_row(b"entry ", number as u32, out);
        }
    }

    /// A word, the name of the entry, and its state.
    fn put_row(&self, word: &[u8], number: u32, out: &mut Vec<u8>) {
        out.extend_from_slice(word);
        out.extend_from_slice(self.name_at(number));
        out.push(b' ');
        out.extend_from_slice(self.links[number as usize].state());
        out.push(b'\n');
    }

    fn to(&self, number: u32) -> &[u32] {
        &self.links[number as usize].to
    }

    fn is_end(&self, number: u32) -> bool {
        self.links[number as usize].kind.is_none()
    }

    fn chain(&self, number: Option<u32>, name: &[u8], marks: &mut Marks, out: &mut Vec<u8>) {
        marks.begin(self.rows.len());
        number.into_iter().for_each(|it| marks.add(it));
        marks.go_on(0, |it| self.to(it));
        marks.list.sort_unstable();
        let ends = marks.list.iter().filter(|&&it| self.is_end(it)).count();
        out.extend_from_slice(b"chain ");
        out.extend_from_slice(name);
        out.push(b' ');
        decimal(out, marks.list.len() as u64);
        out.push(b' ');
        decimal(out, ends.max(usize::from(number.is_none())) as u64);
        out.push(b'\n');
        for &it in &marks.list {
            self.put_row(b"step ", it, out);
        }
        let found = marks.list.iter().filter(|&&it| self.is_end(it)).map(|&it| self.name_at(it));
        for end in found.chain(number.is_none().then_some(name)) {
            out.extend_from_slice(b"end ");
            out.extend_from_slice(end);
            out.push(b'\n');
        }
    }

    /// To how many ends paths lead from this entry.
    fn ends(&self, number: u32, marks: &mut Marks) -> usize {
        marks.begin(self.rows.len());
        marks.add(number);
        marks.go_on(0, |it| self.to(it));
        marks.list.iter().filter(|&&it| self.is_end(it)).count()
    }

    /// Tells each end of a name, which is its own where it is no entry.
    fn each_end<'a>(&'a self, name: &'a [u8], marks: &mut Marks, mut tell: impl FnMut(&'a [u8])) {
        let Some(number) = self.find(name) else {
            return tell(name);
        };
        marks.begin(self.rows.len());
        marks.add(number as u32);
        marks.go_on(0, |it| self.to(it));
        marks.list.iter().filter(|&&it| self.is_end(it)).for_each(|&it| tell(self.name_at(it)));
    }

    /// The place of the first successor that leads back to the entry, from 1.
    fn cycle(&self, number: u32, to: &[u32], marks: &mut Marks) -> Option<usize> {
        let is_new = self.links[number as usize].from.is_empty();
        marks.begin(self.rows.len());
        to.iter().position(|&it| {
            if !is_new && it != number {
                // (what an earlier one leads to doesn't lead back)
                let from = marks.list.len();
                marks.add(it);
                marks.go_on(from, |it| self.to(it));
            }
            it == number || marks.has(number)
        })
    }

    /// Puts this kind and these successors in place of those of the entry, which are given back.
    fn swap(&mut self, number: u32, kind: Option<&'static str>, to: Box<[u32]>) -> (Option<&'static str>, Box<[u32]>) {
        let links = &mut self.links[number as usize];
        let old = (std::mem::replace(&mut links.kind, kind), std::mem::replace(&mut links.to, to));
        for &it in &old.1 {
            let from = &mut self.links[it as usize].from;
            let at = from.iter().rposition(|&it| it == number).unwrap_or_default();
            from.swap_remove(at);
        }
        for at in 0..self.to(number).len() {
            let it = self.to(number)[at];
            self.links[it as usize].from.push(number);
        }
        old
    }

    /// Puts this kind and these successors there, unless an entry would have too many ends.
    fn change(&mut self, number: u32, kind: Option<&'static str>, to: Box<[u32]>, marks: &mut Marks) -> Result<(), Refusal> {
        let old = self.swap(number, kind, to);
        if old.0.is_none() && self.ends(number, marks) < 2 {
            // (each that led here loses an end for the one or none that it gets)
            return Ok(());
        }
        marks.begin(self.rows.len());
        marks.add(number);
        marks.go_on(0, |it| &self.links[it as usize].from);
        let mut sources = std::mem::take(&mut marks.list);
        sources.sort_unstable();
        let wide = sources.iter().copied().find(|&it| self.ends(it, marks) > MOST_ENDS);
        marks.list = sources;
        match wide {
            None => Ok(()),
            Some(wide) => {
                self.swap(number, old.0, old.1);
                Err(TooWide(wide))
            }
        }
    }

    /// Reads the kind and the successors of a deprecation; the latter into the buffer.
    fn deprecation_of(&self, record: &Value, buffers: &mut Buffers) -> Result<&'static str, Refusal> {
        let word = record.get("kind").and_then(Value::text).unwrap_or_default();
        let kind = [CORRECTION, REMOVAL, INFORMATION].into_iter().find(|&it| it == word).ok_or(For(b" member kind"))?;
        buffers.to.clear();
        let items = match record.get("successors") {
            None => &[][..],
            Some(Value::Array(items)) if items.iter().all(|it| buffers.is_name(it)) => items,
            Some(_) => return Err(For(b" member successors")),
        };
        for (n, item) in items.iter().enumerate() {
            buffers.read_value(item).map_err(|place| Successor(n + 1, place))?;
            let number = self.find(&buffers.name).map(|it| it as u32);
            buffers.to.push(number);
        }
        Ok(kind)
    }

    /// The successors in the buffer as numbers, all of them entries, all different, and so many as the kind may have.
    fn successors_of(&self, kind: &str, to: &[Option<u32>]) -> Result<Box<[u32]>, Refusal> {
        let is_count = if kind == REMOVAL { to.is_empty() } else { (1..=MOST_SUCCESSORS).contains(&to.len()) };
        if !is_count {
            return Err(For(b" count"));
        }
        if let Some(at) = to.iter().position(Option::is_none) {
            return Err(At(b" unknown-successor ", at + 1));
        }
        match (1..to.len()).find(|&at| to[..at].contains(&to[at])) {
            Some(at) => Err(At(b" repeated-successor ", at + 1)),
            None => Ok(to.iter().copied().flatten().collect()),
        }
    }

    /// Deprecates the entry, amends its deprecation, or restores it.
    fn edit(&mut self, verb: &str, record: &Value, buffers: &mut Buffers) -> Result<(), Refusal> {
        let number = self.find(&buffers.name).map(|it| it as u32);
        let kind = if verb == "restore" { None } else { Some(self.deprecation_of(record, buffers)?) };
        let date = record.get("date").and_then(Value::text).filter(|it| is_date(it)).ok_or(For(b" member date"))?;
        let comment = text_or_empty(record, "comment").ok_or(For(b" member comment"))?;
        let number = number.ok_or(For(b" unknown"))?;
        match (verb, self.is_end(number)) {
            ("deprecate", false) => return Err(For(b" already-deprecated")),
            ("amend" | "restore", true) => return Err(For(b" not-deprecated")),
            _ => {}
        }
        let to = kind.map_or(Ok(Box::default()), |kind| self.successors_of(kind, &buffers.to))?;
        if let Some(at) = self.cycle(number, &to, &mut buffers.marks) {
            return Err(At(b" cycle ", at + 1));
        }
        self.change(number, kind, to, &mut buffers.marks)?;
        let kind = KINDS[if verb == "deprecate" { 2 } else { 3 }];
        let provenance = self.details[number as usize].provenance.get_or_insert_default();
        provenance.notes.push(Note { kind, date: Box::from(date), comment });
        Ok(())
    }

    fn show(&self, number: u32, name: &[u8], out: &mut Vec<u8>) {
        out.extend_from_slice(b"show {\"deprecation\":");
        match self.links[number as usize].kind {
            None => out.extend_from_slice(b"null"),
            Some(kind) => {
                out.extend_from_slice(b"{\"kind\":");
                put_text(kind.as_bytes(), out);
                out.extend_from_slice(b",\"successors\":[");
                for (n, &it) in self.to(number).iter().enumerate() {
                    if n > 0 {
                        out.push(b',');
                    }
                    put_text(self.name_at(it), out);
                }
                out.extend_from_slice(b"]}");
            }
        }
        self.details[number as usize].show(name, out);
    }

    fn resolve(&mut self, verb: &str, record: &Value, buffers: &mut Buffers, out: &mut Vec<u8>) -> Result<(), Refusal> {
        read_name(record, buffers)?;
        match verb {
            "entry" => return self.add(record, &buffers.name),
            "deprecate" | "amend" | "restore" => return self.edit(verb, record, buffers),
            "search" => {
                let active_only = match record.get("active") {
                    None => false,
                    Some(Value::Bool(active)) => *active,
                    Some(_) => return Err(For(b" member active")),
                };
                self.search(active_only, buffers, out);
                return Ok(());
            }
            _ => {}
        }
        let number = self.find(&buffers.name).map(|it| it as u32);
        match (verb, number) {
            ("chain", _) => self.chain(number, &buffers.name, &mut buffers.marks, out),
            ("show", Some(number)) => self.show(number, &buffers.name, out),
            _ => {
                out.extend_from_slice(verb.as_bytes());
                out.push(b' ');
                out.extend_from_slice(&buffers.name);
                out.push(b' ');
                out.extend_from_slice(number.map_or(b"absent", |it| self.links[it as usize].state()));
                out.push(b'\n');
            }
        }
        Ok(())
    }

    fn put_reason(&self, reason: Refusal, out: &mut Vec<u8>) {
        match reason {
            For(word) => out.extend_from_slice(word),
            At(word, place) => {
                out.extend_from_slice(word);
                decimal(out, place as u64);
            }
            Name(place) => put_place(b"name", place, out),
            Successor(number, place) => put_place(format!("successor {number}").as_bytes(), place, out),
            Fact(number, place) => put_place(format!("fact {number}").as_bytes(), place, out),
            TooWide(number) => {
                out.extend_from_slice(b" too-wide ");
                out.extend_from_slice(self.name_at(number));
            }
        }
    }
}

// ---- the inventory

const MOST_ITEMS: usize = 1_000_000;
const MOST_STATEMENTS: usize = 100_000;
const MOST_FACTS: usize = 1_000_000;
const MOST_CHECKS: usize = 100_000;
const DEEPEST_TEST: usize = 32;

/// A truth, as AND prefers them: the least of some is what they make.
type Truth = u8;
const TRUTHS: [&str; 4] = ["FALSE", "ERROR", "UNKNOWN", "TRUE"];
const FALSE: Truth = 0;
const UNKNOWN: Truth = 2;
const TRUE: Truth = 3;

/// Puts which name it is, and where it goes wrong.
fn put_place(which: &[u8], place: Place, out: &mut Vec<u8>) {
    let (word, at) = match place {
        Place::Byte(place) => ("name", place.to_string()),
        Place::Attribute(name) => ("attribute", name.to_string()),
    };
    out.push(b' ');
    out.extend_from_slice(word.as_bytes());
    out.push(b' ');
    out.extend_from_slice(which);
    out.push(b' ');
    out.extend_from_slice(at.as_bytes());
}

fn not(truth: Truth) -> Truth {
    match truth {
        FALSE => TRUE,
        TRUE => FALSE,
        other => other,
    }
}

enum Test {
    Logic { is_or: bool, negate: bool, of: Vec<Test> },
    /// A name as a formatted string.
    Fact(Box<[u8]>),
    /// The three texts of a key in one.
    Check(Box<[u8]>),
}

struct Statement {
    id: Box<str>,
    // (kept, and asked by nobody)
    _title: Box<str>,
    follows: bool,
    facts: usize,
    test: Test,
}

fn text_at<'a>(value: &'a Value, key: &str) -> Option<&'a str> {
    value.get(key).and_then(Value::text)
}

/// The three texts, each after its length.
fn key_of(value: &Value) -> Result<Box<[u8]>, Refusal> {
    let mut key = Vec::new();
    for (member, reason) in [("system", &b" member system"[..]), ("href", b" member href"), ("id", b" member id")] {
        let text = text_at(value, member).ok_or(For(reason))?;
        key.extend_from_slice(&(text.len() as u32).to_le_bytes());
        key.extend_from_slice(text.as_bytes());
    }
    Ok(key.into())
}

fn id_of(record: &Value) -> Result<Box<str>, Refusal> {
    let id = text_at(record, "id").filter(|it| (1..=256).contains(&it.len()) && it.bytes().all(|c| c.is_ascii_graphic()));
    id.map(Box::from).ok_or(For(b" member id"))
}

fn is_logic(value: &Value, buffers: &Buffers) -> bool {
    let is_negate = matches!(value.get("negate"), None | Some(Value::Bool(_)));
    let is_of = match value.get("of") {
        Some(Value::Array(of)) => !of.is_empty() && of.iter().all(|it| is_child(it, buffers)),
        _ => false,
    };
    matches!(text_at(value, "op"), Some("AND" | "OR")) && is_negate && is_of
}

fn is_child(value: &Value, buffers: &Buffers) -> bool {
    match (value.get("op"), value.get("fact"), value.get("check")) {
        (Some(_), _, _) => is_logic(value, buffers),
        (_, Some(fact), _) => buffers.is_name(fact),
        (_, _, Some(check)) => key_of(check).is_ok(),
        _ => false,
    }
}

fn children<'a>(test: &'a Value<'a>) -> &'a [Value<'a>] {
    match test.get("of") {
        Some(Value::Array(of)) if test.get("op").is_some() => of,
        _ => &[],
    }
}

fn depth_of(test: &Value) -> usize {
    usize::from(test.get("op").is_some()) + children(test).iter().map(depth_of).max().unwrap_or(0)
}

/// The test, of which the form is right; the facts before it are counted.
fn test_of(value: &Value, buffers: &mut Buffers, facts: &mut usize) -> Result<Test, Refusal> {
    if let Some(op) = text_at(value, "op") {
        let of = children(value).iter().map(|it| test_of(it, buffers, facts)).collect::<Result<_, _>>()?;
        return Ok(Test::Logic { is_or: op == "OR", negate: matches!(value.get("negate"), Some(Value::Bool(true))), of });
    }
    if let Some(fact) = value.get("fact") {
        *facts += 1;
        buffers.read_value(fact).map_err(|place| Fact(*facts, place))?;
        return Ok(Test::Fact(Box::from(&buffers.name[..])));
    }
    value.get("check").ok_or(For(b" member test")).and_then(key_of).map(Test::Check)
}

fn statement_of(record: &Value, buffers: &mut Buffers) -> Result<Statement, Refusal> {
    let id = id_of(record)?;
    let title = text_or_empty(record, "title").ok_or(For(b" member title"))?;
    let follows = match record.get("mode") {
        None => false,
        Some(mode) => match mode.text() {
            Some("plain") => false,
            Some("follow") => true,
            _ => return Err(For(b" member mode")),
        },
    };
    let value = record.get("test").filter(|it| is_logic(it, buffers)).ok_or(For(b" member test"))?;
    if depth_of(value) > DEEPEST_TEST {
        return Err(For(b" deep"));
    }
    let mut facts = 0;
    let test = test_of(value, buffers, &mut facts)?;
    Ok(Statement { id, _title: title, follows, facts, test })
}

/// Names one after the other, with the places of their components; and of those that are known in part which these are, a bit for each.
#[derive(Default)]
struct Names {
    bytes: Vec<u8>,
    rows: Vec<(usize, [u32; 11])>,
    in_part: Vec<(usize, [u32; 11], u16)>,
}

impl Names {
    fn push(&mut self, name: &[u8]) {
        let ends = ends_of(name);
        if has_wildcards(name, &ends) {
            let specials = (0..11).filter(|&n| has_specials(component(name, &ends, n))).fold(0, |bits, n| bits | 1 << n);
            self.in_part.push((self.bytes.len(), ends, specials));
        } else {
            self.rows.push((self.bytes.len(), ends));
        }
        self.bytes.extend_from_slice(name);
    }

    /// TRUE where the name covers one of these, else UNKNOWN where it may cover one.
    fn truth(&self, name: &[u8], plain: &mut Vec<u8>) -> Truth {
        let ends = ends_of(name);
        let mut asked: Vec<_> = (0..11).filter_map(|n| Some((n, Asked::new(component(name, &ends, n))?))).collect();
        // (what comes later tells more names apart)
        asked.reverse();
        let mut fits = |start: usize, ends: &[u32; 11], specials: u16| {
            let name = &self.bytes[start..start + ends[10] as usize];
            asked.iter().all(|(n, it)| specials & 1 << n != 0 || it.fits(component(name, ends, *n), plain))
        };
        if self.rows.iter().any(|(start, ends)| fits(*start, ends, 0)) {
            TRUE
        } else if self.in_part.iter().any(|(start, ends, specials)| fits(*start, ends, *specials)) {
            UNKNOWN
        } else {
            FALSE
        }
    }
}

/// What an evaluation asks of: the items, and where one of them follows names their ends.
#[derive(Default)]
struct Covered {
    items: Names,
    ends: Names,
}

#[derive(Default)]
struct Inventory {
    // (numbers rise, and so tell the order)
    items: BTreeMap<u64, Box<[u8]>>,
    item_numbers: HashMap<Box<[u8]>, u64>,
    statements: BTreeMap<u64, Statement>,
    statement_numbers: HashMap<Box<str>, u64>,
    facts: usize,
    checks: HashMap<Box<[u8]>, Truth>,
    next: u64,
}

impl Inventory {
    fn number(&mut self) -> u64 {
        self.next += 1;
        self.next
    }

    fn add_item(&mut self, name: &[u8]) -> Result<(), Refusal> {
        if self.item_numbers.contains_key(name) {
            return Err(For(b" exists"));
        }
        if self.items.len() == MOST_ITEMS {
            return Err(For(b" full items"));
        }
        let number = self.number();
        self.items.insert(number, Box::from(name));
        self.item_numbers.insert(Box::from(name), number);
        Ok(())
    }

    fn drop_item(&mut self, name: &[u8]) -> Result<(), Refusal> {
        let number = self.item_numbers.remove(name).ok_or(For(b" unknown"))?;
        self.items.remove(&number);
        Ok(())
    }

    fn put(&mut self, statement: Statement) -> Result<(), Refusal> {
        if self.statement_numbers.contains_key(&statement.id) {
            return Err(For(b" exists"));
        }
        if self.statements.len() == MOST_STATEMENTS {
            return Err(For(b" full statements"));
        }
        if self.facts + statement.facts > MOST_FACTS {
            return Err(For(b" full facts"));
        }
        self.facts += statement.facts;
        let number = self.number();
        self.statement_numbers.insert(statement.id.clone(), number);
        self.statements.insert(number, statement);
        Ok(())
    }

    fn drop_statement(&mut self, id: &str) -> Result<(), Refusal> {
        let number = self.statement_numbers.remove(id).ok_or(For(b" unknown"))?;
        self.facts -= self.statements.remove(&number).map_or(0, |it| it.facts);
        Ok(())
    }

    fn check(&mut self, record: &Value) -> Result<(), Refusal> {
        let key = key_of(record)?;
        let result = text_at(record, "result").and_then(|it| TRUTHS.iter().position(|&truth| truth == it));
        let result = result.ok_or(For(b" member result"))?;
        if self.checks.len() == MOST_CHECKS && !self.checks.contains_key(&key) {
            return Err(For(b" full checks"));
        }
        self.checks.insert(key, result as Truth);
        Ok(())
    }

    fn put_items(&self, buffers: &mut Buffers, out: &mut Vec<u8>) {
        let Buffers { name, plain, .. } = buffers;
        let (mut found, mut perhaps) = (Vec::new(), Vec::new());
        for item in self.items.values() {
            let mut alone = Names::default();
            alone.push(item);
            match alone.truth(name, plain) {
                TRUE => found.push(item),
                UNKNOWN => perhaps.push(item),
                _ => {}
            }
        }
        out.extend_from_slice(b"items ");
        out.extend_from_slice(name);
        out.push(b' ');
        decimal(out, found.len() as u64);
        out.push(b'\n');
        for (word, items) in [(&b"item "[..], found), (&b"maybe "[..], perhaps)] {
            for item in items {
                out.extend_from_slice(word);
                out.extend_from_slice(item);
                out.push(b'\n');
            }
        }
    }

    fn covered(&self, dictionary: &Dictionary, follows: bool, marks: &mut Marks) -> Covered {
        let mut covered = Covered::default();
        for item in self.items.values() {
            covered.items.push(item);
        }
        if follows {
            self.items.values().for_each(|it| dictionary.each_end(it, marks, |end| covered.ends.push(end)));
        }
        covered
    }

    fn truth(&self, test: &Test, fact: &mut impl FnMut(&[u8]) -> Truth) -> Truth {
        match test {
            Test::Fact(name) => fact(name),
            Test::Check(key) => self.checks.get(key).copied().unwrap_or(UNKNOWN),
            Test::Logic { is_or, negate, of } => {
                let mut found = TRUE;
                for child in of {
                    let truth = self.truth(child, fact);
                    found = found.min(if *is_or { not(truth) } else { truth });
                    if found == FALSE {
                        break;
                    }
                }
                if is_or == negate { found } else { not(found) }
            }
        }
    }

    fn verdict_of(&self, statement: &Statement, dictionary: &Dictionary, covered: &Covered, buffers: &mut Buffers) -> Truth {
        let Buffers { plain, marks, .. } = buffers;
        self.truth(&statement.test, &mut |name| {
            if !statement.follows {
                return covered.items.truth(name, plain);
            }
            let mut found = FALSE;
            dictionary.each_end(name, marks, |end| {
                if found != TRUE {
                    found = found.max(covered.ends.truth(end, plain));
                }
            });
            found
        })
    }

    fn put_verdict(&self, statement: &Statement, dictionary: &Dictionary, covered: &Covered, buffers: &mut Buffers, out: &mut Vec<u8>) {
        let truth = self.verdict_of(statement, dictionary, covered, buffers);
        put_words(&["verdict", &statement.id, TRUTHS[truth as usize]], out);
    }

    fn verdict(&self, id: &str, dictionary: &Dictionary, buffers: &mut Buffers, out: &mut Vec<u8>) {
        match self.statement_numbers.get(id).and_then(|it| self.statements.get(it)) {
            None => put_words(&["verdict", id, "absent"], out),
            Some(it) => {
                let covered = self.covered(dictionary, it.follows, &mut buffers.marks);
                self.put_verdict(it, dictionary, &covered, buffers, out);
            }
        }
    }

    fn put_table(&self, dictionary: &Dictionary, buffers: &mut Buffers, out: &mut Vec<u8>) {
        let covered = self.covered(dictionary, self.statements.values().any(|it| it.follows), &mut buffers.marks);
        out.extend_from_slice(b"verdicts ");
        decimal(out, self.statements.len() as u64);
        out.push(b'\n');
        for it in self.statements.values() {
            self.put_verdict(it, dictionary, &covered, buffers, out);
        }
    }

    /// Answers a record of an inventory, or applies it.
    fn answer(&mut self, verb: &str, record: &Value, dictionary: &Dictionary, buffers: &mut Buffers, out: &mut Vec<u8>) -> Result<(), Refusal> {
        match verb {
            "item" | "drop-item" | "items" => {
                read_name(record, buffers)?;
                match verb {
                    "item" => return self.add_item(&buffers.name),
                    "drop-item" => return self.drop_item(&buffers.name),
                    _ => self.put_items(buffers, out),
                }
            }
            "statement" => return self.put(statement_of(record, buffers)?),
            "drop-statement" => return self.drop_statement(&id_of(record)?),
            "verdict" => self.verdict(&id_of(record)?, dictionary, buffers, out),
            "check" => return self.check(record),
            "drop-check" => return self.checks.remove(&key_of(record)?).map(|_| ()).ok_or(For(b" unknown")),
            _ => return Err(For(b" member do")),
        }
        Ok(())
    }
}

/// What of a watched edit is told: the statements whose verdicts it may move, or the one that it puts or drops.
enum Concerned {
    Nobody,
    Some(Vec<u64>),
    Put,
    Drop(Box<str>),
}

impl Test {
    fn asks(&self, key: &[u8]) -> bool {
        match self {
            Test::Logic { of, .. } => of.iter().any(|it| it.asks(key)),
            Test::Fact(_) => false,
            Test::Check(asked) => **asked == *key,
        }
    }
}

impl Inventory {
    fn numbers_where(&self, mut test: impl FnMut(&Statement) -> bool) -> Concerned {
        Concerned::Some(self.statements.iter().filter(|(_, it)| test(it)).map(|(&number, _)| number).collect())
    }

    fn concerned(&self, verb: &str, record: &Value) -> Concerned {
        match verb {
            "item" | "drop-item" => self.numbers_where(|it| it.facts > 0),
            "deprecate" | "amend" | "restore" => self.numbers_where(|it| it.facts > 0 && it.follows),
            "check" | "drop-check" => key_of(record).map_or(Concerned::Nobody, |key| self.numbers_where(|it| it.test.asks(&key))),
            "statement" => Concerned::Put,
            "drop-statement" => id_of(record).map_or(Concerned::Nobody, Concerned::Drop),
            _ => Concerned::Nobody,
        }
    }

    fn truths(&self, numbers: &[u64], dictionary: &Dictionary, buffers: &mut Buffers) -> Vec<Truth> {
        if numbers.is_empty() {
            return Vec::new();
        }
        let all = || numbers.iter().map(|it| &self.statements[it]);
        let covered = self.covered(dictionary, all().any(|it| it.follows), &mut buffers.marks);
        all().map(|it| self.verdict_of(it, dictionary, &covered, buffers)).collect()
    }

    /// The verdicts, before an edit, of the statements that it concerns.
    fn before(&self, concerned: &Concerned, dictionary: &Dictionary, buffers: &mut Buffers) -> Vec<Truth> {
        match concerned {
            Concerned::Some(numbers) => self.truths(numbers, dictionary, buffers),
            Concerned::Drop(id) => self.statement_numbers.get(id).map_or(Vec::new(), |it| self.truths(&[*it], dictionary, buffers)),
            Concerned::Nobody | Concerned::Put => Vec::new(),
        }
    }

    /// Tells, after an edit, whose verdict is another one.
    fn put_changes(&self, line: u64, concerned: &Concerned, before: &[Truth], dictionary: &Dictionary, buffers: &mut Buffers, out: &mut Vec<u8>) {
        match concerned {
            Concerned::Nobody => {}
            Concerned::Some(numbers) => {
                let after = self.truths(numbers, dictionary, buffers);
                for ((number, &old), &new) in numbers.iter().zip(before).zip(&after) {
                    if old != new {
                        put_change(line, &self.statements[number].id, TRUTHS[old as usize], TRUTHS[new as usize], out);
                    }
                }
            }
            Concerned::Put => {
                let after = self.truths(&[self.next], dictionary, buffers)[0];
                put_change(line, &self.statements[&self.next].id, "none", TRUTHS[after as usize], out);
            }
            Concerned::Drop(id) => put_change(line, id, TRUTHS[before[0] as usize], "none", out),
        }
    }
}

fn put_change(line: u64, id: &str, before: &str, after: &str, out: &mut Vec<u8>) {
    out.extend_from_slice(b"changed ");
    decimal(out, line);
    out.push(b' ');
    put_words(&[id, before, after], out);
}

/// The words with spaces between, as a line.
fn put_words(words: &[&str], out: &mut Vec<u8>) {
    for word in words {
        out.extend_from_slice(word.as_bytes());
        out.push(b' ');
    }
    out.pop();
    out.push(b'\n');
}

// ---- lines

fn decimal(out: &mut Vec<u8>, number: u64) {
    let (mut digits, mut first, mut rest) = ([0; 20], 20, number);
    loop {
        first -= 1;
        digits[first] = b'0' + (rest % 10) as u8;
        rest /= 10;
        if rest == 0 {
            break;
        }
    }
    out.extend_from_slice(&digits[first..]);
}

fn refuse(out: &mut Vec<u8>, number: u64, reason: &[u8]) {
    out.extend_from_slice(b"refused ");
    decimal(out, number);
    out.extend_from_slice(reason);
}

/// The kinds of records.
const VERBS: [&str; 16] = [
    "entry", "deprecate", "amend", "restore", "lookup", "search", "chain", "show", "item", "drop-item", "items", "statement",
    "drop-statement", "verdict", "check", "drop-check",
];

#[derive(Default)]
struct Kept {
    dictionary: Dictionary,
    inventory: Inventory,
    watches: bool,
}

impl Kept {
    fn say(&mut self, buffers: &mut Buffers, number: u64, line: &[u8], out: &mut Vec<u8>) -> Result<(), Refusal> {
        let record = value_of(line).ok_or(For(b" json"))?;
        let verb = record.get("do").and_then(Value::text).unwrap_or_default();
        if !self.watches {
            return self.resolve(verb, &record, buffers, out);
        }
        let concerned = self.inventory.concerned(verb, &record);
        let before = self.inventory.before(&concerned, &self.dictionary, buffers);
        self.resolve(verb, &record, buffers, out)?;
        self.inventory.put_changes(number, &concerned, &before, &self.dictionary, buffers, out);
        Ok(())
    }

    fn resolve(&mut self, verb: &str, record: &Value, buffers: &mut Buffers, out: &mut Vec<u8>) -> Result<(), Refusal> {
        let format = record.get("v");
        buffers.is_second = format.is_some();
        if format.is_some_and(|it| it.text() != Some("2")) {
            return Err(For(if VERBS.contains(&verb) { b" member v" } else { b" member do" }));
        }
        match verb {
            "entry" | "deprecate" | "amend" | "restore" | "lookup" | "search" | "chain" | "show" => {
                self.dictionary.resolve(verb, record, buffers, out)
            }
            _ => self.inventory.answer(verb, record, &self.dictionary, buffers, out),
        }
    }
}

/// Answers the line of this number, without its newline; tells whether it was refused.
fn answer(kept: &mut Kept, buffers: &mut Buffers, out: &mut Vec<u8>, number: u64, line: &[u8]) -> bool {
    let text = line.strip_suffix(b"\r").unwrap_or(line);
    if text.is_empty() {
        return false;
    }
    let Err(reason) = kept.say(buffers, number, text, out) else {
        return false;
    };
    refuse(out, number, b"");
    kept.dictionary.put_reason(reason, out);
    out.push(b'\n');
    true
}

fn main() -> io::Result<ExitCode> {
    let (mut input, mut output) = (io::stdin().lock(), io::stdout().lock());
    let mut block = vec![0; 1 << 17];
    let mut out = Vec::with_capacity(1 << 18);
    let word = std::env::args().nth(1).unwrap_or_default();
    let (mut kept, mut buffers) = (Kept { watches: word == "watch", ..Kept::default() }, Buffers::default());
    // A long line is dropped as it comes, up to its newline or the end of input.
    let (mut have, mut number, mut refused, mut is_long) = (0, 0, false, false);
    loop {
        let got = input.read(&mut block[have..])?;
        have += got;
        let mut start = 0;
        while start < have || (is_long && got == 0) {
            let rest = &block[start..have];
            let (len, next) = match rest.iter().position(|&c| c == b'\n') {
                Some(k) => (k, k + 1),
                None if got == 0 => (rest.len(), rest.len()),
                None => break,
            };
            start += next;
            number += 1;
            if is_long || len > LONGEST {
                is_long = false;
                refused = true;
                refuse(&mut out, number, b" long\n");
            } else {
                refused |= answer(&mut kept, &mut buffers, &mut out, number, &rest[..len]);
            }
            if out.len() >= 1 << 16 {
                output.write_all(&out)?;
                out.clear();
            }
        }
        if got == 0 {
            break;
        }
        block.copy_within(start..have, 0);
        have -= start;
        if have > LONGEST {
            is_long = true;
            have = 0;
        }
    }
    if word == "evaluate" {
        kept.inventory.put_table(&kept.dictionary, &mut buffers, &mut out);
    }
    output.write_all(&out)?;
    output.flush()?;
    Ok(ExitCode::from(u8::from(refused)))
}
