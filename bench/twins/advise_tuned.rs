//! The tuned twin of `cpe advise`: the same answers from safe Rust with std alone and no proof, written
//! for speed. JSON is read by hand into the few members that records have, whose texts are borrowed from
//! the line; a name becomes its formatted string in lower case. Texts stand one after the other in one
//! block for items and one for advisories, and hash maps find an item by its name, an advisory by its id,
//! and those of a product by the hash of it.
mod reading_tuned;

use reading_tuned::{KEYS, unbind};
use std::borrow::Cow;
use std::collections::HashMap;
use std::hash::{BuildHasherDefault, Hasher};
use std::io::{self, Read, Write};
use std::ops::Range;
use std::process::ExitCode;

/// The most bytes of a line before its newline.
const LONGEST: usize = 65_536;

/// How deep arrays and objects may nest.
const DEEPEST: usize = 127;

/// The most items and advisories, and what all of them may weigh.
const MOST_ITEMS: usize = 1_000_000;
const MOST_ADVISORIES: usize = 100_000;
const MOST_WEIGHT: usize = 536_870_912;

/// The places of two components of a name.
const PRODUCT: usize = 2;
const VERSION: usize = 3;

// ---- JSON

/// What a member is, as far as a record asks.
#[derive(Default)]
enum Member<'a> {
    #[default]
    Absent,
    Text(Cow<'a, str>),
    Flag(bool),
    Other,
}

/// The members that records have; the others are read and passed over.
const MEMBERS: [&str; 7] = ["do", "id", "name", "start", "end", "start-excluded", "end-excluded"];

#[derive(Default)]
struct Record<'a>([Member<'a>; 7]);

impl Record<'_> {
    fn member(&self, key: &str) -> &Member<'_> {
        MEMBERS.iter().position(|&it| it == key).map_or(&Member::Absent, |at| &self.0[at])
    }

    fn text(&self, key: &str) -> Option<&str> {
        match self.member(key) {
            Member::Text(text) => Some(text),
            _ => None,
        }
    }
}

struct Reader<'a> {
    text: &'a str,
    pos: usize,
}

impl<'a> Reader<'a> {
    fn peek(&self) -> u8 {
        self.text.as_bytes().get(self.pos).copied().unwrap_or(0)
    }

    fn blanks(&mut self) {
        while matches!(self.peek(), b' ' | b'\t' | b'\n' | b'\r') {
            self.pos += 1;
        }
    }

    fn eat(&mut self, want: u8) -> bool {
        let yes = self.peek() == want;
        self.pos += usize::from(yes);
        yes
    }

    fn word(&mut self, word: &str, value: Member<'a>) -> Option<Member<'a>> {
        self.text[self.pos..].starts_with(word).then(|| {
            self.pos += word.len();
            value
        })
    }

    fn value(&mut self, depth: usize) -> Option<Member<'a>> {
        self.blanks();
        match self.peek() {
            b'"' => self.string().map(Member::Text),
            b'{' => self.object(depth, |_, _| {}),
            b'[' => self.array(depth),
            b't' => self.word("true", Member::Flag(true)),
            b'f' => self.word("false", Member::Flag(false)),
            b'n' => self.word("null", Member::Other),
            _ => self.number(),
        }
    }

    /// Tells each member of an object, in order.
    fn object(&mut self, depth: usize, mut tell: impl FnMut(Cow<'a, str>, Member<'a>)) -> Option<Member<'a>> {
        let inside = depth.checked_sub(1)?;
        self.pos += 1;
        self.blanks();
        if self.eat(b'}') {
            return Some(Member::Other);
        }
        loop {
            self.blanks();
            if self.peek() != b'"' {
                return None;
            }
            let key = self.string()?;
            self.blanks();
            if !self.eat(b':') {
                return None;
            }
            tell(key, self.value(inside)?);
            self.blanks();
            if self.eat(b'}') {
                return Some(Member::Other);
            }
            if !self.eat(b',') {
                return None;
            }
        }
    }

    fn array(&mut self, depth: usize) -> Option<Member<'a>> {
        let inside = depth.checked_sub(1)?;
        self.pos += 1;
        self.blanks();
        if self.eat(b']') {
            return Some(Member::Other);
        }
        loop {
            self.value(inside)?;
            self.blanks();
            if self.eat(b']') {
                return Some(Member::Other);
            }
            if !self.eat(b',') {
                return None;
            }
        }
    }

    /// Where the bytes that stand for themselves in a string end.
    fn plain(&self) -> usize {
        let rest = &self.text.as_bytes()[self.pos..];
        let stops = |&c: &u8| c < 0x20 || c == b'"' || c == b'\\';
        self.pos + rest.iter().position(stops).unwrap_or(rest.len())
    }

    fn string(&mut self) -> Option<Cow<'a, str>> {
        self.pos += 1;
        let end = self.plain();
        let front = &self.text[self.pos..end];
        self.pos = end;
        if self.eat(b'"') {
            return Some(Cow::Borrowed(front));
        }
        let mut out = front.to_string();
        loop {
            if self.eat(b'"') {
                return Some(Cow::Owned(out));
            }
            if !self.eat(b'\\') {
                return None;
            }
            out.push(self.escaped()?);
            let end = self.plain();
            out.push_str(&self.text[self.pos..end]);
            self.pos = end;
        }
    }

    /// The character whose escape stands here, after its backslash.
    fn escaped(&mut self) -> Option<char> {
        let c = self.peek();
        self.pos += 1;
        Some(match c {
            b'"' | b'\\' | b'/' => char::from(c),
            b'b' => '\x08',
            b'f' => '\x0c',
            b'n' => '\n',
            b'r' => '\r',
            b't' => '\t',
            b'u' => {
                let unit = self.unit()?;
                if (0xd800..0xdc00).contains(&unit) && self.eat(b'\\') && self.eat(b'u') {
                    let low = self.unit()?.checked_sub(0xdc00).filter(|&it| it < 0x400)?;
                    return char::from_u32(0x10000 + ((unit - 0xd800) << 10) + low);
                }
                return char::from_u32(unit);
            }
            _ => return None,
        })
    }

    fn unit(&mut self) -> Option<u32> {
        let digits = self.text.as_bytes().get(self.pos..self.pos + 4)?;
        self.pos += 4;
        digits.iter().try_fold(0, |unit, &c| Some(16 * unit + char::from(c).to_digit(16)?))
    }

    fn digits(&mut self) -> Option<()> {
        let start = self.pos;
        while self.peek().is_ascii_digit() {
            self.pos += 1;
        }
        (self.pos > start).then_some(())
    }

    /// A number is passed over; one that no finite float is near has no value.
    fn number(&mut self) -> Option<Member<'a>> {
        let start = self.pos;
        self.eat(b'-');
        if !self.eat(b'0') {
            self.digits()?;
        }
        if self.eat(b'.') {
            self.digits()?;
        }
        let mut is_small = self.pos - start < 300;
        if matches!(self.peek(), b'e' | b'E') {
            is_small = false;
            self.pos += 1;
            if !self.eat(b'-') {
                self.eat(b'+');
            }
            self.digits()?;
        }
        let is_finite = is_small || self.text[start..self.pos].parse::<f64>().is_ok_and(f64::is_finite);
        is_finite.then_some(Member::Other)
    }
}

/// The members of the object that a line is, the last of equal ones; of another value there are none.
fn record_of(line: &[u8]) -> Option<Record<'_>> {
    let mut reader = Reader { text: std::str::from_utf8(line).ok()?, pos: 0 };
    let mut record = Record::default();
    reader.blanks();
    if reader.peek() == b'{' {
        reader.object(DEEPEST, |key, value| {
            if let Some(at) = MEMBERS.iter().position(|&it| it == key) {
                record.0[at] = value;
            }
        })?;
    } else {
        reader.value(DEEPEST)?;
    }
    reader.blanks();
    (reader.pos == line.len()).then_some(record)
}

// ---- names

/// Puts the value of a text of a name, at its place `i`, as a formatted string has it; gives where it ends.
fn put_component(text: &[u8], mut i: usize, out: &mut Vec<u8>) -> usize {
    match text[i] {
        b'A' => out.push(b'*'),
        b'N' => out.push(b'-'),
        _ => {
            i += 1;
            while text[i] != b'"' {
                if text[i] == b'\\' {
                    i += usize::from(matches!(text[i + 1], b'.' | b'-'));
                    if text[i] == b'\\' {
                        out.push(b'\\');
                        i += 1;
                    }
                }
                out.push(text[i].to_ascii_lowercase());
                i += 1;
            }
            return i + 1;
        }
    }
    i + if text[i] == b'A' { 3 } else { 2 }
}

/// Where the eleven components of a formatted string end.
fn ends_of(name: &[u8]) -> [u32; 11] {
    let (mut ends, mut at, mut i) = ([0; 11], 0, 8);
    while i < name.len() {
        match name[i] {
            b'\\' => i += 1,
            b':' => {
                ends[at] = i as u32;
                at += 1;
            }
            _ => {}
        }
        i += 1;
    }
    ends[10] = name.len() as u32;
    ends
}

/// The component of this number.
fn component<'a>(name: &'a [u8], ends: &[u32; 11], n: usize) -> &'a [u8] {
    let start = if n == 0 { 8 } else { ends[n - 1] as usize + 1 };
    &name[start..ends[n] as usize]
}

fn is_any(text: &[u8]) -> bool {
    text == b"*"
}

/// Where the body of a component stands between its specials.
fn body_of(text: &[u8]) -> Range<usize> {
    let is_special = |c: &u8| matches!(c, b'*' | b'?');
    let low = text.iter().position(|c| !is_special(c)).unwrap_or(text.len());
    let mut high = low;
    while high < text.len() && !is_special(&text[high]) {
        high += 1 + usize::from(text[high] == b'\\');
    }
    low..high
}

fn is_pattern(text: &[u8]) -> bool {
    text.iter().any(|c| matches!(c, b'*' | b'?')) && !is_any(text) && body_of(text) != (0..text.len())
}

/// A component without its backslashes.
fn unquoted(text: &[u8]) -> Cow<'_, [u8]> {
    if !text.contains(&b'\\') {
        return Cow::Borrowed(text);
    }
    let mut plain = Vec::new();
    let mut i = 0;
    while i < text.len() {
        i += usize::from(text[i] == b'\\');
        plain.push(text[i]);
        i += 1;
    }
    Cow::Owned(plain)
}

fn most(specials: &[u8]) -> usize {
    if specials == b"*" { usize::MAX } else { specials.len() }
}

/// Whether the pattern, a component with a special, matches a component without one.
fn matches(pattern: &[u8], text: &[u8]) -> bool {
    if matches!(text, b"*" | b"-") {
        return false;
    }
    let body = body_of(pattern);
    let (before, behind) = (most(&pattern[..body.start]), most(&pattern[body.end..]));
    let (body, text) = (unquoted(&pattern[body]), unquoted(text));
    let Some(room) = text.len().checked_sub(body.len()) else {
        return false;
    };
    let (first, last) = (room - room.min(behind), room.min(before));
    (first..=last).any(|at| text[at..at + body.len()] == *body)
}

/// Buffers that stay from line to line.
#[derive(Default)]
struct Buffers {
    /// The text of a name, as `cpe unbind` writes it.
    wfn: Vec<u8>,
    /// Its formatted string in lower case, and where its components end.
    name: Vec<u8>,
    ends: [u32; 11],
    /// The numbers of the rows that were found.
    found: Vec<u32>,
}

impl Buffers {
    /// Reads the name of a record, or gives the reason why there is none.
    fn read_name(&mut self, record: &Record) -> Result<(), Refusal> {
        let text = record.text("name").ok_or(For(b" member name"))?.as_bytes();
        self.wfn.clear();
        self.name.clear();
        unbind(text, &mut self.wfn).map_err(NoName)?;
        if text[4] == b'/' {
            self.name.extend_from_slice(b"cpe:2.3");
            let mut i = 0;
            for key in KEYS {
                self.name.push(b':');
                i = put_component(&self.wfn, i + key.len(), &mut self.name);
            }
        } else {
            self.name.extend_from_slice(text);
            self.name.make_ascii_lowercase();
        }
        self.ends = ends_of(&self.name);
        Ok(())
    }

    fn component(&self, n: usize) -> &[u8] {
        component(&self.name, &self.ends, n)
    }

    fn has_wildcards(&self) -> bool {
        self.name.iter().any(|c| matches!(c, b'*' | b'?')) && (0..11).any(|n| is_pattern(self.component(n)))
    }
}

// ---- versions

/// The pieces of versions, each kind less than the next. A number has how many digits there are without zeros in front.
#[derive(PartialEq, Eq, PartialOrd, Ord)]
enum Piece<'a> {
    Word(&'a [u8]),
    End,
    Number(usize, &'a [u8]),
}

/// The first piece of a version in lower case, and what stands after it. (A backslash separates, as what it quotes does.)
fn first_piece(version: &[u8]) -> (Piece<'_>, &[u8]) {
    let Some(start) = version.iter().position(u8::is_ascii_alphanumeric) else {
        return (Piece::End, b"");
    };
    let text = &version[start..];
    let is_kin = if text[0].is_ascii_digit() { u8::is_ascii_digit } else { u8::is_ascii_alphabetic };
    let (run, rest) = text.split_at(text.iter().position(|c| !is_kin(c)).unwrap_or(text.len()));
    if !run[0].is_ascii_digit() {
        return (Piece::Word(run), rest);
    }
    let number = &run[run.iter().position(|&c| c != b'0').unwrap_or(run.len())..];
    (Piece::Number(number.len(), number), rest)
}

fn version_cmp(mut left: &[u8], mut right: &[u8]) -> std::cmp::Ordering {
    loop {
        let ((one, behind_one), (other, behind_other)) = (first_piece(left), first_piece(right));
        let order = one.cmp(&other);
        if order.is_ne() || one == Piece::End {
            return order;
        }
        (left, right) = (behind_one, behind_other);
    }
}

// ---- rows

/// A hash over eight bytes at a time.
fn hash_of(bytes: &[u8]) -> u64 {
    let mut hash = 0_u64;
    for piece in bytes.chunks(8) {
        let mut eight = [0; 8];
        eight[..piece.len()].copy_from_slice(piece);
        hash = (hash.rotate_left(5) ^ u64::from_le_bytes(eight)).wrapping_mul(0x9e37_79b9_7f4a_7c15);
    }
    hash ^ (hash >> 32)
}

/// The hash of what is a hash already.
#[derive(Default)]
struct Hashed(u64);

impl Hasher for Hashed {
    fn finish(&self) -> u64 {
        self.0
    }

    fn write(&mut self, _: &[u8]) {}

    fn write_u64(&mut self, hash: u64) {
        self.0 = hash;
    }
}

type ByHash<T> = HashMap<u64, T, BuildHasherDefault<Hashed>>;

/// The numbers of rows by the hash of a text of theirs, rising: all that have the text are among those of its hash.
#[derive(Default)]
struct Groups(ByHash<Vec<u32>>);

impl Groups {
    fn get(&self, text: &[u8]) -> &[u32] {
        self.0.get(&hash_of(text)).map_or(&[], Vec::as_slice)
    }

    fn push(&mut self, text: &[u8], number: u32) {
        self.0.entry(hash_of(text)).or_default().push(number);
    }

    fn remove(&mut self, text: &[u8], number: u32) {
        if let Some(group) = self.0.get_mut(&hash_of(text)) {
            remove_number(group, number);
            if group.is_empty() {
                self.0.remove(&hash_of(text));
            }
        }
    }
}

fn remove_number(numbers: &mut Vec<u32>, number: u32) {
    if let Ok(at) = numbers.binary_search(&number) {
        numbers.remove(at);
    }
}

/// The rows that are there by the hash of their key, and one after the other those whose keys have one hash.
#[derive(Default)]
struct ByKey {
    first: ByHash<u32>,
    /// By the number of a row, the next whose key has the same hash.
    next: Vec<Option<u32>>,
}

impl ByKey {
    fn find(&self, key: &[u8], is_it: impl Fn(u32) -> bool) -> Option<u32> {
        let mut next = self.first.get(&hash_of(key)).copied();
        while let Some(number) = next.filter(|&it| !is_it(it)) {
            next = self.next[number as usize];
        }
        next
    }

    /// Adds the row of the next number.
    fn push(&mut self, key: &[u8]) {
        let number = self.next.len() as u32;
        let next = self.first.insert(hash_of(key), number);
        self.next.push(next);
    }

    fn remove(&mut self, key: &[u8], number: u32) {
        let behind = self.next[number as usize];
        let Some(first) = self.first.get_mut(&hash_of(key)) else {
            return;
        };
        let mut at = *first;
        if at == number {
            match behind {
                Some(other) => *first = other,
                None => drop(self.first.remove(&hash_of(key))),
            }
            return;
        }
        while let Some(other) = self.next[at as usize] {
            if other == number {
                self.next[at as usize] = behind;
                return;
            }
            at = other;
        }
    }
}

/// Where a name stands in a block, and where its components end; `is_there` until it is dropped.
struct Item {
    start: usize,
    ends: [u32; 11],
    is_there: bool,
}

#[derive(Default)]
struct Items {
    names: Vec<u8>,
    rows: Vec<Item>,
    count: usize,
    by_name: ByKey,
    by_product: Groups,
}

impl Items {
    fn name(&self, number: u32) -> &[u8] {
        let row = &self.rows[number as usize];
        &self.names[row.start..row.start + row.ends[10] as usize]
    }

    fn find(&self, name: &[u8]) -> Option<u32> {
        self.by_name.find(name, |it| self.name(it) == name)
    }

    fn push(&mut self, name: &[u8], ends: [u32; 11]) {
        self.by_product.push(component(name, &ends, PRODUCT), self.rows.len() as u32);
        self.by_name.push(name);
        self.rows.push(Item { start: self.names.len(), ends, is_there: true });
        self.names.extend_from_slice(name);
        self.count += 1;
    }

    fn remove(&mut self, number: u32, name: &[u8], product: &[u8]) {
        self.by_name.remove(name, number);
        self.by_product.remove(product, number);
        self.rows[number as usize].is_there = false;
        self.count -= 1;
    }
}

/// A bound of versions, which stands in lower case in the block of texts.
struct Bound {
    version: Range<usize>,
    is_excluded: bool,
}

/// An advisory, whose texts stand in a block; it is there until it is dropped.
struct Advisory {
    id: Range<usize>,
    name: Range<usize>,
    ends: [u32; 11],
    /// The components that are not ANY, a bit each, and of these the ones with a special.
    asked: u16,
    patterns: u16,
    start: Option<Bound>,
    end: Option<Bound>,
    is_there: bool,
}

#[derive(Default)]
struct Advisories {
    texts: Vec<u8>,
    rows: Vec<Advisory>,
    count: usize,
    by_id: ByKey,
    /// Those of one product or of NA, by it, and the others.
    by_product: Groups,
    of_many: Vec<u32>,
}

fn is_of_many(product: &[u8]) -> bool {
    is_any(product) || is_pattern(product)
}

impl Advisories {
    fn text(&self, range: &Range<usize>) -> &[u8] {
        &self.texts[range.clone()]
    }

    fn find(&self, id: &[u8]) -> Option<u32> {
        self.by_id.find(id, |it| self.text(&self.rows[it as usize].id) == id)
    }

    fn keep(&mut self, text: &[u8]) -> Range<usize> {
        let start = self.texts.len();
        self.texts.extend_from_slice(text);
        start..self.texts.len()
    }

    fn keep_bound(&mut self, bound: Option<(&[u8], bool)>) -> Option<Bound> {
        bound.map(|(text, is_excluded)| {
            let version = self.keep(text);
            self.texts[version.clone()].make_ascii_lowercase();
            Bound { version, is_excluded }
        })
    }

    fn push(&mut self, id: &[u8], buffers: &Buffers, bounds: [Option<(&[u8], bool)>; 2]) {
        let number = self.rows.len() as u32;
        let bits = |is_set: fn(&[u8]) -> bool| (0..11).map(|n| u16::from(is_set(buffers.component(n))) << n).sum();
        let product = buffers.component(PRODUCT);
        if is_of_many(product) {
            self.of_many.push(number);
        } else {
            self.by_product.push(product, number);
        }
        self.by_id.push(id);
        let row = Advisory {
            id: self.keep(id),
            name: self.keep(&buffers.name),
            ends: buffers.ends,
            asked: bits(|it| !is_any(it)),
            patterns: bits(is_pattern),
            start: self.keep_bound(bounds[0]),
            end: self.keep_bound(bounds[1]),
            is_there: true,
        };
        self.rows.push(row);
        self.count += 1;
    }

    /// Takes the advisory of this number out; gives what it weighed.
    fn remove(&mut self, number: u32) -> usize {
        let Advisories { texts, rows, by_id, by_product, of_many, count } = self;
        let row = &mut rows[number as usize];
        let product = component(&texts[row.name.clone()], &row.ends, PRODUCT);
        if is_of_many(product) {
            remove_number(of_many, number);
        } else {
            by_product.remove(product, number);
        }
        by_id.remove(&texts[row.id.clone()], number);
        row.is_there = false;
        *count -= 1;
        let len_of = |it: &Option<Bound>| it.as_ref().map_or(0, |bound| bound.version.len());
        32 + row.id.len() + row.name.len() + len_of(&row.start) + len_of(&row.end)
    }

    fn is_in_range(&self, row: &Advisory, version: &[u8]) -> bool {
        let is_met = |bound: &Option<Bound>, is_end: bool| {
            bound.as_ref().is_none_or(|it| {
                let order = version_cmp(self.text(&it.version), version);
                let order = if is_end { order.reverse() } else { order };
                order.is_lt() || order.is_eq() && !it.is_excluded
            })
        };
        let is_bound = row.start.is_some() || row.end.is_some();
        !is_bound || !matches!(version, b"*" | b"-") && is_met(&row.start, false) && is_met(&row.end, true)
    }

    /// Whether the advisory affects a name without specials.
    fn affects(&self, row: &Advisory, name: &[u8], ends: &[u32; 11]) -> bool {
        let own = self.text(&row.name);
        let mut left = row.asked;
        while left != 0 {
            let n = left.trailing_zeros() as usize;
            let (asked, text) = (component(own, &row.ends, n), component(name, ends, n));
            let fits = if (row.patterns >> n) & 1 == 1 { matches(asked, text) } else { asked == text };
            if !fits {
                return false;
            }
            left &= left - 1;
        }
        self.is_in_range(row, component(name, ends, VERSION))
    }
}

// ---- records

/// The reason why a line is refused.
enum Refusal {
    For(&'static [u8]),
    /// The place where a name goes wrong.
    NoName(usize),
}

use Refusal::{For, NoName};

/// An id, or a version: 1 to 256 bytes of printable ASCII without a space.
fn is_short(text: &str) -> bool {
    (1..=256).contains(&text.len()) && text.bytes().all(|c| c.is_ascii_graphic())
}

fn id_of<'a>(record: &'a Record) -> Result<&'a [u8], Refusal> {
    record.text("id").filter(|it| is_short(it)).map(str::as_bytes).ok_or(For(b" member id"))
}

fn bound_of<'a>(record: &'a Record, key: &str, reason: &'static [u8]) -> Result<Option<&'a [u8]>, Refusal> {
    match record.member(key) {
        Member::Absent => Ok(None),
        Member::Text(text) if is_short(text) => Ok(Some(text.as_bytes())),
        _ => Err(For(reason)),
    }
}

fn flag_of(record: &Record, key: &str, reason: &'static [u8]) -> Result<bool, Refusal> {
    match record.member(key) {
        Member::Absent => Ok(false),
        Member::Flag(flag) => Ok(*flag),
        _ => Err(For(reason)),
    }
}

#[derive(Default)]
struct Kept {
    items: Items,
    advisories: Advisories,
    weight: usize,
}

impl Kept {
    fn say(&mut self, buffers: &mut Buffers, line: &[u8], out: &mut Vec<u8>) -> Result<(), Refusal> {
        let record = record_of(line).ok_or(For(b" json"))?;
        match record.text("do").unwrap_or_default() {
            "item" => self.put_item(&record, buffers),
            "drop-item" => self.drop_item(&record, buffers),
            "advisory" => self.put_advisory(&record, buffers),
            "drop-advisory" => self.drop_advisory(&record),
            "affected" => self.tell_affected(id_of(&record)?, &mut buffers.found, out),
            "advisories" => self.tell_advisories(&record, buffers, out),
            _ => Err(For(b" member do")),
        }
    }

    /// Adds to the weight, where that is within its limit.
    fn weigh(&mut self, more: usize) -> Result<(), Refusal> {
        if self.weight + more > MOST_WEIGHT {
            return Err(For(b" full weight"));
        }
        self.weight += more;
        Ok(())
    }

    fn put_item(&mut self, record: &Record, buffers: &mut Buffers) -> Result<(), Refusal> {
        buffers.read_name(record)?;
        if buffers.has_wildcards() {
            return Err(For(b" wildcards"));
        }
        if self.items.find(&buffers.name).is_some() {
            return Err(For(b" exists"));
        }
        if self.items.count == MOST_ITEMS {
            return Err(For(b" full items"));
        }
        self.weigh(32 + buffers.name.len())?;
        self.items.push(&buffers.name, buffers.ends);
        Ok(())
    }

    fn drop_item(&mut self, record: &Record, buffers: &mut Buffers) -> Result<(), Refusal> {
        buffers.read_name(record)?;
        let number = self.items.find(&buffers.name).ok_or(For(b" unknown"))?;
        self.items.remove(number, &buffers.name, buffers.component(PRODUCT));
        self.weight -= 32 + buffers.name.len();
        Ok(())
    }

    fn put_advisory(&mut self, record: &Record, buffers: &mut Buffers) -> Result<(), Refusal> {
        let id = id_of(record)?;
        buffers.read_name(record)?;
        let start = bound_of(record, "start", b" member start")?;
        let end = bound_of(record, "end", b" member end")?;
        let no_start = flag_of(record, "start-excluded", b" member start-excluded")?;
        let no_end = flag_of(record, "end-excluded", b" member end-excluded")?;
        if !is_any(buffers.component(VERSION)) {
            return Err(For(b" version"));
        }
        if self.advisories.find(id).is_some() {
            return Err(For(b" exists"));
        }
        if self.advisories.count == MOST_ADVISORIES {
            return Err(For(b" full advisories"));
        }
        self.weigh(32 + id.len() + buffers.name.len() + start.map_or(0, <[u8]>::len) + end.map_or(0, <[u8]>::len))?;
        self.advisories.push(id, buffers, [start.map(|it| (it, no_start)), end.map(|it| (it, no_end))]);
        Ok(())
    }

    fn drop_advisory(&mut self, record: &Record) -> Result<(), Refusal> {
        let number = self.advisories.find(id_of(record)?).ok_or(For(b" unknown"))?;
        self.weight -= self.advisories.remove(number);
        Ok(())
    }

    fn tell_affected(&self, id: &[u8], found: &mut Vec<u32>, out: &mut Vec<u8>) -> Result<(), Refusal> {
        out.extend_from_slice(b"affected ");
        out.extend_from_slice(id);
        let Some(number) = self.advisories.find(id) else {
            out.extend_from_slice(b" absent\n");
            return Ok(());
        };
        let row = &self.advisories.rows[number as usize];
        let product = component(self.advisories.text(&row.name), &row.ends, PRODUCT);
        let is_found = |&it: &u32| {
            let item = &self.items.rows[it as usize];
            item.is_there && self.advisories.affects(row, self.items.name(it), &item.ends)
        };
        found.clear();
        if is_of_many(product) {
            found.extend((0..self.items.rows.len() as u32).filter(is_found));
        } else {
            found.extend(self.items.by_product.get(product).iter().copied().filter(is_found));
        }
        end_with_count(found.len(), out);
        for &it in &*found {
            out.extend_from_slice(b"item ");
            out.extend_from_slice(self.items.name(it));
            out.push(b'\n');
        }
        Ok(())
    }

    fn tell_advisories(&self, record: &Record, buffers: &mut Buffers, out: &mut Vec<u8>) -> Result<(), Refusal> {
        buffers.read_name(record)?;
        let mut found = std::mem::take(&mut buffers.found);
        found.clear();
        if !buffers.has_wildcards() {
            let affects = |&it: &u32| self.advisories.affects(&self.advisories.rows[it as usize], &buffers.name, &buffers.ends);
            found.extend(self.advisories.by_product.get(buffers.component(PRODUCT)).iter().copied().filter(affects));
            let of_one = found.len();
            found.extend(self.advisories.of_many.iter().copied().filter(affects));
            if 0 < of_one && of_one < found.len() {
                found.sort_unstable();
            }
        }
        out.extend_from_slice(b"advisories ");
        out.extend_from_slice(&buffers.name);
        end_with_count(found.len(), out);
        for &it in &found {
            out.extend_from_slice(b"advisory ");
            out.extend_from_slice(self.advisories.text(&self.advisories.rows[it as usize].id));
            out.push(b'\n');
        }
        buffers.found = found;
        Ok(())
    }
}

// ---- lines

fn decimal(out: &mut Vec<u8>, number: u64) {
    let (mut digits, mut first, mut rest) = ([0; 20], 20, number);
    loop {
        first -= 1;
        digits[first] = b'0' + (rest % 10) as u8;
        rest /= 10;
        if rest == 0 {
            break;
        }
    }
    out.extend_from_slice(&digits[first..]);
}

fn end_with_count(count: usize, out: &mut Vec<u8>) {
    out.push(b' ');
    decimal(out, count as u64);
    out.push(b'\n');
}

fn refuse(out: &mut Vec<u8>, number: u64, reason: Refusal) {
    out.extend_from_slice(b"refused ");
    decimal(out, number);
    match reason {
        For(words) => out.extend_from_slice(words),
        NoName(place) => {
            out.extend_from_slice(b" name name ");
            decimal(out, place as u64);
        }
    }
    out.push(b'\n');
}

/// Answers the line of this number, without its newline; tells whether it was refused.
fn answer(kept: &mut Kept, buffers: &mut Buffers, out: &mut Vec<u8>, number: u64, line: &[u8]) -> bool {
    let text = line.strip_suffix(b"\r").unwrap_or(line);
    if text.is_empty() {
        return false;
    }
    let Err(reason) = kept.say(buffers, text, out) else {
        return false;
    };
    refuse(out, number, reason);
    true
}

fn main() -> io::Result<ExitCode> {
    let (mut input, mut output) = (io::stdin().lock(), io::stdout().lock());
    let mut block = vec![0; 1 << 17];
    let mut out = Vec::with_capacity(1 << 18);
    let (mut kept, mut buffers) = (Kept::default(), Buffers::default());
    // A long line is dropped as it comes, up to its newline or the end of input.
    let (mut have, mut number, mut refused, mut is_long) = (0, 0, false, false);
    loop {
        let got = input.read(&mut block[have..])?;
        have += got;
        let mut start = 0;
        while start < have || (is_long && got == 0) {
            let rest = &block[start..have];
            let (len, next) = match rest.iter().position(|&c| c == b'\n') {
                Some(k) => (k, k + 1),
                None if got == 0 => (rest.len(), rest.len()),
                None => break,
            };
            start += next;
            number += 1;
            if is_long || len > LONGEST {
                is_long = false;
                refused = true;
                refuse(&mut out, number, For(b" long"));
            } else {
                refused |= answer(&mut kept, &mut buffers, &mut out, number, &rest[..len]);
            }
            if out.len() >= 1 << 16 {
                output.write_all(&out)?;
                out.clear();
            }
        }
        if got == 0 {
            break;
        }
        block.copy_within(start..have, 0);
        have -= start;
        if have > LONGEST {
            is_long = true;
            have = 0;
        }
    }
    output.write_all(&out)?;
    output.flush()?;
    Ok(ExitCode::from(u8::from(refused)))
}
