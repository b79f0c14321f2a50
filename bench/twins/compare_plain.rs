//! The plain twin of `cpe compare`: the same answers from safe Rust with std alone and no
//! proof, written for its reader first. Both texts become eleven owned values, and these are
//! compared one by one.
mod reading_plain;

use reading_plain::{At, Value, unbind};
use std::io::{self, BufRead, BufReader, BufWriter, Write};
use std::process::ExitCode;

/// The most bytes of a line before its newline.
const LONGEST: usize = 65_536;

#[derive(Clone, Copy, PartialEq)]
enum Relation {
    Disjoint,
    Equal,
    Subset,
    Superset,
    Undefined,
}

impl Relation {
    fn word(self) -> &'static str {
        match self {
            Relation::Disjoint => "DISJOINT",
            Relation::Equal => "EQUAL",
            Relation::Subset => "SUBSET",
            Relation::Superset => "SUPERSET",
            Relation::Undefined => "UNDEFINED",
        }
    }
}

/// What stands around a body: nothing, an asterisk, or so many question marks.
enum Edge {
    Nothing,
    Star,
    Marks(usize),
}

impl Edge {
    fn of(specials: &str) -> Edge {
        match specials {
            "" => Edge::Nothing,
            "*" => Edge::Star,
            _ => Edge::Marks(specials.len()),
        }
    }

    fn allows(&self, count: usize) -> bool {
        match *self {
            Edge::Nothing => count == 0,
            Edge::Star => true,
            Edge::Marks(most) => count <= most,
        }
    }
}

/// A text without its backslashes, in lower case.
struct Text {
    lead: Edge,
    body: Vec<u8>,
    trail: Edge,
}

impl Text {
    fn of(spelled: &str) -> Text {
        let is_special = |c: char| c == '*' || c == '?';
        let rest = spelled.trim_start_matches(is_special);
        let lead = Edge::of(&spelled[..spelled.len() - rest.len()]);
        let mut body = Vec::new();
        let mut bytes = rest.bytes().enumerate();
        while let Some((at, c)) = bytes.next() {
            match c {
                b'*' | b'?' => {
                    let trail = Edge::of(&rest[at..]);
                    return Text { lead, body, trail };
                }
                b'\\' => body.extend(bytes.next().map(|(_, quoted)| quoted)),
                _ => body.push(c.to_ascii_lowercase()),
            }
        }
        let trail = Edge::Nothing;
        Text { lead, body, trail }
    }

    fn has_special(&self) -> bool {
        !matches!((&self.lead, &self.trail), (Edge::Nothing, Edge::Nothing))
    }

    /// Whether a plain text is a few characters that the lead allows, the body, and a few that the trail allows.
    fn matches(&self, text: &[u8]) -> bool {
        text.windows(self.body.len()).enumerate().any(|(before, found)| {
            let behind = text.len() - self.body.len() - before;
            self.lead.allows(before) && self.trail.allows(behind) && found == self.body
        })
    }
}

fn relation(source: &Value, target: &Value) -> Relation {
    match (source, target) {
        (_, Value::Text(target)) => to_text(source, &Text::of(target)),
        (Value::Any, Value::Any) | (Value::Na, Value::Na) => Relation::Equal,
        (Value::Any, Value::Na) => Relation::Superset,
        (Value::Text(_), Value::Na) => Relation::Disjoint,
        (_, Value::Any) => Relation::Subset,
    }
}

fn to_text(source: &Value, target: &Text) -> Relation {
    if target.has_special() {
        return Relation::Undefined;
    }
    let Value::Text(source) = source else {
        let is_any = matches!(source, Value::Any);
        return if is_any { Relation::Superset } else { Relation::Disjoint };
    };
    let source = Text::of(source);
    if !source.has_special() {
        let is_same = source.body == target.body;
        return if is_same { Relation::Equal } else { Relation::Disjoint };
    }
    if source.matches(&target.body) { Relation::Superset } else { Relation::Disjoint }
}

/// The relation of names whose attributes have these.
fn summed(relations: &[Relation]) -> Relation {
    let all_are = |wanted| relations.iter().all(|&it| it == Relation::Equal || it == wanted);
    if relations.contains(&Relation::Disjoint) {
        Relation::Disjoint
    } else if all_are(Relation::Equal) {
        Relation::Equal
    } else if all_are(Relation::Subset) {
        Relation::Subset
    } else if all_are(Relation::Superset) {
        Relation::Superset
    } else {
        Relation::Undefined
    }
}

/// The line of a pair, or why it is refused.
fn compare(text: &[u8]) -> Result<String, String> {
    let halves: Vec<&[u8]> = text.split(|&c| c == b' ').collect();
    let [source, target] = halves[..] else {
        return Err("pair".to_string());
    };
    let source = unbind(source).map_err(|At(place)| format!("source {place}"))?;
    let target = unbind(target).map_err(|At(place)| format!("target {place}"))?;
    let relations: Vec<Relation> = source.iter().zip(&target).map(|(a, b)| relation(a, b)).collect();
    let mut words = vec![summed(&relations).word()];
    words.extend(relations.iter().map(|it| it.word()));
    Ok(words.join(" "))
}

/// Answers the line of this number, without its newline; tells whether it was refused.
fn answer(out: &mut impl Write, number: u64, line: &[u8]) -> io::Result<bool> {
    let text = line.strip_suffix(b"\r").unwrap_or(line);
    if line.len() > LONGEST {
        writeln!(out, "refused {number} long")?;
    } else if text.is_empty() {
        return Ok(false);
    } else {
        match compare(text) {
            Ok(words) => {
                writeln!(out, "{words}")?;
                return Ok(false);
            }
            Err(reason) => writeln!(out, "refused {number} {reason}")?,
        }
    }
    Ok(true)
}

fn main() -> io::Result<ExitCode> {
    let mut input = BufReader::with_capacity(1 << 16, io::stdin().lock());
    let mut output = BufWriter::with_capacity(1 << 16, io::stdout().lock());
    let (mut line, mut number, mut refused) = (Vec::new(), 0, false);
    while input.read_until(b'\n', &mut line)? > 0 {
        number += 1;
        let text = line.strip_suffix(b"\n").unwrap_or(&line);
        refused |= answer(&mut output, number, text)?;
        line.clear();
    }
    output.flush()?;
    Ok(ExitCode::from(u8::from(refused)))
}
