//! How the plain twins read a text in either binding: as eleven owned values, or the place where it goes wrong.
pub const NAMES: [&str; 11] = [
    "part",
    "vendor",
    "product",
    "version",
    "update",
    "edition",
    "language",
    "sw_edition",
    "target_sw",
    "target_hw",
    "other",
];

/// The attributes of a packed edition, by their numbers.
const PACKED: [usize; 5] = [5, 7, 8, 9, 10];

pub enum Value {
    Any,
    Na,
    /// The text as a well-formed name spells it, wildcards and backslashes included.
    Text(String),
}

/// No name has the text in its binding: it goes wrong at this place.
pub struct At(pub usize);

struct Reader<'a> {
    text: &'a [u8],
    pos: usize,
}

impl Reader<'_> {
    fn peek(&self) -> Option<u8> {
        self.text.get(self.pos).copied()
    }

    fn eat(&mut self, want: u8) -> bool {
        let yes = self.peek() == Some(want);
        self.pos += usize::from(yes);
        yes
    }

    fn at_end_of_component(&self) -> bool {
        matches!(self.peek(), None | Some(b':'))
    }

    /// `*`, `-`, or a text: wildcards before it, its body, wildcards after it.
    fn value(&mut self) -> Result<Value, At> {
        let mut out = String::new();
        if self.eat(b'*') {
            if self.at_end_of_component() {
                return Ok(Value::Any);
            }
            out.push('*');
        } else {
            self.marks(&mut out);
        }
        let has_lead = !out.is_empty();
        let body_start = self.pos;
        self.body(&mut out)?;
        let body = &self.text[body_start..self.pos];
        if !has_lead && body == b"-" && self.at_end_of_component() {
            return Ok(Value::Na);
        }
        if self.eat(b'*') {
            out.push('*');
        } else {
            self.marks(&mut out);
        }
        Ok(Value::Text(out))
    }

    fn marks(&mut self, out: &mut String) {
        while self.eat(b'?') {
            out.push('?');
        }
    }

    /// One character or more, each as a well-formed name quotes it.
    fn body(&mut self, out: &mut String) -> Result<(), At> {
        let start = self.pos;
        while let Some(c) = self.peek() {
            match c {
                b'a'..=b'z' | b'A'..=b'Z' | b'0'..=b'9' | b'_' => out.push(c as char),
                b'.' | b'-' => {
                    out.push('\\');
                    out.push(c as char);
                }
                b'\\' => {
                    self.pos += 1;
                    match self.peek() {
                        Some(c) if c.is_ascii_punctuation() && !b"._-".contains(&c) => {
                            out.push('\\');
                            out.push(c as char);
                        }
                        _ => return Err(At(self.pos)),
                    }
                }
                _ => break,
            }
            self.pos += 1;
        }
        if self.pos == start {
            Err(At(start))
        } else {
            Ok(())
        }
    }

    fn part(&mut self) -> Result<Value, At> {
        let value = match self.peek() {
            Some(b'*') => Value::Any,
            Some(b'-') => Value::Na,
            Some(c @ (b'a' | b'h' | b'o')) => Value::Text((c as char).to_string()),
            _ => return Err(At(self.pos)),
        };
        self.pos += 1;
        Ok(value)
    }

    fn some_of(&mut self, most: usize, class: fn(&u8) -> bool, out: &mut String) -> usize {
        let mut n = 0;
        while n < most && self.peek().as_ref().is_some_and(class) {
            out.push(self.text[self.pos] as char);
            self.pos += 1;
            n += 1;
        }
        n
    }

    /// `*`, `-`, or a language.
    fn language(&mut self) -> Result<Value, At> {
        if self.eat(b'*') {
            return Ok(Value::Any);
        }
        if self.eat(b'-') {
            return Ok(Value::Na);
        }
        self.tag(|reader| Ok(reader.eat(b'-')))
    }

    /// Two or three letters, perhaps with a hyphen and a region: two letters or three digits.
    fn tag(&mut self, hyphen: fn(&mut Self) -> Result<bool, At>) -> Result<Value, At> {
        let mut out = String::new();
        if self.some_of(3, u8::is_ascii_alphabetic, &mut out) < 2 {
            return Err(At(self.pos));
        }
        if hyphen(self)? {
            out.push_str("\\-");
            let is_region = match self.some_of(2, u8::is_ascii_alphabetic, &mut out) {
                0 => self.some_of(3, u8::is_ascii_digit, &mut out) == 3,
                n => n == 2,
            };
            if !is_region {
                return Err(At(self.pos));
            }
        }
        Ok(Value::Text(out))
    }

    fn digit(&self, pos: usize) -> Option<u8> {
        let digit = char::from(*self.text.get(pos)?).to_digit(16)?;
        Some(digit as u8)
    }

    /// The code of the percent form that stands here, of those that may stand in this state.
    fn form(&self, state: State) -> Result<u8, At> {
        let may_stand = |code| has_form(code) && state.next(code).is_some();
        let high = self.digit(self.pos + 1);
        let high = high.filter(|high| (0..16).any(|low| may_stand(16 * high + low)));
        let high = high.ok_or(At(self.pos + 1))?;
        let code = self.digit(self.pos + 2).map(|low| 16 * high + low);
        code.filter(|&code| may_stand(code)).ok_or(At(self.pos + 2))
    }

    /// The next code of a text in a URI, bare or in its percent form, and the state after it.
    fn code(&mut self, state: State) -> Result<(u8, State), At> {
        let (code, len) = match self.peek() {
            Some(b'%') if state != State::TrailStar => (self.form(state)?, 3),
            Some(c) if c.is_ascii_alphanumeric() || b"_.-~".contains(&c) => {
                (c.to_ascii_lowercase(), 1)
            }
            _ => return Err(At(self.pos)),
        };
        let state = state.next(code).ok_or(At(self.pos))?;
        self.pos += len;
        Ok((code, state))
    }

    /// A hyphen, bare or in its percent form.
    fn uri_hyphen(&mut self) -> Result<bool, At> {
        if !self.eat(b'%') {
            return Ok(self.eat(b'-'));
        }
        if self.eat(b'2') && (self.eat(b'd') || self.eat(b'D')) {
            Ok(true)
        } else {
            Err(At(self.pos))
        }
    }
}

/// How far a text in a URI is read.
#[derive(Clone, Copy, PartialEq)]
enum State {
    Start,
    LeadMarks,
    LeadStar,
    Body,
    TrailMarks,
    TrailStar,
}

impl State {
    /// The state after this code; a question mark has the code 1, an asterisk 2.
    fn next(self, code: u8) -> Option<State> {
        match (self, code) {
            (State::Start | State::LeadMarks, 1) => Some(State::LeadMarks),
            (State::Start, 2) => Some(State::LeadStar),
            (State::Body | State::TrailMarks, 1) => Some(State::TrailMarks),
            (State::Body, 2) => Some(State::TrailStar),
            (State::TrailMarks | State::TrailStar, _) | (_, 1 | 2) => None,
            _ => Some(State::Body),
        }
    }
}

/// Whether the code has a percent form: the specials, and the characters but letters, digits
/// and `_`.
fn has_form(code: u8) -> bool {
    matches!(code, 1 | 2) || code.is_ascii_punctuation() && code != b'_'
}

fn unbind_fs(text: &[u8]) -> Result<Vec<Value>, At> {
    let mut reader = Reader { text, pos: 0 };
    for &c in b"cpe:2.3:" {
        if !reader.eat(c) {
            return Err(At(reader.pos));
        }
    }
    let mut values = Vec::with_capacity(NAMES.len());
    for i in 0..NAMES.len() {
        if i > 0 && !reader.eat(b':') {
            return Err(At(reader.pos));
        }
        values.push(match i {
            0 => reader.part()?,
            6 => reader.language()?,
            _ => reader.value()?,
        });
    }
    if reader.pos < text.len() {
        Err(At(reader.pos))
    } else {
        Ok(values)
    }
}

/// A component of a URI: nothing, `-`, or a text.
fn uri_value(text: &[u8]) -> Result<Value, At> {
    match text {
        [] => return Ok(Value::Any),
        [b'-'] => return Ok(Value::Na),
        _ => {}
    }
    let mut reader = Reader { text, pos: 0 };
    let (mut state, mut out) = (State::Start, String::new());
    while reader.pos < text.len() {
        let (code, behind) = reader.code(state)?;
        state = behind;
        match code {
            1 => out.push('?'),
            2 => out.push('*'),
            _ => {
                if has_form(code) {
                    out.push('\\');
                }
                out.push(code as char);
            }
        }
    }
    let has_body = !matches!(state, State::LeadMarks | State::LeadStar);
    // (a hyphen alone is no text, however it is spelled)
    if has_body && !text.eq_ignore_ascii_case(b"%2d") {
        Ok(Value::Text(out))
    } else {
        Err(At(text.len()))
    }
}

fn uri_part(text: &[u8]) -> Result<Value, At> {
    let first = text.first().map(u8::to_ascii_lowercase);
    match (first, text.len()) {
        (None, _) => Ok(Value::Any),
        (Some(b'-'), 1) => Ok(Value::Na),
        (Some(c @ (b'a' | b'h' | b'o')), 1) => Ok(Value::Text((c as char).to_string())),
        (Some(b'-' | b'a' | b'h' | b'o'), _) => Err(At(1)),
        _ => Err(At(0)),
    }
}

fn uri_language(text: &[u8]) -> Result<Value, At> {
    let mut reader = Reader { text, pos: 0 };
    let value = if text.is_empty() {
        Value::Any
    } else if reader.eat(b'-') {
        Value::Na
    } else {
        match reader.tag(Reader::uri_hyphen)? {
            Value::Text(tag) => Value::Text(tag.to_ascii_lowercase()),
            value => value,
        }
    };
    if reader.pos < text.len() {
        Err(At(reader.pos))
    } else {
        Ok(value)
    }
}

/// The edition and the four values that are packed with it, a tilde before each.
fn unpack(text: &[u8], values: &mut [Value]) -> Result<(), At> {
    let fields: Vec<&[u8]> = text[1..].split(|&c| c == b'~').collect();
    let mut start = 1;
    for (k, field) in fields.iter().enumerate() {
        let number = *PACKED.get(k).ok_or(At(start - 1))?;
        values[number] = uri_value(field).map_err(|At(place)| At(start + place))?;
        start += field.len() + 1;
    }
    if fields.len() < PACKED.len() {
        Err(At(text.len()))
    } else {
        Ok(())
    }
}

/// The values of a URI, which begins with `cpe:/`. A component that is missing is ANY.
fn unbind_uri(text: &[u8]) -> Result<Vec<Value>, At> {
    let mut values: Vec<Value> = NAMES.iter().map(|_| Value::Any).collect();
    let mut start = 5;
    for (n, component) in text[start..].split(|&c| c == b':').enumerate() {
        let in_line = |At(place)| At(start + place);
        match n {
            0 => values[n] = uri_part(component).map_err(in_line)?,
            5 if component.starts_with(b"~") => {
                unpack(component, &mut values).map_err(in_line)?;
            }
            6 => values[n] = uri_language(component).map_err(in_line)?,
            7 => return Err(At(start - 1)),
            _ => values[n] = uri_value(component).map_err(in_line)?,
        }
        start += component.len() + 1;
    }
    Ok(values)
}

/// Whether the text is a URI by its first five bytes, in either case.
fn is_uri(text: &[u8]) -> bool {
    text.get(..5)
        .is_some_and(|head| head.eq_ignore_ascii_case(b"cpe:/"))
}

pub fn unbind(text: &[u8]) -> Result<Vec<Value>, At> {
    if is_uri(text) {
        unbind_uri(text)
    } else {
        unbind_fs(text)
    }
}
