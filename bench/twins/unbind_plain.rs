//! The plain twin of `cpe unbind`: the same answers from safe Rust with std alone and no
//! proof, written for its reader first. A line becomes eleven owned values, and these are
//! printed.
mod reading_plain;

use reading_plain::{At, NAMES, Value, unbind};
use std::io::{self, BufRead, BufReader, BufWriter, Write};
use std::process::ExitCode;

/// The most bytes of a line before its newline.
const LONGEST: usize = 65_536;

fn write_wfn(out: &mut impl Write, values: &[Value]) -> io::Result<()> {
    write!(out, "wfn:[")?;
    for (i, (name, value)) in NAMES.iter().zip(values).enumerate() {
        if i > 0 {
            write!(out, ",")?;
        }
        match value {
            Value::Any => write!(out, "{name}=ANY")?,
            Value::Na => write!(out, "{name}=NA")?,
            Value::Text(text) => write!(out, "{name}=\"{text}\"")?,
        }
    }
    writeln!(out, "]")
}

/// Answers the line of this number, without its newline; tells whether it was refused.
fn answer(out: &mut impl Write, number: u64, line: &[u8]) -> io::Result<bool> {
    let text = line.strip_suffix(b"\r").unwrap_or(line);
    if line.len() > LONGEST {
        writeln!(out, "refused {number} long")?;
    } else if text.is_empty() {
        return Ok(false);
    } else {
        match unbind(text) {
            Ok(values) => {
                write_wfn(out, &values)?;
                return Ok(false);
            }
            Err(At(place)) => writeln!(out, "refused {number} name {place}")?,
        }
    }
    Ok(true)
}

fn main() -> io::Result<ExitCode> {
    let mut input = BufReader::with_capacity(1 << 16, io::stdin().lock());
    let mut output = BufWriter::with_capacity(1 << 16, io::stdout().lock());
    let (mut line, mut number, mut refused) = (Vec::new(), 0, false);
    while input.read_until(b'\n', &mut line)? > 0 {
        number += 1;
        let text = line.strip_suffix(b"\n").unwrap_or(&line);
        refused |= answer(&mut output, number, text)?;
        line.clear();
    }
    output.flush()?;
    Ok(ExitCode::from(u8::from(refused)))
}
