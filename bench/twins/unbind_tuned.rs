//! The tuned twin of `cpe unbind`: the same answers from safe Rust with std alone and no
//! proof, written for speed. One table of the kinds of bytes, one pass over a line, its
//! answer put straight into one block of output, no value built: about what a filter of
//! this kind, written by hand with care, reaches on one core.
mod reading_tuned;

use reading_tuned::unbind;
use std::io::{self, Read, Write};
use std::process::ExitCode;

/// The most bytes of a line before its newline.
const LONGEST: usize = 65_536;

fn decimal(out: &mut Vec<u8>, number: u64) {
    let (mut digits, mut first, mut rest) = ([0; 20], 20, number);
    loop {
        first -= 1;
        digits[first] = b'0' + (rest % 10) as u8;
        rest /= 10;
        if rest == 0 {
            break;
        }
    }
    out.extend_from_slice(&digits[first..]);
}

fn refuse(out: &mut Vec<u8>, number: u64, reason: &[u8]) {
    out.extend_from_slice(b"refused ");
    decimal(out, number);
    out.extend_from_slice(reason);
}

/// Answers the line of this number, without its newline; tells whether it was refused.
fn answer(out: &mut Vec<u8>, number: u64, line: &[u8]) -> bool {
    let text = line.strip_suffix(b"\r").unwrap_or(line);
    if text.is_empty() {
        return false;
    }
    let mark = out.len();
    let Err(place) = unbind(text, out) else {
        return false;
    };
    out.truncate(mark);
    refuse(out, number, b" name ");
    decimal(out, place as u64);
    out.push(b'\n');
    true
}

fn main() -> io::Result<ExitCode> {
    let (mut input, mut output) = (io::stdin().lock(), io::stdout().lock());
    let mut block = vec![0; 1 << 17];
    let mut out = Vec::with_capacity(1 << 18);
    // A long line is dropped as it comes, up to its newline or the end of input.
    let (mut have, mut number, mut refused, mut is_long) = (0, 0, false, false);
    loop {
        let got = input.read(&mut block[have..])?;
        have += got;
        let mut start = 0;
        while start < have || (is_long && got == 0) {
            let rest = &block[start..have];
            let (len, next) = match rest.iter().position(|&c| c == b'\n') {
                Some(k) => (k, k + 1),
                None if got == 0 => (rest.len(), rest.len()),
                None => break,
            };
            start += next;
            number += 1;
            if is_long || len > LONGEST {
                is_long = false;
                refused = true;
                refuse(&mut out, number, b" long\n");
            } else {
                refused |= answer(&mut out, number, &rest[..len]);
            }
            if out.len() >= 1 << 16 {
                output.write_all(&out)?;
                out.clear();
            }
        }
        if got == 0 {
            break;
        }
        block.copy_within(start..have, 0);
        have -= start;
        if have > LONGEST {
            is_long = true;
            have = 0;
        }
    }
    output.write_all(&out)?;
    output.flush()?;
    Ok(ExitCode::from(u8::from(refused)))
}
