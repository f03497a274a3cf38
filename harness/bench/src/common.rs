//! Common plain Rust: `split(',')` and `parse` for reading, `write!` and `format!` for writing.

use crate::proved::Found;
use crate::tight::NONE;
use std::borrow::Cow;
use std::io::Write;

fn field(text: &str) -> [u64; 2] {
    if text.is_empty() {
        return [1, 0];
    }
    // `parse` takes a plus sign and leading zeros; a sheet doesn't.
    if text.starts_with('+') || (text.len() > 1 && text.starts_with('0')) {
        return [2, 0];
    }
    match text.parse::<u64>() {
        Ok(n) => [0, n],
        Err(_) => [2, 0],
    }
}

#[inline(never)]
pub fn line_at(s: &[u8], at: usize, letter: u8, out: &mut [[u64; 2]]) -> Found {
    let rest = s.get(at..).unwrap_or(&[]);
    let end = rest.iter().position(|b| *b == b'\n');
    let bytes = &rest[..end.unwrap_or(rest.len())];
    let text = match std::str::from_utf8(bytes) {
        Ok(text) => Cow::Borrowed(text),
        Err(_) => String::from_utf8_lossy(bytes),
    };
    let mut parts = text.split(',');
    if parts.next().map(str::as_bytes) != Some(&[letter]) {
        return NONE;
    }
    let mut found = Found {
        next: 0,
        count: 0,
        worst: 0,
        largest: 0,
    };
    for part in parts {
        let row = field(part);
        if let Some(place) = out.get_mut(found.count as usize) {
            *place = row;
        }
        found.count += 1;
        found.worst = found.worst.max(row[0]);
        found.largest = found.largest.max(row[1]);
    }
    match end {
        Some(end) => Found {
            next: (at + end + 1) as u64,
            ..found
        },
        None => NONE,
    }
}

fn written(out: &mut [u8], letter: u8, rows: &[[u64; 2]]) -> std::io::Result<usize> {
    let room = out.len();
    let mut rest = out;
    rest.write_all(&[letter])?;
    for [state, value] in rows {
        if *state == 0 {
            write!(rest, ",{value}")?;
        } else {
            rest.write_all(b",")?;
        }
    }
    rest.write_all(b"\n")?;
    Ok(room - rest.len())
}

/// By `write!` into the slice. It writes what fits before it finds that there is no room.
#[inline(never)]
pub fn put_line_write(out: &mut [u8], at: usize, letter: u8, rows: &[[u64; 2]]) -> u64 {
    match out.get_mut(at..).map(|out| written(out, letter, rows)) {
        Some(Ok(n)) => (at + n) as u64,
        _ => 0,
    }
}

/// By `format!`, a string for each field.
#[inline(never)]
pub fn put_line_format(out: &mut [u8], at: usize, letter: u8, rows: &[[u64; 2]]) -> u64 {
    let mut line = String::from(letter as char);
    for [state, value] in rows {
        line += &if *state == 0 {
            format!(",{value}")
        } else {
            ",".to_string()
        };
    }
    line.push('\n');
    match out.get_mut(at..).and_then(|out| out.get_mut(..line.len())) {
        Some(place) => {
            place.copy_from_slice(line.as_bytes());
            (at + line.len()) as u64
        }
        None => 0,
    }
}
