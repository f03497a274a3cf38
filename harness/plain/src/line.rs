//! Lines: a letter, fields parted by commas, LF.

use crate::{MOST_BYTES, MOST_ENTRIES, Room, refused};

/// The masks of eight children, and one more.
pub const MOST_FIELDS: usize = 257;
/// The largest number of a field, and of row counts and limits.
pub const NARROW: u64 = 65535;
pub const WIDE: u64 = 4294967295;
/// An empty field. It and a malformed one are over every largest number.
pub const ABSENT: u64 = u64::MAX - 1;
const MALFORMED: u64 = u64::MAX;

pub struct Line {
    pub next: usize,
    pub count: usize,
    pub largest: u64,
}

/// The field that begins at `at`, and the place of the byte that ends it.
#[inline(always)]
fn field_at(s: &[u8], at: usize) -> (u64, usize) {
    let mut i = at;
    let mut value = 0u64;
    while i < s.len() && i - at < 10 {
        let d = s[i].wrapping_sub(b'0');
        if d > 9 {
            break;
        }
        value = value * 10 + d as u64;
        i += 1;
    }
    if i < s.len() && (s[i] == b',' || s[i] == b'\n') {
        return match i - at {
            0 => (ABSENT, i),
            1 => (value, i),
            _ if s[at] == b'0' => (MALFORMED, i),
            _ => (value, i),
        };
    }
    while i < s.len() && s[i] != b',' && s[i] != b'\n' {
        i += 1;
    }
    (MALFORMED, i)
}

/// The line of a letter that begins at `at`, where there is one; its fields go into as much room as there is.
#[inline(always)]
pub fn line_at(s: &[u8], at: usize, letter: u8, fields: &mut [u64; MOST_FIELDS]) -> Option<Line> {
    if at + 1 >= s.len() || s[at] != letter {
        return None;
    }
    let mut line = Line {
        next: at + 2,
        count: 0,
        largest: 0,
    };
    match s[at + 1] {
        b'\n' => return Some(line),
        b',' => {}
        _ => return None,
    }
    let mut i = at + 2;
    loop {
        let (value, end) = match s.get(i..i + 2) {
            Some([d @ b'0'..=b'9', b',']) => ((d - b'0') as u64, i + 1),
            _ => field_at(s, i),
        };
        if end >= s.len() {
            return None;
        }
        if line.count < MOST_FIELDS {
            fields[line.count] = value;
        }
        line.count += 1;
        line.largest = line.largest.max(value);
        if s[end] == b'\n' {
            line.next = end + 1;
            return Some(line);
        }
        i = end + 1;
    }
}

/// Packs each three fields to an expression. The number of expressions, where all are defined.
#[inline(always)]
fn pack(fields: &[u64], numbers: &mut [u64]) -> Option<usize> {
    let mut n = 0;
    for f in fields.chunks_exact(3) {
        let defined = match f[0] {
            0 => true,
            1 => f[2] == 0,
            2 => f[1] == 0 && f[2] == 0,
            _ => false,
        };
        if !defined {
            return None;
        }
        numbers[n] = f[0] << 32 | f[1] << 16 | f[2];
        n += 1;
    }
    Some(n)
}

/// Marks before the entries of a list, and fields of an entry.
fn shape(letter: u8) -> (usize, usize) {
    match letter {
        b'S' | b'O' | b'A' => (0, 1),
        b'W' | b'V' => (0, 6),
        b'H' | b'N' => (1, 3),
        _ => (0, 3),
    }
}

/// Reads a list as the list `i`: the place after it, or a refusal's number.
#[inline(always)]
fn read_list(s: &[u8], at: usize, letter: u8, room: &mut Room, i: usize) -> Result<usize, u64> {
    let line = line_at(s, at, letter, &mut room.fields).ok_or(1u64)?;
    let (mark, width) = shape(letter);
    if line.largest > NARROW || line.count < mark || (line.count - mark) % width != 0 {
        return Err(2);
    }
    if line.count - mark > MOST_ENTRIES * width || line.next > MOST_BYTES {
        return Err(3);
    }
    let from = room.ends[i];
    let fields = &room.fields[..line.count];
    let numbers = &mut room.numbers[from..];
    if width == 1 {
        numbers[..line.count].copy_from_slice(fields);
        if letter == b'S' && line.largest > 3 {
            return Err(4);
        }
        room.ends[i + 1] = from + line.count;
        return Ok(line.next);
    }
    if mark == 1 {
        if fields[0] > 1 {
            return Err(4);
        }
        numbers[0] = fields[0];
    }
    let n = pack(&fields[mark..], &mut numbers[mark..]).ok_or(4u64)?;
    room.ends[i + 1] = from + mark + n;
    Ok(line.next)
}

/// Reads a list for each letter, from line 2 on, and then nothing more; or the refusal.
#[inline(always)]
pub fn read_lists(
    s: &[u8],
    mut at: usize,
    letters: impl Iterator<Item = u8>,
    room: &mut Room,
) -> Result<(), u64> {
    room.ends[0] = 0;
    let mut i = 0;
    for letter in letters {
        at = read_list(s, at, letter, room, i).map_err(|number| refused(number, i + 2))?;
        i += 1;
    }
    if at < s.len() {
        return Err(refused(1, i + 2));
    }
    Ok(())
}

/// Whether an operator of key sheets has this mode.
pub fn defined(op: u64, mode: u64) -> bool {
    match op {
        0 => mode <= 2,
        3 => mode <= 1,
        1 | 2 | 4 | 5 | 6 => mode == 0,
        _ => false,
    }
}
