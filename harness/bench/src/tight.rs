//! Tight plain Rust: one pass, field by field, a digit and a comma first, rows of state and value,
//! no allocation, 64-bit overflow checked.

use crate::proved::Found;

pub const NONE: Found = Found {
    next: 0,
    count: 0,
    worst: 0,
    largest: 0,
};

const TENTH: u64 = u64::MAX / 10;

/// The field that begins at `at`: the place of the byte that ends it, its state and its value.
#[inline(always)]
fn field_at(s: &[u8], at: usize) -> (usize, u64, u64) {
    if at >= s.len() || s[at] == b',' || s[at] == b'\n' {
        return (at, 1, 0);
    }
    let first = s[at].wrapping_sub(b'0');
    if first > 9 {
        return malformed_at(s, at);
    }
    let mut n = first as u64;
    let mut i = at + 1;
    while i < s.len() {
        let b = s[i];
        if b == b',' || b == b'\n' {
            return (i, 0, n);
        }
        let d = b.wrapping_sub(b'0') as u64;
        if d > 9 || n == 0 || n > TENTH {
            return malformed_at(s, i);
        }
        let m = n * 10;
        if m > u64::MAX - d {
            return malformed_at(s, i);
        }
        n = m + d;
        i += 1;
    }
    (i, 0, n)
}

#[inline(never)]
fn malformed_at(s: &[u8], at: usize) -> (usize, u64, u64) {
    let mut i = at;
    while i < s.len() && s[i] != b',' && s[i] != b'\n' {
        i += 1;
    }
    (i, 2, 0)
}

/// The line of a letter that begins at `at`; its fields go into as much room as there is.
#[inline(never)]
pub fn line_at(s: &[u8], at: usize, letter: u8, out: &mut [[u64; 2]]) -> Found {
    if at >= s.len() || s[at] == b'\n' || s[at] != letter {
        return NONE;
    }
    let after = at + 1;
    if after >= s.len() {
        return NONE;
    }
    if s[after] == b'\n' {
        return Found {
            next: after as u64 + 1,
            count: 0,
            worst: 0,
            largest: 0,
        };
    }
    if s[after] != b',' {
        return NONE;
    }
    let mut i = after + 1;
    let mut count = 0;
    let mut worst = 0;
    let mut largest = 0;
    loop {
        if i + 1 < s.len() && s[i + 1] == b',' {
            let d = s[i].wrapping_sub(b'0') as u64;
            if d <= 9 {
                if count < out.len() {
                    out[count] = [0, d];
                }
                largest = u64::max(largest, d);
                count += 1;
                i += 2;
                continue;
            }
        }
        let (end, state, value) = field_at(s, i);
        if count < out.len() {
            out[count] = [state, value];
        }
        worst = u64::max(worst, state);
        largest = u64::max(largest, value);
        count += 1;
        if end >= s.len() {
            return NONE;
        }
        if s[end] == b'\n' {
            return Found {
                next: end as u64 + 1,
                count: count as u64,
                worst,
                largest,
            };
        }
        i = end + 1;
    }
}

#[inline(always)]
fn digits(n: u64) -> usize {
    if n < 10 { 1 } else { n.ilog10() as usize + 1 }
}

fn line_length(rows: &[[u64; 2]]) -> usize {
    let mut n = 2;
    for [state, value] in rows {
        n += 1 + if *state == 0 { digits(*value) } else { 0 };
    }
    n
}

/// Writes a letter, the rows' fields and LF at the front of `out`, where there is room. How many bytes.
#[inline(always)]
fn filled(out: &mut [u8], letter: u8, rows: &[[u64; 2]]) -> usize {
    out[0] = letter;
    let mut p = 1;
    for [state, value] in rows {
        out[p] = b',';
        p += 1;
        if *state != 0 {
            continue;
        }
        let mut n = *value;
        if n < 10 {
            out[p] = b'0' + n as u8;
            p += 1;
            continue;
        }
        let end = p + digits(n);
        for b in out[p..end].iter_mut().rev() {
            *b = b'0' + (n % 10) as u8;
            n /= 10;
        }
        p = end;
    }
    out[p] = b'\n';
    p + 1
}

/// Writes a line at `at`. The place after it, or 0 where there is no room.
#[inline(never)]
pub fn put_line(out: &mut [u8], at: usize, letter: u8, rows: &[[u64; 2]]) -> u64 {
    let Some(out) = out.get_mut(at..) else {
        return 0;
    };
    // No field has over 20 digits, so most lines need no exact length.
    if out.len() < 2 + 21 * rows.len() && out.len() < line_length(rows) {
        return 0;
    }
    (at + filled(out, letter, rows)) as u64
}

/// The same, with the exact length taken of every line, as the proved one does.
#[inline(never)]
pub fn put_line_exact(out: &mut [u8], at: usize, letter: u8, rows: &[[u64; 2]]) -> u64 {
    let Some(out) = out.get_mut(at..) else {
        return 0;
    };
    if out.len() < line_length(rows) {
        return 0;
    }
    (at + filled(out, letter, rows)) as u64
}
