//! Plain Rust from a sheet's bytes to its answer's, with every refusal, as document 01 and docs/DECISIONS.md have them.
//! A line is read in one pass, an expression is one number, nothing is allocated, and what was read goes into a room that the caller
//! lends once and that isn't cleared.
//!
//! A result is a refusal's number times 2^32 plus its line, or the count of bytes written.

mod exchange;
mod inputs;
mod keys;
mod line;
mod reorder;
mod tree;
mod write;

use exchange::Exchange;
use line::MOST_FIELDS;
use write::answered;

const MOST_BYTES: usize = 65536;
const MOST_ENTRIES: usize = 32;
/// Entries of the lists R, L, G, S, W, O, A, M and eight times C.
const MOST_NUMBERS: usize = 32 * 17;

/// What was read of a sheet.
pub struct Room {
    fields: [u64; MOST_FIELDS],
    head: [u64; 9],
    numbers: [u64; MOST_NUMBERS],
    ends: [usize; 18],
    exchange: Exchange,
}

impl Default for Room {
    fn default() -> Room {
        Room {
            fields: [0; MOST_FIELDS],
            head: [0; 9],
            numbers: [0; MOST_NUMBERS],
            ends: [0; 18],
            exchange: Exchange::new(),
        }
    }
}

impl Room {
    pub fn new() -> Room {
        Room::default()
    }

    fn list(&self, i: usize) -> &[u64] {
        &self.numbers[self.ends[i]..self.ends[i + 1]]
    }
}

/// A refusal as a result.
pub fn refused(number: u64, line: usize) -> u64 {
    number << 32 | line as u64
}

/// Number and line of a result that is a refusal.
pub fn refusal(result: u64) -> Option<(u64, u64)> {
    let number = result >> 32;
    (number > 0).then_some((number, result & 0xffffffff))
}

/// How many bytes of the output a result says were written.
pub fn written(result: u64) -> usize {
    match refusal(result) {
        None => result as usize,
        Some(_) => 0,
    }
}

/// What the program prints for a result.
pub fn printed(result: u64, out: &[u8]) -> Vec<u8> {
    match refusal(result) {
        None => out[..written(result)].to_vec(),
        Some((number, line)) => format!("e,{number},{line}\n").into_bytes(),
    }
}

#[inline(always)]
fn decide_with<const EXACT: bool>(s: &[u8], out: &mut [u8], room: &mut Room) -> u64 {
    match s.first() {
        Some(b'K') => keys::decide::<EXACT>(s, out, room),
        Some(b'I') => inputs::decide::<EXACT>(s, out, room),
        Some(b'D') => tree::decide::<EXACT>(s, out, room),
        _ => refused(1, 1),
    }
}

/// Decides a sheet.
#[inline(never)]
pub fn decide(s: &[u8], out: &mut [u8], room: &mut Room) -> u64 {
    decide_with::<false>(s, out, room)
}

/// The same, with the exact length taken of every answer, as the proved one does.
#[inline(never)]
pub fn decide_exact(s: &[u8], out: &mut [u8], room: &mut Room) -> u64 {
    decide_with::<true>(s, out, room)
}

/// Decides a sheet of one kind, `K`, `I` or `D`; any other is refused by 1 on line 1.
pub fn decide_only(kind: u8, s: &[u8], out: &mut [u8], room: &mut Room) -> u64 {
    match s.first() {
        Some(first) if *first == kind => decide(s, out, room),
        _ => refused(1, 1),
    }
}

/// Writes a sheet again from what was read of it.
pub fn rewrite(s: &[u8], out: &mut [u8], room: &mut Room) -> u64 {
    let read = match s.first() {
        Some(b'K') => keys::read(s, room),
        Some(b'I') => inputs::read(s, room),
        Some(b'D') => exchange::read(s, room),
        _ => Err(refused(1, 1)),
    };
    if let Err(refusal) = read {
        return refusal;
    }
    let room = &*room;
    match s[0] {
        b'K' => answered::<true>(keys::Sheet(room), out),
        b'I' => answered::<true>(inputs::Sheet(room), out),
        _ => answered::<true>(exchange::Sheet(room), out),
    }
}
