//! The sides that are compared, each asked in the same way.

use lochkave::{Question, Refusal, ask_into};
use plain::{Room, refused, written};
use std::panic::{AssertUnwindSafe, catch_unwind};

pub const MOST: usize = 65536;
/// What an output is filled with before a call.
const FILL: u8 = 126;

/// Buffers and room, lent once.
pub struct Sides {
    room: Room,
    lent_room: lochkave::Room,
    pub ours: Vec<u8>,
    lent: Vec<u8>,
    pub theirs: Vec<u8>,
}

fn number(result: Result<usize, Refusal>) -> u64 {
    match result {
        Ok(length) => length as u64,
        Err(refusal) => refused(refusal.number.into(), refusal.line as usize),
    }
}

/// Whether every byte behind the answer is as it was.
fn untouched(result: u64, out: &[u8]) -> bool {
    out[written(result)..].iter().all(|b| *b == FILL)
}

impl Sides {
    pub fn new() -> Sides {
        Sides {
            room: Room::new(),
            lent_room: lochkave::Room::new(),
            ours: vec![FILL; MOST],
            lent: vec![FILL; MOST],
            theirs: vec![FILL; MOST],
        }
    }

    /// Plain Rust's result; its output stands in `theirs`. Nothing where it panics or writes where it shouldn't.
    pub fn plain(&mut self, question: Question, sheet: &[u8], length: usize) -> Option<u64> {
        self.theirs[..length].fill(FILL);
        let (out, room) = (&mut self.theirs[..length], &mut self.room);
        let result = catch_unwind(AssertUnwindSafe(|| match question {
            Question::Decide => plain::decide(sheet, out, room),
            Question::AdjustInputKeysOrdering => plain::decide_only(b'K', sheet, out, room),
            Question::ReorderJoinKeysToInputs => plain::decide_only(b'I', sheet, out, room),
            Question::EnsureDistribution => plain::decide_only(b'D', sheet, out, room),
            Question::Rewrite => plain::rewrite(sheet, out, room),
        }));
        let result = result.ok()?;
        untouched(result, &self.theirs[..length]).then_some(result)
    }

    /// The library's result; its output stands in `ours`.
    pub fn library(&mut self, question: Question, sheet: &[u8], length: usize) -> u64 {
        self.ours[..length].fill(FILL);
        number(ask_into(question, sheet, &mut self.ours[..length]))
    }

    /// The library's result on the same sheet in the room that is lent to it again and again; nothing where its output isn't `ours`.
    pub fn lent(&mut self, sheet: &[u8], length: usize) -> Option<u64> {
        self.lent[..length].fill(FILL);
        let result = self.lent_room.decide_into(sheet, &mut self.lent[..length]);
        (self.lent[..length] == self.ours[..length]).then_some(number(result))
    }

    /// Whether both outputs have the same bytes.
    pub fn same(&self, length: usize) -> bool {
        self.ours[..length] == self.theirs[..length]
    }
}

/// What the files say of an accepted sheet.
pub fn files(sheet: &[u8]) -> Vec<u8> {
    catch_unwind(|| oracle::decide(sheet)).unwrap_or_else(|_| b"panicked\n".to_vec())
}
