//! Where text goes: counted first, or written.

use crate::{MOST_BYTES, refused};

pub trait Sink {
    fn byte(&mut self, b: u8);
    fn number(&mut self, n: u64);

    #[inline(always)]
    fn field(&mut self, n: u64) {
        self.byte(b',');
        self.number(n);
    }

    #[inline(always)]
    fn fields<const N: usize>(&mut self, list: [u64; N]) {
        for n in list {
            self.field(n);
        }
    }

    #[inline(always)]
    fn expr(&mut self, e: u64) {
        self.field(e >> 32);
        self.field(e >> 16 & 0xffff);
        self.field(e & 0xffff);
    }

    #[inline(always)]
    fn exprs(&mut self, letter: u8, list: impl Iterator<Item = u64>) {
        self.byte(letter);
        for e in list {
            self.expr(e);
        }
        self.byte(b'\n');
    }

    #[inline(always)]
    fn numbers(&mut self, letter: u8, list: impl Iterator<Item = u64>) {
        self.byte(letter);
        for n in list {
            self.field(n);
        }
        self.byte(b'\n');
    }
}

pub struct Counted(usize);

impl Sink for Counted {
    #[inline(always)]
    fn byte(&mut self, _: u8) {
        self.0 += 1;
    }

    #[inline(always)]
    fn number(&mut self, n: u64) {
        self.0 += 1;
        if n > 9 {
            self.0 += n.ilog10() as usize;
        }
    }
}

pub struct Written<'a> {
    out: &'a mut [u8],
    at: usize,
}

impl Sink for Written<'_> {
    #[inline(always)]
    fn byte(&mut self, b: u8) {
        self.out[self.at] = b;
        self.at += 1;
    }

    #[inline(always)]
    fn number(&mut self, mut n: u64) {
        if n < 10 {
            return self.byte(b'0' + n as u8);
        }
        let end = self.at + n.ilog10() as usize + 1;
        for b in self.out[self.at..end].iter_mut().rev() {
            *b = b'0' + (n % 10) as u8;
            n /= 10;
        }
        self.at = end;
    }
}

pub trait Answer {
    fn put(&self, sink: &mut impl Sink);
}

/// Writes the answer where it fits. Without `EXACT` its length is taken only where the room is smaller than any answer may need.
#[inline(always)]
pub fn answered<const EXACT: bool>(answer: impl Answer, out: &mut [u8]) -> u64 {
    if EXACT || out.len() < MOST_BYTES {
        let mut length = Counted(0);
        answer.put(&mut length);
        if length.0 > out.len() {
            return refused(12, 0);
        }
    }
    let mut sink = Written { out, at: 0 };
    answer.put(&mut sink);
    sink.at as u64
}
