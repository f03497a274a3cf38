//! I sheets: `reorder_join_keys_to_inputs`.

use crate::line::{NARROW, defined, line_at, read_lists};
use crate::reorder::{Pairs, try_reorder};
use crate::write::{Answer, Sink, answered};
use crate::{MOST_BYTES, Room, refused};

const LETTERS: &[u8] = b"LGSHNWV";

/// Reads the sheet: refusals 1 to 6.
#[inline(always)]
pub fn read(s: &[u8], room: &mut Room) -> Result<(), u64> {
    let line = line_at(s, 0, b'I', &mut room.fields).ok_or(refused(1, 1))?;
    if line.largest > NARROW || line.count != 2 {
        return Err(refused(2, 1));
    }
    if line.next > MOST_BYTES {
        return Err(refused(3, 1));
    }
    let [op, mode] = [room.fields[0], room.fields[1]];
    if !defined(op, mode) {
        return Err(refused(4, 1));
    }
    room.head[..2].copy_from_slice(&[op, mode]);
    read_lists(s, line.next, LETTERS.iter().copied(), room)?;
    let [l, g, d, h, n] = [0, 1, 2, 3, 4].map(|i| room.list(i));
    let directions = if op == 2 { l.len() } else { 0 };
    let fit = l.len() == g.len()
        && d.len() == directions
        && (h[0] == 1 || h.len() == 1)
        && (n[0] == 1 || n.len() == 1);
    if fit { Ok(()) } else { Err(refused(5, 0)) }
}

struct Followed<'a> {
    report: u64,
    followed: u64,
    pairs: Pairs<'a>,
}

impl Answer for Followed<'_> {
    #[inline(always)]
    fn put(&self, sink: &mut impl Sink) {
        sink.numbers(b'i', [self.report, self.followed].into_iter());
        self.pairs.put_places(sink);
        self.pairs.put(sink);
    }
}

pub fn decide<const EXACT: bool>(s: &[u8], out: &mut [u8], room: &mut Room) -> u64 {
    if let Err(refusal) = read(s, room) {
        return refusal;
    }
    let [op, mode] = [room.head[0], room.head[1]];
    let [l, g, d, h, n, w, v] = [0, 1, 2, 3, 4, 5, 6].map(|i| room.list(i));
    let (mut report, mut followed) = (0, 0);
    let mut places = [0; 32];
    if op == 2 || (op == 0 && mode == 0) {
        for (side, keys, rules) in [(1, h, w), (2, n, v)] {
            if keys[0] == 1 && followed == 0 {
                report = try_reorder(rules, &keys[1..], l, g, &mut places);
                followed = if report == 3 { 0 } else { side };
            }
        }
    }
    let places = if report == 2 { &places[..l.len()] } else { &[] };
    let pairs = Pairs { l, g, s: d, places };
    let answer = Followed {
        report,
        followed,
        pairs,
    };
    answered::<EXACT>(answer, out)
}

/// The sheet as it was read.
pub struct Sheet<'a>(pub &'a Room);

impl Answer for Sheet<'_> {
    fn put(&self, sink: &mut impl Sink) {
        sink.numbers(b'I', self.0.head[..2].iter().copied());
        for (i, letter) in LETTERS.iter().enumerate() {
            let list = self.0.list(i);
            match letter {
                b'S' => sink.numbers(b'S', list.iter().copied()),
                b'H' | b'N' => {
                    sink.byte(*letter);
                    sink.field(list[0]);
                    list[1..].iter().for_each(|e| sink.expr(*e));
                    sink.byte(b'\n');
                }
                _ => sink.exprs(*letter, list.iter().copied()),
            }
        }
    }
}
