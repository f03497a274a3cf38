//! K sheets: `adjust_input_keys_ordering`.

use crate::line::{NARROW, defined, line_at, read_lists};
use crate::reorder::{Pairs, places_in, try_reorder};
use crate::write::{Answer, Sink, answered};
use crate::{MOST_BYTES, Room, refused};

const LETTERS: &[u8; 16] = b"RLGSWOAMCCCCCCCC";

/// Reads the first line: the place after it.
#[inline(always)]
fn read_head(s: &[u8], room: &mut Room) -> Result<usize, u64> {
    let line = line_at(s, 0, b'K', &mut room.fields).ok_or(refused(1, 1))?;
    if line.largest > NARROW || line.count != 7 {
        return Err(refused(2, 1));
    }
    let [op, mode, join, left, plain, partial, children] = room.fields[..7].try_into().unwrap();
    if children > 8 || line.next > MOST_BYTES {
        return Err(refused(3, 1));
    }
    let last_join = if op == 0 { 9 } else { 0 };
    if !defined(op, mode) || join > last_join || plain > 1 || partial > 1 {
        return Err(refused(4, 1));
    }
    let fit = match op {
        0..=2 => children == 2,
        3..=5 => children == 1,
        _ => true,
    };
    if !fit {
        return Err(refused(6, 1));
    }
    room.head[..7].copy_from_slice(&[op, mode, join, left, plain, partial, children]);
    Ok(line.next)
}

fn ordered(room: &Room) -> bool {
    room.head[0] == 2 || room.head[..2] == [0, 0]
}

/// Reads the sheet: refusals 1 to 6.
#[inline(always)]
pub fn read(s: &[u8], room: &mut Room) -> Result<(), u64> {
    let at = read_head(s, room)?;
    let letters = &LETTERS[..8 + room.head[6] as usize];
    read_lists(s, at, letters.iter().copied(), room)?;
    let room = &*room;
    let op = room.head[0];
    let [l, g, d, w, o, a, m] = [1, 2, 3, 4, 5, 6, 7].map(|i| room.list(i).len());
    let directions = if op == 2 { l } else { 0 };
    let fit = l == g
        && d == directions
        && (ordered(room) || l + w == 0)
        && (op == 3 || o + a == 0)
        && (op == 4 || m == 0);
    if fit { Ok(()) } else { Err(refused(5, 0)) }
}

struct Joined<'a> {
    report: u64,
    r: &'a [u64],
    pairs: Pairs<'a>,
}

impl Answer for Joined<'_> {
    #[inline(always)]
    fn put(&self, sink: &mut impl Sink) {
        sink.numbers(b'k', [1, self.report].into_iter());
        self.pairs.put_places(sink);
        sink.exprs(b'R', self.r.iter().copied());
        self.pairs.put(sink);
        sink.numbers(b'J', [].into_iter());
        self.pairs.put_keys(sink, b'C', self.pairs.l);
        self.pairs.put_keys(sink, b'C', self.pairs.g);
    }
}

/// Every other operator. Child 1 has `first`, each other `others`; where there is no list the sheet's own stays.
struct Adjusted<'a> {
    changed: u64,
    places: &'a [u8],
    r: &'a [u64],
    names: &'a [u64],
    first: Option<&'a [u64]>,
    others: Option<&'a [u64]>,
    room: &'a Room,
}

impl Answer for Adjusted<'_> {
    fn put(&self, sink: &mut impl Sink) {
        let report = if self.places.is_empty() { 0 } else { 2 };
        sink.numbers(b'k', [self.changed, report].into_iter());
        sink.numbers(b'P', self.places.iter().map(|p| *p as u64));
        sink.exprs(b'R', self.r.iter().copied());
        for letter in *b"LGS" {
            sink.numbers(letter, [].into_iter());
        }
        sink.numbers(b'J', self.names.iter().copied());
        for i in 0..self.room.head[6] as usize {
            let new = if i == 0 { self.first } else { self.others };
            let list = new.unwrap_or(self.room.list(8 + i));
            sink.exprs(b'C', list.iter().copied());
        }
    }
}

/// R with the left columns taken off; empty where one isn't a column of the right side.
fn shifted<'a>(r: &[u64], left: u64, room: &'a mut [u64; 32]) -> &'a [u64] {
    for (new, e) in room.iter_mut().zip(r) {
        if e >> 32 != 0 || e & 0xffff < left {
            return &[];
        }
        *new = e - left;
    }
    &room[..r.len()]
}

/// The places of an aggregate's groups, where it acts.
fn regrouped(plain: bool, partial: bool, r: &[u64], o: &[u64], places: &mut [u8; 32]) -> bool {
    if r.len() != o.len() || !plain {
        return false;
    }
    let mut columns = [0; 32];
    for (i, name) in o.iter().enumerate() {
        columns[i] = name << 16 | i as u64;
    }
    let columns = &columns[..o.len()];
    r != columns && places_in(columns, r, places) && partial
}

/// Each group name with its first place among the moved names followed by A, then each name of A with its own.
fn named(o: &[u64], a: &[u64], places: &[u8], names: &mut [u64; 128]) -> Option<usize> {
    let mut n = 0;
    for name in o {
        let moved = places.iter().map(|p| o[*p as usize]);
        let place = moved.chain(a.iter().copied()).position(|m| m == *name)?;
        names[n] = *name;
        names[n + 1] = place as u64;
        n += 2;
    }
    for (i, name) in a.iter().enumerate() {
        names[n] = *name;
        names[n + 1] = (o.len() + i) as u64;
        n += 2;
    }
    Some(n)
}

/// What is built for an operator that isn't ordered.
struct Built {
    keys: [u64; 32],
    names: [u64; 128],
    places: [u8; 32],
}

/// The decision on an aggregate of final mode that has a requirement.
fn regroup<'a>(x: &mut Adjusted<'a>, built: &'a mut Built) -> Option<()> {
    let room = x.room;
    let [plain, partial] = [room.head[4] == 1, room.head[5] == 1];
    let [r, o, a] = [0, 5, 6].map(|i| room.list(i));
    if regrouped(plain, partial, r, o, &mut built.places) {
        x.places = &built.places[..r.len()];
        let n = named(o, a, x.places, &mut built.names)?;
        x.names = &built.names[..n];
        x.r = &[];
        x.first = Some(&[]);
    }
    Some(())
}

/// The decision where no order of pairs is tried; nothing where a name isn't found.
fn adjust<'a>(room: &'a Room, built: &'a mut Built) -> Option<Adjusted<'a>> {
    let [op, mode, join, left] = room.head[..4].try_into().unwrap();
    let (r, m) = (room.list(0), room.list(7));
    let mut x = Adjusted {
        changed: 1,
        places: &[],
        r,
        names: &[],
        first: None,
        others: None,
        room,
    };
    match (op, mode) {
        (0, 1) => {
            x.others = Some(match join {
                0 | 2 => shifted(r, left, &mut built.keys),
                5 | 7 | 9 => r,
                _ => &[],
            })
        }
        (0, _) | (5, _) => x.r = &[],
        (1, _) => x.others = Some(shifted(r, left, &mut built.keys)),
        (3, _) if r.is_empty() => x.changed = 0,
        (3, 1) => x.r = &[],
        (3, _) => regroup(&mut x, built)?,
        (4, _) if m.len() == r.len() => x.first = Some(m),
        (4, _) => x.r = &[],
        _ if r.is_empty() => x.changed = 0,
        _ => (x.first, x.others) = (Some(r), Some(r)),
    }
    Some(x)
}

#[inline(always)]
pub fn decide<const EXACT: bool>(s: &[u8], out: &mut [u8], room: &mut Room) -> u64 {
    if let Err(refusal) = read(s, room) {
        return refusal;
    }
    let room = &*room;
    if ordered(room) {
        let mut places = [0; 32];
        let [r, l, g, d, w] = [0, 1, 2, 3, 4].map(|i| room.list(i));
        let report = try_reorder(w, r, l, g, &mut places);
        let places = if report == 2 { &places[..r.len()] } else { &[] };
        let pairs = Pairs { l, g, s: d, places };
        return answered::<EXACT>(Joined { report, r, pairs }, out);
    }
    let mut built = Built {
        keys: [0; 32],
        names: [0; 128],
        places: [0; 32],
    };
    match adjust(room, &mut built) {
        Some(x) => answered::<EXACT>(x, out),
        None => refused(10, 0),
    }
}

/// The sheet as it was read.
pub struct Sheet<'a>(pub &'a Room);

impl Answer for Sheet<'_> {
    fn put(&self, sink: &mut impl Sink) {
        sink.numbers(b'K', self.0.head[..7].iter().copied());
        for (i, letter) in LETTERS[..8 + self.0.head[6] as usize].iter().enumerate() {
            let list = self.0.list(i).iter().copied();
            match letter {
                b'S' | b'O' | b'A' => sink.numbers(*letter, list),
                _ => sink.exprs(*letter, list),
            }
        }
    }
}
