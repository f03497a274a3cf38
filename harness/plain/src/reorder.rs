//! Positions, `try_reorder`, and pairs in the order of their positions.

use crate::write::Sink;

const NO_OP: u64 = 2 << 32;

/// Each expected entry takes the leftmost equal place, which then becomes the placeholder.
pub fn places_in(current: &[u64], expected: &[u64], places: &mut [u8; 32]) -> bool {
    if current.is_empty() || expected.is_empty() {
        return false;
    }
    let mut left = [0u64; 32];
    let left = &mut left[..current.len()];
    left.copy_from_slice(current);
    for (expr, place) in expected.iter().zip(places) {
        let Some(found) = left.iter().position(|e| e == expr) else {
            return false;
        };
        left[found] = NO_OP;
        *place = found as u8;
    }
    true
}

fn rewritten<'a>(w: &[u64], keys: &[u64], room: &'a mut [u64; 32]) -> &'a [u64] {
    for (new, key) in room.iter_mut().zip(keys) {
        *new = w
            .chunks_exact(2)
            .find(|rule| rule[0] == *key)
            .map_or(*key, |rule| rule[1]);
    }
    &room[..keys.len()]
}

/// `try_reorder`: the report, and the places where the keys move.
#[inline(always)]
pub fn try_reorder(w: &[u64], r: &[u64], l: &[u64], g: &[u64], places: &mut [u8; 32]) -> u64 {
    if r.len() != l.len() {
        return 3;
    }
    if r == l || r == g {
        return 1;
    }
    if w.is_empty() {
        let moved = places_in(l, r, places) || places_in(g, r, places);
        return if moved { 2 } else { 3 };
    }
    let (mut a, mut b, mut c) = ([0; 32], [0; 32], [0; 32]);
    let new_r = rewritten(w, r, &mut a);
    let new_l = rewritten(w, l, &mut b);
    let new_g = rewritten(w, g, &mut c);
    if new_r == new_l || new_r == new_g {
        return 1;
    }
    let moved = places_in(l, r, places)
        || places_in(g, r, places)
        || places_in(new_l, new_r, places)
        || places_in(new_g, new_r, places);
    if moved { 2 } else { 3 }
}

/// Pairs in the order of the places; as they stand where there are none.
pub struct Pairs<'a> {
    pub l: &'a [u64],
    pub g: &'a [u64],
    pub s: &'a [u64],
    pub places: &'a [u8],
}

impl Pairs<'_> {
    #[inline(always)]
    pub fn put_keys(&self, sink: &mut impl Sink, letter: u8, keys: &[u64]) {
        if self.places.is_empty() {
            sink.exprs(letter, keys.iter().copied());
        } else {
            sink.exprs(letter, self.places.iter().map(|p| keys[*p as usize]));
        }
    }

    #[inline(always)]
    pub fn put(&self, sink: &mut impl Sink) {
        self.put_keys(sink, b'L', self.l);
        self.put_keys(sink, b'G', self.g);
        if self.places.is_empty() || self.s.is_empty() {
            sink.numbers(b'S', self.s.iter().copied());
        } else {
            sink.numbers(b'S', self.places.iter().map(|p| self.s[*p as usize]));
        }
    }

    #[inline(always)]
    pub fn put_places(&self, sink: &mut impl Sink) {
        sink.numbers(b'P', self.places.iter().map(|p| *p as u64));
    }
}
