//! Lines to read and to write: for timing, and random ones for comparing.

use sheets::Random;

/// So many lines a sample that the processor can't learn their branches by heart.
pub const LINES: usize = 4096;

/// The three sorts of lines that are timed.
#[derive(Clone, Copy)]
pub enum Sort {
    Typical,
    Mixed,
    Long,
}

impl Sort {
    pub const ALL: [Sort; 3] = [Sort::Typical, Sort::Mixed, Sort::Long];
}

/// A line as rows of state and value, with its letter.
pub struct Rows {
    pub letter: u8,
    pub rows: Vec<[u64; 2]>,
}

/// Lines like K, R, T and X of a sheet: so many fields, and a T line's limit is mostly empty.
pub fn lines(random: &mut Random, sort: Sort, count: usize) -> Vec<Rows> {
    (0..count)
        .map(|i| {
            let (letter, fields) = match i % 8 {
                0 => (b'K', 7),
                1 => (b'R', 3 * (1 + random.place(4))),
                2..=4 => (b'T', 8),
                _ => (b'X', 13),
            };
            let mut rows: Vec<[u64; 2]> = (0..fields)
                .map(|_| {
                    let digits = match sort {
                        Sort::Typical => 1 + (random.below(32) == 0) as u32,
                        Sort::Mixed if random.below(8) == 0 => 1 + random.below(5) as u32,
                        Sort::Mixed => 1,
                        Sort::Long => 1 + random.below(20) as u32,
                    };
                    [0, random.of_digits(digits)]
                })
                .collect();
            if letter == b'T' && random.below(4) != 0 {
                rows[3] = [1, 0];
            }
            Rows { letter, rows }
        })
        .collect()
}

/// The text of a line, written the plainest way.
pub fn text(line: &Rows) -> Vec<u8> {
    let mut out = vec![line.letter];
    for [state, value] in &line.rows {
        out.push(b',');
        if *state == 0 {
            out.extend_from_slice(value.to_string().as_bytes());
        }
    }
    out.push(b'\n');
    out
}

/// Up to `most` random rows, some of them empty or malformed.
pub fn random_rows(random: &mut Random, most: usize) -> Vec<[u64; 2]> {
    (0..random.place(most + 1))
        .map(|_| match random.below(8) {
            0 => [1 + random.number() % 2, 0],
            1 => [0, u64::MAX - random.number() % 3],
            2 | 3 => {
                let digits = 1 + random.below(20) as u32;
                [0, random.of_digits(digits)]
            }
            _ => [0, random.number() % 10],
        })
        .collect()
}

const PIECES: [&[u8]; 16] = [
    b",",
    b"\n",
    b"0",
    b"1",
    b"9",
    b"-",
    b"+",
    b" ",
    b"K",
    b"\r",
    b"\0",
    b"\xff",
    b",,",
    b"00",
    b"18446744073709551615",
    b"18446744073709551616",
];

/// A text and a place in it: lines of letter K, whole, damaged, or a heap of pieces.
pub fn random_text(random: &mut Random, text_out: &mut Vec<u8>) -> usize {
    text_out.clear();
    let way = random.below(4);
    if way == 0 {
        for _ in 0..random.below(12) {
            text_out.extend_from_slice(random.of(&PIECES));
        }
        if random.below(2) == 0 {
            text_out.insert(0, b'K');
        }
    } else {
        for _ in 0..1 + random.below(2) {
            let rows = random_rows(random, 9);
            text_out.extend_from_slice(&text(&Rows { letter: b'K', rows }));
        }
    }
    if way >= 2 {
        for _ in 0..1 + random.below(3) {
            let place = random.place(text_out.len() + 1);
            match random.below(4) {
                0 => text_out.truncate(place),
                1 if place < text_out.len() => {
                    text_out.remove(place);
                }
                2 if place < text_out.len() => text_out[place] = random.number() as u8,
                _ => {
                    let piece = random.of(&PIECES);
                    text_out.splice(place..place, piece.iter().copied());
                }
            }
        }
    }
    match random.below(8) {
        0 => random.place(text_out.len() + 3),
        1 => text_out
            .iter()
            .position(|b| *b == b'\n')
            .map_or(0, |k| k + 1),
        _ => 0,
    }
}
