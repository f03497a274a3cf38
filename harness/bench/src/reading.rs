//! The proved line reader beside plain Rust.

use crate::proved::Found;
use crate::table::{Named, Table, side};
use crate::texts::{LINES, Sort, lines, random_text, text};
use crate::{common, proved, tight};
use sheets::Random;

type LineAt = fn(&[u8], usize, u8, &mut [[u64; 2]]) -> Found;

const ROOM: usize = 64;

/// Compares answers and stored rows on random texts, into rooms of random size.
pub fn compare(random: &mut Random, texts: usize) -> Result<(), String> {
    let sides: [(&str, LineAt); 2] = [
        ("tight", tight::line_at),
        ("split and parse", common::line_at),
    ];
    let mut s = Vec::new();
    let mut whole = 0;
    for _ in 0..texts {
        let at = random_text(random, &mut s);
        let room = if random.below(4) == 0 {
            random.place(4)
        } else {
            16
        };
        let mut rows = [[7, 7]; 16];
        let answer = proved::line_at(&s, at, b'K', &mut rows[..room]);
        whole += (answer.next != 0) as usize;
        for (name, line_at) in sides {
            let mut other = [[7, 7]; 16];
            let theirs = line_at(&s, at, b'K', &mut other[..room]);
            if theirs != answer || other != rows {
                return Err(format!(
                    "reading {:?} at {at}, room {room}: proved {answer:?} {rows:?}, {name} {theirs:?} {other:?}",
                    String::from_utf8_lossy(&s)
                ));
            }
        }
    }
    println!("reading: {texts} texts compared, {whole} of them whole lines");
    Ok(())
}

/// A side that reads one line after the other.
fn over<'a>(name: &'static str, line_at: LineAt, s: &'a [u8]) -> Named<'a> {
    let mut rows = [[0; 2]; ROOM];
    side(name, move || {
        let mut at = 0;
        let mut sum = 0;
        while at < s.len() {
            let line = line_at(s, at, s[at], &mut rows);
            sum += line.count + line.worst + line.largest % 16 + rows[0][1] % 16;
            at = line.next as usize;
        }
        sum
    })
}

pub fn race(random: &mut Random) {
    let mut table = Table::new();
    for (sort, name) in Sort::ALL.into_iter().zip(["typical", "mixed", "long"]) {
        let s: Vec<u8> = lines(random, sort, LINES).iter().flat_map(text).collect();
        table.column(
            name,
            s.len(),
            vec![
                over("tight plain Rust", tight::line_at, &s),
                over("proved, `line_at`", proved::line_at, &s),
                over("`split` and `parse`", common::line_at, &s),
            ],
        );
    }
    table.print("Reading a line: ns per byte (ratio)");
}
