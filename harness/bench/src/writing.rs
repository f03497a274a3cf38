//! The proved line writer beside plain Rust.

use crate::table::{Named, Table, side};
use crate::texts::{LINES, Rows, Sort, lines, random_rows, text};
use crate::{common, proved, tight};
use sheets::Random;

type PutLine = fn(&mut [u8], usize, u8, &[[u64; 2]]) -> u64;

/// Compares answers and bytes on random rows, with room and without.
pub fn compare(random: &mut Random, texts: usize) -> Result<(), String> {
    let sides: [(&str, PutLine); 4] = [
        ("tight", tight::put_line),
        ("tight, exact length", tight::put_line_exact),
        ("write!", common::put_line_write),
        ("format!", common::put_line_format),
    ];
    let mut whole = 0;
    for _ in 0..texts {
        let rows = random_rows(random, 9);
        let at = random.place(6);
        let room = if random.below(2) == 0 {
            256
        } else {
            random.place(100)
        };
        let mut out = [7u8; 256];
        let answer = proved::put_line(&mut out[..room], at, b'K', &rows);
        whole += (answer != 0) as usize;
        for (name, put_line) in sides {
            let mut other = [7u8; 256];
            let theirs = put_line(&mut other[..room], at, b'K', &rows);
            // `write!` leaves what it wrote before it found that there is no room.
            let bytes_differ = other != out && !(answer == 0 && name == "write!");
            if theirs != answer || bytes_differ {
                return Err(format!(
                    "writing {rows:?} at {at}, room {room}: proved {answer} {out:?}, {name} {theirs} {other:?}"
                ));
            }
        }
    }
    println!("writing: {texts} lines compared, {whole} of them with room");
    Ok(())
}

/// A side that writes one line after the other.
fn over<'a>(name: &'static str, put_line: PutLine, work: &'a [Rows], room: usize) -> Named<'a> {
    let mut out = vec![0u8; room];
    side(name, move || {
        let mut at = 0;
        for line in work {
            at = put_line(&mut out, at, line.letter, &line.rows) as usize;
        }
        at as u64 + out[at / 2] as u64
    })
}

pub fn race(random: &mut Random) {
    let mut table = Table::new();
    for (sort, name) in Sort::ALL.into_iter().zip(["typical", "mixed", "long"]) {
        let work = lines(random, sort, LINES);
        let bytes: usize = work.iter().map(|line| text(line).len()).sum();
        let room = bytes + 1024;
        table.column(
            name,
            bytes,
            vec![
                over("tight plain Rust", tight::put_line, &work, room),
                over(
                    "the same, exact length first",
                    tight::put_line_exact,
                    &work,
                    room,
                ),
                over(
                    "proved, `line_length` and `put_line`",
                    proved::put_line,
                    &work,
                    room,
                ),
                over("`write!`", common::put_line_write, &work, room),
                over("`format!`", common::put_line_format, &work, room),
            ],
        );
    }
    table.print("Writing a line: ns per byte (ratio)");
}
