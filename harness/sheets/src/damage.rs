//! Damaged copies: some are still accepted, most are not.

use crate::{Line, Random, Sheet};

fn some_number(random: &mut Random) -> u64 {
    let digits = 1 + random.below(11) as u32;
    let long = random.of_digits(digits);
    let small = random.below(17);
    random.of(&[
        0, 1, 2, 3, 4, small, small, small, 65535, 65536, 4294967295, 4294967296, long,
    ])
}

/// Another number, the other mark, a field more or less, many fields more.
fn damage_fields(random: &mut Random, fields: &mut Vec<Option<u64>>) {
    let k = match random.below(4) {
        0 => 0,
        _ => random.place(fields.len() + 1),
    };
    match random.below(8) {
        0 if k < fields.len() => {
            fields.remove(k);
        }
        1 => fields.insert(k, Some(some_number(random))),
        2 => {
            let more = fields.len() + 3 * random.place(70);
            fields.resize(more, Some(random.below(2)));
        }
        3 if k < fields.len() => fields[k] = None,
        4 | 5 if k < fields.len() && fields[k].is_some_and(|f| f <= 1) => {
            fields[k] = fields[k].map(|f| 1 - f)
        }
        _ if k < fields.len() => fields[k] = Some(some_number(random)),
        _ => {}
    }
}

/// A line more, less or elsewhere, or other fields.
fn damage_lines(random: &mut Random, lines: &mut Vec<Line>) {
    let i = match random.below(4) {
        0 => 0,
        _ => random.place(lines.len()),
    };
    let j = random.place(lines.len());
    match random.below(12) {
        0 => lines.swap(i, j),
        1 => {
            lines.remove(i);
        }
        2 => {
            let line = lines[i].clone();
            lines.insert(j, line);
        }
        3 => lines.truncate(i),
        4 => {
            // Now and then so often that the sheet goes beyond 65,536 bytes.
            let times = match random.below(40) {
                0 => 2000 + random.place(1000),
                _ => random.place(300),
            };
            let copies = vec![lines[i].clone(); times];
            lines.splice(i..i, copies);
        }
        _ => damage_fields(random, &mut lines[i].fields),
    }
}

const BYTES: &[u8] = b",,,\n\n\n0019-+ KRLGSWOAMCIHNVDTBFXY\r\0\xff";

fn damage_text(random: &mut Random, text: &mut Vec<u8>) {
    let place = random.place(text.len() + 1);
    let b = random.of(BYTES);
    match random.below(5) {
        0 => text.truncate(place),
        1 if place < text.len() => {
            text.remove(place);
        }
        2 if place < text.len() => text[place] = b,
        3 if random.below(200) == 0 => {
            let more = random.place(70000);
            let filler = vec![b; more];
            text.splice(place..place, filler);
        }
        _ => text.insert(place, b),
    }
}

/// A damaged copy of a sheet.
pub fn damage(random: &mut Random, sheet: &Sheet) -> Vec<u8> {
    let mut sheet = sheet.clone();
    let lines = random.of(&[0, 1, 1, 1, 2]);
    for _ in 0..lines {
        if !sheet.0.is_empty() {
            damage_lines(random, &mut sheet.0);
        }
    }
    let mut text = sheet.text();
    let bytes = if lines == 0 {
        1 + random.below(2)
    } else {
        random.below(6) / 5
    };
    for _ in 0..bytes {
        damage_text(random, &mut text);
    }
    text
}
