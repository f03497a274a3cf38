//! The benchmark: the same sheets, driver and buffers for the proved library, plain Rust and the three files over stand-ins.

use crate::sides::MOST;
use plain::Room;
use sheets::{Line, Random, Sheet};
use std::hint::black_box;
use std::process::ExitCode;
use timing::{Joined, Key, Side, best, columns};

const SHEETS: usize = 64;
const ROUNDS: usize = 400;
/// The files over stand-ins take so much longer that fewer rounds do.
const FILE_ROUNDS: usize = 20;

/// A side that decides one sheet after the other.
fn side<'a>(
    rounds: usize,
    sheets: &'a [Vec<u8>],
    mut decide: impl FnMut(&[u8]) -> u64 + 'a,
) -> Side<'a> {
    let mut one = move |sheet: &Vec<u8>| black_box(decide(black_box(sheet)));
    let run = Box::new(move || sheets.iter().map(&mut one).sum());
    Side { rounds, run }
}

/// ns a sheet: plain Rust, plain Rust with the exact length first, the library in a lent room and in its own, the files.
fn race_one(sheets: &[Vec<u8>]) -> [f64; 5] {
    let (mut plain_out, mut exact_out) = (vec![0; MOST], vec![0; MOST]);
    let (mut lent_out, mut own_out) = (vec![0; MOST], vec![0; MOST]);
    let mut lent_room = lochkave::Room::new();
    let (mut plain_room, mut exact_room) = (Room::new(), Room::new());
    let files = if oracle::AVAILABLE { FILE_ROUNDS } else { 0 };
    let mut sides = [
        side(ROUNDS, sheets, |s| {
            plain::decide(s, &mut plain_out, &mut plain_room)
        }),
        side(ROUNDS, sheets, |s| {
            plain::decide_exact(s, &mut exact_out, &mut exact_room)
        }),
        side(ROUNDS, sheets, |s| {
            let result = lent_room.decide_into(s, &mut lent_out);
            result.map_or(0, |n| n as u64)
        }),
        side(ROUNDS, sheets, |s| {
            lochkave::decide_into(s, &mut own_out).map_or(0, |n| n as u64)
        }),
        side(files, sheets, |s| oracle::decide(s).len() as u64),
    ];
    let times: [f64; 5] = best(&mut sides).try_into().unwrap();
    times.map(|time| time / sheets.len() as f64)
}

fn cell(time: f64, base: f64) -> String {
    match time.is_finite() {
        true => format!("{time:.0} ({:.2})", time / base),
        false => "not run".to_owned(),
    }
}

fn row(name: &str, sheets: &[Vec<u8>]) {
    let (mut out, mut room) = (vec![0; MOST], Room::new());
    for sheet in sheets {
        let result = plain::decide(sheet, &mut out, &mut room);
        assert!(result >> 32 == 0, "{name} is refused: {result:x}");
    }
    let bytes = sheets.iter().map(Vec::len).sum::<usize>() / sheets.len();
    let times = race_one(sheets);
    let cells: Vec<String> = times.iter().map(|time| cell(*time, times[0])).collect();
    println!("| {name} | {bytes} | {} |", cells.join(" | "));
}

fn head(what: &str) {
    println!(
        "\n| {what} | bytes | plain Rust | exact length first | proved library | proved, own rooms | three files |"
    );
    println!("|---|---|---|---|---|---|---|");
}

/// Keys of a list in another order.
fn moved(random: &mut Random, keys: &[Key]) -> Vec<Key> {
    let mut keys = keys.to_vec();
    random.shuffle(&mut keys);
    keys
}

fn directions(random: &mut Random, n: usize) -> Vec<u64> {
    (0..n).map(|_| random.below(4)).collect()
}

/// A sort-merge join of n pairs whose keys are asked for in another order, with so many rewriting pairs that match none.
fn key_join(random: &mut Random, n: usize, rules: usize) -> Vec<u8> {
    let (left, right) = (columns(n, 100), columns(n, 500));
    let joined = Joined {
        required: moved(random, &left),
        left,
        right,
        rules: columns(2 * rules, 900),
    };
    joined.sheet(directions(random, n), &[])
}

/// The same as an I sheet: both sides hashed, the left one by other keys, the right one by its own in another order.
fn input_join(random: &mut Random, n: usize, rules: usize) -> Vec<u8> {
    let (left, right) = (columns(n, 100), columns(n, 500));
    let hashed = |keys: Vec<Key>| [vec![1], keys.concat()].concat();
    let right_hashed = hashed(moved(random, &right));
    Sheet(vec![
        Line::new(b'I', [2, 0]),
        Line::new(b'L', left.concat()),
        Line::new(b'G', right.concat()),
        Line::new(b'S', directions(random, n)),
        Line::new(b'H', hashed(columns(n, 700))),
        Line::new(b'N', right_hashed),
        Line::new(b'W', columns(2 * rules, 900).concat()),
        Line::new(b'V', columns(2 * rules, 900).concat()),
    ])
    .text()
}

/// A row of a child: hashed, exact where an exchange is on top, an order before and none required.
fn row_line(child: u64, form: u64, target: u64) -> Line {
    let exchanged = (form >= 8 || form >> 1 == 2) as u64;
    let count = match form {
        0 => 8,
        1 => 12,
        2 | 3 => 1,
        _ => target,
    };
    let facts = [exchanged, exchanged, exchanged, exchanged, 1, 0, 0, 0, 1, 1];
    Line::new(b'X', [child, form, count].into_iter().chain(facts))
}

/// A join of two keyed children, or a union of more, over chains of operators that keep order: split, exchanged and replaced.
fn exchange(random: &mut Random, children: u64, under: usize, forms: &[u64]) -> Vec<u8> {
    let (target, batch) = (16, 8192);
    let (kind, need) = if children == 2 { (5, 2) } else { (9, 0) };
    let tree = |kind: u64, keeps: u64, order: u64, need: u64, children: u64| {
        let fields = [kind, 8, keeps, 0, order, 1, need, children].map(Some);
        let mut line = Line::new(b'T', []);
        line.fields = fields.to_vec();
        line.fields[3] = None;
        line
    };
    let mut lines = vec![
        Line::new(b'D', [target, 1, 1, batch, 1, 4, 0, 0, 1]),
        tree(kind, 0, 0, 0, children),
    ];
    for _ in 0..children {
        for i in 0..under {
            let need = if i == 0 { need } else { 0 };
            let last = i + 1 == under;
            let kind = if last { 0 } else { random.of(&[0, 1, 3, 3]) };
            lines.push(tree(kind, (kind == 3) as u64, 1, need, !last as u64));
        }
    }
    lines.push(Line::new(b'B', [0, 0, 0, 0]));
    for _ in 0..children {
        let rows = batch + 1 + random.below(1000000);
        lines.push(Line::new(b'F', [1, 0, 0, rows, 0, 1, 0]));
    }
    for child in 1..=children {
        lines.extend(forms.iter().map(|form| row_line(child, *form, target)));
    }
    lines.push(Line::new(b'Y', vec![0; 1 << children]));
    Sheet(lines).text()
}

/// T lines of a tree of so many operators, up to eight under each.
fn bush(operators: usize, lines: &mut Vec<Line>) {
    let children = (operators - 1).min(8);
    let mut line = Line::new(b'T', [0, 8, 0, 0, 1, 1, 0, children as u64]);
    line.fields[3] = None;
    lines.push(line);
    for child in 0..children {
        bush((operators - 1 - child).div_ceil(children), lines);
    }
}

/// A wide tree: an operator over eight children, each the top of such a tree.
fn wide(operators: usize) -> Vec<u8> {
    let mut lines = vec![Line::new(b'D', [16, 1, 0, 8192, 1, 4, 0, 0, 1])];
    bush(operators, &mut lines);
    lines.push(Line::new(b'B', [0, 0, 0, 0]));
    for _ in 0..8 {
        lines.push(Line::new(b'F', [1, 0, 0, 9000, 0, 0, 0]));
    }
    for child in 1..=8 {
        lines.extend([0, 6].map(|form| row_line(child, form, 16)));
    }
    lines.push(Line::new(b'Y', vec![0; 256]));
    Sheet(lines).text()
}

/// Forms that a keyed child may pass through, and all.
const KEYED: [u64; 8] = [0, 1, 4, 5, 8, 9, 12, 13];
const ALL: [u64; 16] = [0, 1, 2, 3, 4, 5, 6, 7, 8, 9, 10, 11, 12, 13, 14, 15];

fn repeat(mut make: impl FnMut() -> Vec<u8>) -> Vec<Vec<u8>> {
    (0..SHEETS).map(|_| make()).collect()
}

pub fn race() -> ExitCode {
    let random = &mut Random::new(9);
    println!("ns a sheet, bytes to bytes (ratio to plain Rust)");
    head("sheets");
    row("K small: 1 pair", &repeat(|| key_join(random, 1, 0)));
    row("K typical: 4 pairs", &repeat(|| key_join(random, 4, 2)));
    row(
        "K largest: 32 pairs, 32 rules",
        &repeat(|| key_join(random, 32, 32)),
    );
    row("I small: 1 pair", &repeat(|| input_join(random, 1, 0)));
    row("I typical: 4 pairs", &repeat(|| input_join(random, 4, 2)));
    row(
        "I largest: 32 pairs, 32 rules",
        &repeat(|| input_join(random, 32, 32)),
    );
    row(
        "D small: 3 operators",
        &repeat(|| exchange(random, 2, 1, &KEYED)),
    );
    row(
        "D typical: 9 operators",
        &repeat(|| exchange(random, 2, 4, &KEYED)),
    );
    let largest = repeat(|| exchange(random, 8, 31, &ALL));
    row("D largest: 249 operators, 8 children, every row", &largest);
    head("growth");
    for n in [1, 2, 4, 8, 16, 32] {
        row(&format!("K, {n} pairs"), &repeat(|| key_join(random, n, 0)));
    }
    for under in [1, 2, 4, 8, 16, 32, 64, 127] {
        let name = format!("D, {} operators", 1 + 2 * under);
        row(&name, &repeat(|| exchange(random, 2, under, &KEYED)));
    }
    head("trees");
    for n in [8, 16, 64, 256] {
        let chains = repeat(|| exchange(random, 1, n - 1, &[0, 1, 6, 7]));
        row(&format!("D, a chain of {n} operators"), &chains);
    }
    for n in [16, 64, 256] {
        row(
            &format!("D, a wide tree of {n} operators"),
            &repeat(|| wide(n)),
        );
    }
    ExitCode::SUCCESS
}
