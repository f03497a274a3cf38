//! `lochkave_decide` beside plain Rust, from a sheet's bytes to its answer's.

use crate::proved;
use crate::table::{Named, Table, side};
use plain::{Room, printed};
use sheets::{Manner, Random};
use timing::{End, Key, joined};

const MOST: usize = 65536;

/// What an output is filled with before a call.
const FILL: u8 = 126;

type Decide = fn(&[u8], &mut [u8], &mut Room) -> u64;

const SIDES: [(&str, Decide); 2] = [
    ("plain Rust", plain::decide),
    ("plain Rust, exact length first", plain::decide_exact),
];

/// Outputs of both sides, and plain Rust's room, lent once.
struct Lent {
    ours: Vec<u8>,
    theirs: Vec<u8>,
    room: Room,
}

/// Compares result and every byte of the output on a sheet. The result.
fn compare_one(sheet: &[u8], length: usize, lent: &mut Lent) -> Result<u64, String> {
    let (ours, theirs) = (&mut lent.ours[..length], &mut lent.theirs[..length]);
    ours.fill(FILL);
    let answer = proved::decide(sheet, ours);
    for (name, decide) in SIDES {
        theirs.fill(FILL);
        let other = decide(sheet, theirs, &mut lent.room);
        if other != answer || theirs != ours {
            return Err(format!(
                "deciding {:?} with room {length}: proved {answer:#x} {:?}, {name} {other:#x} {:?}",
                String::from_utf8_lossy(sheet),
                String::from_utf8_lossy(&ours[..length.min(400)]),
                String::from_utf8_lossy(&theirs[..length.min(400)])
            ));
        }
    }
    Ok(answer)
}

/// The cases of the program `replay` that ask `lochkave_decide`: every side must give the answers that stand there.
fn compare_cases(lent: &mut Lent) -> Result<usize, String> {
    let mut compared = 0;
    for case in sheets::replay_cases() {
        if case.entry != b'd' {
            continue;
        }
        let result = compare_one(&case.sheet, case.room, lent)?;
        let answer = printed(result, &lent.ours);
        if answer != case.answer {
            let answer = String::from_utf8_lossy(&answer);
            return Err(format!("{}: {answer}", case.name));
        }
        compared += 1;
    }
    Ok(compared)
}

/// A K or an I sheet, right or damaged.
fn some_sheet(random: &mut Random) -> Vec<u8> {
    let manner = Manner {
        large: random.below(40) == 0,
        planned: true,
    };
    let sheet = match random.below(3) {
        0 => sheets::input_sheet(random, manner),
        _ => sheets::key_sheet(random, manner),
    };
    match random.below(2) {
        0 => sheet.text(),
        _ => sheets::damage(random, &sheet),
    }
}

/// Compares results and outputs: first on the cases of `replay`, then on random sheets, right and damaged, with room and without.
pub fn compare(random: &mut Random, sheets: usize) -> Result<(), String> {
    let mut lent = Lent {
        ours: vec![0; MOST],
        theirs: vec![0; MOST],
        room: Room::new(),
    };
    let cases = compare_cases(&mut lent)?;
    println!("deciding: {cases} cases of replay, no difference");
    let mut numbers = [0usize; 13];
    let mut made = Random::new(random.number());
    for _ in 0..sheets {
        let sheet = some_sheet(&mut made);
        let length = match random.below(8) {
            0 => random.place(200),
            _ => 4096,
        };
        let result = compare_one(&sheet, length, &mut lent)?;
        numbers[(result >> 32) as usize] += 1;
    }
    println!(
        "deciding: {sheets} sheets compared, by refusal number from 0 (decided) to 12: {numbers:?}"
    );
    Ok(())
}

const SHEETS: usize = 64;

/// How the order ends, whether with rules, the list of the second child, and the column's name. An expression of kind 3 is refused.
const COLUMNS: [(End, bool, &[Key], &str); 5] = [
    (End::Met, false, &[], "met"),
    (End::Moved, false, &[], "moved"),
    (End::Impossible, false, &[], "impossible"),
    (End::Moved, true, &[], "moved, rules"),
    (End::Moved, false, &[[3, 0, 0]], "refused on the last line"),
];

fn timed_sheet(random: &mut Random, n: usize, end: End, rules: bool, second: &[Key]) -> Vec<u8> {
    let joined = joined(random, n, end, rules);
    let directions = (0..n).map(|_| random.below(4)).collect();
    joined.sheet(directions, second)
}

/// Every side over the same sheets.
fn sides(sheets: &[Vec<u8>]) -> Vec<Named<'_>> {
    let plain = SIDES.map(|(name, decide)| {
        let (mut out, mut room) = (vec![0; MOST], Room::new());
        let run = move || sheets.iter().map(|s| decide(s, &mut out, &mut room)).sum();
        side(name, run)
    });
    let mut out = vec![0; MOST];
    let run = move || sheets.iter().map(|s| proved::decide(s, &mut out)).sum();
    let proved = side("proved, `lochkave_decide`", run);
    plain.into_iter().chain([proved]).collect()
}

pub fn race(random: &mut Random) {
    for n in [4, 32] {
        let mut table = Table::new();
        for (end, rules, second, name) in COLUMNS {
            let sheet = |_| timed_sheet(random, n, end, rules, second);
            let sheets: Vec<Vec<u8>> = (0..SHEETS).map(sheet).collect();
            table.column(name, SHEETS, sides(&sheets));
        }
        table.print(&format!(
            "A K sheet of {n} pairs, bytes to bytes: ns a sheet (ratio)"
        ));
    }
}
