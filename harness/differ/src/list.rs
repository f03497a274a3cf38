//! The fixed list: sheets with the oracle's answers, for the program `replay`. It has every outcome, refusal, kind and form that the
//! generator reaches, each some times.

use crate::reach::features;
use crate::sides::{MOST, Sides, files};
use lochkave::Question;
use plain::printed;
use sheets::Random;
use std::collections::{HashMap, HashSet};
use std::process::ExitCode;

const SEED: u64 = 8;
const CANDIDATES: usize = 200_000;
const LISTED: usize = 400;
const LONGEST: usize = 700;

struct Case {
    room: usize,
    sheet: Vec<u8>,
    answer: Vec<u8>,
}

/// The answer on which all sides agree that can be asked; an error where two differ.
fn agreed(sides: &mut Sides, sheet: &[u8], room: usize) -> Result<Vec<u8>, String> {
    let name = || String::from_utf8_lossy(sheet).into_owned();
    let result = sides.plain(Question::Decide, sheet, room);
    let answer = printed(result.ok_or_else(name)?, &sides.theirs);
    let library = sides.library(Question::Decide, sheet, room);
    if printed(library, &sides.ours) != answer || sides.lent(sheet, room) != Some(library) {
        return Err(name());
    }
    if oracle::is_accepted(&answer) && files(sheet) != answer {
        return Err(name());
    }
    Ok(answer)
}

/// A candidate: an accepted sheet, a damaged one, or one with too little room for its answer.
fn candidate(random: &mut Random) -> (Vec<u8>, usize) {
    let sheet = sheets::some_sheet(random);
    match random.below(6) {
        0 | 1 => (sheets::damage(random, &sheet), MOST),
        2 => (sheet.text(), random.place(60)),
        _ => (sheet.text(), MOST),
    }
}

/// Candidates on which all sides agree, each once, the shortest first, with what they show. A difference is the differential run's
/// business; what is excused there isn't listed.
fn candidates() -> Vec<(Case, Vec<String>)> {
    let (mut random, mut sides) = (Random::new(SEED), Sides::new());
    let (mut all, mut drawn) = (vec![], HashSet::new());
    for _ in 0..CANDIDATES {
        let (sheet, room) = candidate(&mut random);
        let fits = sheet.len() <= LONGEST && !sheet.contains(&b'#');
        if !fits || !drawn.insert((sheet.clone(), room)) {
            continue;
        }
        let Ok(answer) = agreed(&mut sides, &sheet, room) else {
            continue;
        };
        let shown = features(&sheet, &answer);
        let case = Case {
            room,
            sheet,
            answer,
        };
        all.push((case, shown));
    }
    all.sort_by_key(|(case, _)| case.sheet.len());
    all
}

/// The shortest sheets that show a feature that none before them shows; then decided ones that show one that one before them shows, and so
/// on until the list is full.
fn chosen() -> Vec<Case> {
    let mut left = candidates();
    let mut seen: HashMap<String, u32> = HashMap::new();
    let mut cases = vec![];
    for often in 1.. {
        let mut rest = vec![];
        for (case, shown) in left {
            let new = shown.iter().any(|f| seen.get(f).is_none_or(|n| *n < often));
            let wanted = often == 1 || cases.len() < LISTED && case.answer[0] != b'e';
            if !new || !wanted {
                rest.push((case, shown));
                continue;
            }
            shown
                .into_iter()
                .for_each(|f| *seen.entry(f).or_default() += 1);
            cases.push(case);
        }
        println!("{} sheets show {} features", cases.len(), seen.len());
        left = rest;
        if cases.len() >= LISTED {
            break;
        }
    }
    cases
}

pub fn write() -> ExitCode {
    if !oracle::AVAILABLE {
        println!("NOT written: the three files are not at hand");
        return ExitCode::FAILURE;
    }
    let (mut input, mut output) = (vec![], vec![]);
    let cases = chosen();
    for (number, case) in (1..).zip(&cases) {
        let name = format!("# oracle {number}: the fixed list\n");
        let head = format!("d,{},{}\n", case.room, case.sheet.len());
        input.extend([name.as_bytes(), head.as_bytes(), &case.sheet].concat());
        output.extend([name.as_bytes(), &case.answer].concat());
    }
    std::fs::write(sheets::top("tests/oracle.stdin"), input).unwrap();
    std::fs::write(sheets::top("tests/oracle.stdout"), output).unwrap();
    println!(
        "{} sheets in tests/oracle.stdin, with answers in tests/oracle.stdout",
        cases.len()
    );
    ExitCode::SUCCESS
}
