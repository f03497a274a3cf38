//! Differential runs: the proved library beside plain Rust, for any bytes, and beside the three files over stand-ins, for accepted sheets.
//!
//!     cargo run --release --offline -p differ               the whole run
//!     cargo run --release --offline -p differ -- --short    the gate's part of it
//!     cargo run --release --offline -p differ -- --sheets ACCEPTED DAMAGED SEED
//!     cargo run --release --offline -p differ -- --list     writes the fixed list, tests/oracle.stdin and tests/oracle.stdout
//!     cargo run --release --offline -p differ -- --race     the benchmark
//!
//! The last line says how many differences no predicate excuses; the status is 1 where there is one, and where an outcome
//! that a run must reach was not reached.

mod compare;
mod excuses;
mod judge;
mod list;
mod race;
mod reach;
mod sides;

use compare::Run;
use sheets::Random;
use std::process::ExitCode;

/// Accepted and damaged sheets of a run, and its seed.
const WHOLE: (u64, u64) = (400_000, 400_000);
const SHORT: (u64, u64) = (40_000, 40_000);
const SEED: u64 = 20;

fn differ((accepted, damaged): (u64, u64), seed: u64) -> ExitCode {
    if !oracle::AVAILABLE {
        println!("NOT run: the comparison with the three files, which are not at hand");
    }
    let mut run = Run::new();
    run.examples();
    sheets::short_key_sheets().for_each(|sheet| run.accepted("short K sheets", &sheet.text()));
    let mut random = Random::new(seed);
    for _ in 0..accepted {
        let sheet = sheets::some_sheet(&mut random);
        run.accepted("accepted sheets", &sheet.text());
    }
    for _ in 0..damaged {
        let sheet = sheets::some_sheet(&mut random);
        let text = sheets::damage(&mut random, &sheet);
        let room = random.place(400);
        run.any("damaged sheets", &text, room);
    }
    run.report();
    match run.differences() == 0 && run.missed().is_empty() {
        true => ExitCode::SUCCESS,
        false => ExitCode::FAILURE,
    }
}

fn main() -> ExitCode {
    std::panic::set_hook(Box::new(|_| {}));
    let arguments: Vec<String> = std::env::args().skip(1).collect();
    let numbers = |i: usize| arguments.get(i).and_then(|a| a.parse().ok());
    match arguments.first().map(String::as_str) {
        None => differ(WHOLE, SEED),
        Some("--short") => differ(SHORT, SEED),
        Some("--sheets") => {
            let sheets = (numbers(1).unwrap_or(0), numbers(2).unwrap_or(0));
            differ(sheets, numbers(3).unwrap_or(SEED))
        }
        Some("--list") => list::write(),
        Some("--race") => race::race(),
        Some(other) => {
            eprintln!("unknown: {other}");
            ExitCode::FAILURE
        }
    }
}
