//! Compares the proved code with plain Rust on a million random texts, then races them.
//! See docs/SPEED.md.

mod common;
mod deciding;
mod ordering;
mod proved;
mod reading;
mod table;
mod texts;
mod tight;
mod writing;

use sheets::Random;
use std::process::ExitCode;

const COMPARED: usize = 1_000_000;

fn compare() -> Result<(), String> {
    reading::compare(&mut Random::new(1), COMPARED)?;
    writing::compare(&mut Random::new(2), COMPARED)?;
    ordering::compare(&mut Random::new(3), COMPARED)?;
    deciding::compare(&mut Random::new(7), COMPARED)
}

fn main() -> ExitCode {
    if let Err(difference) = compare() {
        eprintln!("different answers: {difference}");
        return ExitCode::FAILURE;
    }
    reading::race(&mut Random::new(4));
    writing::race(&mut Random::new(5));
    ordering::race(&mut Random::new(6));
    deciding::race(&mut Random::new(8));
    ExitCode::SUCCESS
}
