//! A run: what was compared, what differed, what excused it.

use crate::excuses::EXCUSES;
use crate::judge::judge;
use crate::reach::Reach;
use crate::sides::{MOST, Sides, files};
use lochkave::Question;
use plain::printed;
use std::collections::BTreeMap;

/// A difference that nothing excuses, with the shortest sheet that shows it.
struct Difference {
    count: u64,
    sheet: Vec<u8>,
    said: String,
}

pub struct Run {
    sides: Sides,
    compared: BTreeMap<String, u64>,
    refusals: BTreeMap<u64, u64>,
    excused: BTreeMap<&'static str, u64>,
    differences: BTreeMap<String, Difference>,
    reach: Reach,
}

impl Run {
    pub fn new() -> Run {
        Run {
            sides: Sides::new(),
            compared: BTreeMap::new(),
            refusals: BTreeMap::new(),
            excused: BTreeMap::new(),
            differences: BTreeMap::new(),
            reach: Reach::default(),
        }
    }

    fn count(&mut self, what: &str) {
        *self.compared.entry(what.to_owned()).or_default() += 1;
    }

    fn differ(&mut self, between: &str, sheet: &[u8], said: String) {
        let entry = self.differences.entry(between.to_owned());
        let difference = entry.or_insert_with(|| Difference {
            count: 0,
            sheet: sheet.to_vec(),
            said: said.clone(),
        });
        difference.count += 1;
        if sheet.len() < difference.sheet.len() {
            (difference.sheet, difference.said) = (sheet.to_vec(), said);
        }
    }

    /// Compares the library with plain Rust: result, and every byte of the output. A decision is asked for in a lent room too.
    fn library(&mut self, question: Question, sheet: &[u8], length: usize) -> u64 {
        let plain = self.sides.plain(question, sheet, length);
        let Some(plain) = plain else {
            self.differ("plain Rust alone", sheet, format!("{question:?}: it fails"));
            return plain::refused(1, 1);
        };
        let library = self.sides.library(question, sheet, length);
        if library != plain || !self.sides.same(length) {
            let ours = printed(library, &self.sides.ours);
            let theirs = printed(plain, &self.sides.theirs);
            let said = format!(
                "{question:?} with room {length}\nlibrary: {}plain Rust: {}",
                String::from_utf8_lossy(&ours),
                String::from_utf8_lossy(&theirs)
            );
            self.differ("library and plain Rust", sheet, said);
        }
        if question == Question::Decide && self.sides.lent(sheet, length) != Some(library) {
            let said = format!("with room {length}");
            self.differ("library and library in a lent room", sheet, said);
        }
        plain
    }

    /// Compares the files with plain Rust, on a sheet that plain Rust decides or refuses by 9, 10 or 11.
    fn files(&mut self, sheet: &[u8], plain: u64) {
        if !oracle::AVAILABLE {
            return;
        }
        let theirs = printed(plain, &self.sides.theirs);
        self.reach.note(sheet, &theirs);
        self.count("of these, asked of the three files");
        let answer = files(sheet);
        let expected = self.seen_by_files(sheet, &theirs, &answer);
        if answer != expected {
            let said = format!(
                "files: {}plain Rust: {}",
                String::from_utf8_lossy(&answer),
                String::from_utf8_lossy(&expected)
            );
            self.differ("the files and plain Rust", sheet, said);
        }
    }

    /// What the files must answer: plain Rust's answer, or where a predicate applies the one to the sheet that they see in its place.
    fn seen_by_files(&mut self, sheet: &[u8], theirs: &[u8], answer: &[u8]) -> Vec<u8> {
        for (name, seen) in EXCUSES {
            let Some(seen) = seen(sheet) else { continue };
            let result = self.sides.plain(Question::Decide, &seen, MOST);
            let expected = result.map_or(vec![], |result| printed(result, &self.sides.theirs));
            if answer != theirs && answer == expected {
                *self.excused.entry(name).or_default() += 1;
            }
            return expected;
        }
        theirs.to_vec()
    }

    /// Compares plain Rust's refusal by 1 to 8, or that it has none, with that of the table of lines.
    fn judge(&mut self, sheet: &[u8], plain: u64) {
        let refusal = plain::refusal(plain).filter(|(number, _)| (1..=8).contains(number));
        let judged = judge(sheet);
        if judged != refusal {
            let said = format!("table: {judged:?}, plain Rust: {refusal:?}");
            self.differ("the table of lines and plain Rust", sheet, said);
        }
    }

    /// Compares on a sheet that must be accepted: with much room, with exact room and one byte less, and written again.
    pub fn accepted(&mut self, what: &str, sheet: &[u8]) {
        self.count(what);
        let rewritten = self.library(Question::Rewrite, sheet, MOST);
        if rewritten != sheet.len() as u64 || self.sides.theirs[..sheet.len()] != *sheet {
            let said = format!("number {}", rewritten >> 32);
            return self.differ(
                "a sheet that should be accepted, and plain Rust",
                sheet,
                said,
            );
        }
        let result = self.library(Question::Decide, sheet, MOST);
        *self.refusals.entry(result >> 32).or_default() += 1;
        self.files(sheet, result);
        self.judge(sheet, result);
        if result >> 32 == 0 {
            self.library(Question::Decide, sheet, result as usize);
            self.library(Question::Decide, sheet, result as usize - 1);
        }
    }

    /// Compares on any bytes, with much room and with little, by every entry point.
    pub fn any(&mut self, what: &str, text: &[u8], room: usize) {
        self.count(what);
        let result = self.library(Question::Decide, text, MOST);
        *self.refusals.entry(result >> 32).or_default() += 1;
        if matches!(result >> 32, 0 | 9 | 10 | 11) {
            self.files(text, result);
        }
        self.judge(text, result);
        for question in Question::ALL {
            self.library(question, text, room);
        }
        self.library(Question::Rewrite, text, MOST);
    }

    /// The sheets of examples/: all sides must give the answers derived by hand.
    pub fn examples(&mut self) {
        for example in sheets::examples() {
            let result = self.library(Question::Decide, &example.sheet, MOST);
            let answer = printed(result, &self.sides.theirs);
            if answer != example.answer {
                let said = String::from_utf8_lossy(&answer).into_owned();
                self.differ("examples/ and plain Rust", &example.sheet, said);
            }
            self.any("examples, answers derived by hand", &example.sheet, 100);
        }
    }

    pub fn differences(&self) -> u64 {
        self.differences.values().map(|d| d.count).sum()
    }

    /// Outcomes and refusals that a run must reach and that this one didn't.
    pub fn missed(&self) -> Vec<String> {
        let unseen = (0..=11).filter(|number| !self.refusals.contains_key(number));
        let refusals = unseen.map(|number| format!("refusal {number}"));
        let outcomes = match oracle::AVAILABLE {
            true => self.reach.missed(),
            false => vec![],
        };
        refusals.chain(outcomes).collect()
    }

    pub fn report(&self) {
        for (block, count) in oracle::coverage::blocks() {
            println!("block {block} {count}");
        }
        self.reach.print();
        println!("\ncompared:");
        for (what, count) in &self.compared {
            println!("  {count:>8}  {what}");
        }
        println!("by refusal number, 0 for decided: {:?}", self.refusals);
        for (name, _) in EXCUSES {
            let count = self.excused.get(name).unwrap_or(&0);
            println!("excused {count} times: {name}");
        }
        for (between, difference) in &self.differences {
            println!(
                "\n{} differences between {between}; the shortest:",
                difference.count
            );
            println!("{}", String::from_utf8_lossy(&difference.sheet));
            println!("{}", difference.said);
        }
        for what in self.missed() {
            println!("not reached: {what}");
        }
        println!("{} differences", self.differences());
    }
}
