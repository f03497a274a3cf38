//! The sheets that stand in the repository with their answers: those of examples/, and the cases that the program `replay` reads.

use std::{
    fs,
    path::{Path, PathBuf},
};

/// Sheets of examples/ with facts that no plan gives and that 002's own operator doesn't take: docs/DIFFERENCES.md, decision 28.
pub const OUTPUT_REQUIREMENTS: [&str; 3] = [
    "decision-28-gains",
    "decision-28-maintains",
    "decision-28-friendly",
];

/// A sheet of examples/, and what the program prints for it.
pub struct Example {
    pub name: String,
    pub sheet: Vec<u8>,
    pub answer: Vec<u8>,
}

/// A case: an entry point by its letter, how many bytes of output are lent, a sheet, and what is printed for it.
pub struct Case {
    pub name: String,
    pub entry: u8,
    pub room: usize,
    pub sheet: Vec<u8>,
    pub answer: Vec<u8>,
}

/// A file or folder of the repository.
pub fn top(name: &str) -> PathBuf {
    Path::new(env!("CARGO_MANIFEST_DIR"))
        .join("../..")
        .join(name)
}

fn read(path: &Path) -> Vec<u8> {
    fs::read(path).unwrap_or_else(|error| panic!("{}: {error}", path.display()))
}

/// The sheets of examples/, by their names.
pub fn examples() -> Vec<Example> {
    let entries = fs::read_dir(top("examples")).unwrap();
    let paths = entries.map(|entry| entry.unwrap().path());
    let is_sheet = |path: &PathBuf| path.extension().is_some_and(|e| e == "sheet");
    let mut paths: Vec<PathBuf> = paths.filter(is_sheet).collect();
    paths.sort();
    let example = |path: &PathBuf| Example {
        name: path.file_stem().unwrap().to_string_lossy().into_owned(),
        sheet: read(path),
        answer: read(&path.with_extension("answer")),
    };
    paths.iter().map(example).collect()
}

/// So many bytes off the front of a text.
fn taken<'a>(text: &mut &'a [u8], n: usize) -> &'a [u8] {
    let (front, rest) = text.split_at(n);
    *text = rest;
    front
}

/// The first line, without its LF, off the front of a text.
fn line<'a>(text: &mut &'a [u8]) -> &'a str {
    let end = text.iter().position(|b| *b == b'\n').unwrap();
    let line = taken(text, end + 1);
    std::str::from_utf8(&line[..end]).unwrap()
}

/// The bytes before the next line that begins with `#`, off the front of a text.
fn answer<'a>(text: &mut &'a [u8]) -> &'a [u8] {
    let begins = |i: &usize| text[*i] == b'#' && (*i == 0 || text[*i - 1] == b'\n');
    let end = (0..text.len()).find(begins).unwrap_or(text.len());
    taken(text, end)
}

/// The cases of a file that `replay` reads, with the answers of the file that it must write.
pub fn cases(stdin: &str, stdout: &str) -> Vec<Case> {
    let (stdin, stdout) = (read(&top(stdin)), read(&top(stdout)));
    let (mut asked, mut answers, mut cases) = (&stdin[..], &stdout[..], vec![]);
    while !asked.is_empty() {
        let name = line(&mut asked);
        assert_eq!(line(&mut answers), name);
        let head: Vec<&str> = line(&mut asked).split(',').collect();
        cases.push(Case {
            name: name[2..].split(": ").next().unwrap().to_owned(),
            entry: head[0].as_bytes()[0],
            room: head[1].parse().unwrap(),
            sheet: taken(&mut asked, head[2].parse().unwrap()).to_vec(),
            answer: answer(&mut answers).to_vec(),
        });
    }
    assert!(answers.is_empty());
    cases
}

/// The cases of the program `replay`.
pub fn replay_cases() -> Vec<Case> {
    cases("crates/replay/stdin", "crates/replay/stdout")
}
