//! Accepted sheets, taken apart without a test: that is for `plain` and the library.

use standins::PhysicalExprRef;
use standins::expressions::{Column, NoOp, Other};
use std::fmt::Write;
use std::sync::Arc;

pub struct Line {
    letter: u8,
    /// Nothing for an empty field.
    pub fields: Vec<Option<u64>>,
}

pub struct Sheet(Vec<Line>);

impl Sheet {
    pub fn read(text: &[u8]) -> Sheet {
        let text = std::str::from_utf8(text).unwrap();
        let line = |line: &str| Line {
            letter: line.as_bytes()[0],
            fields: line.split(',').skip(1).map(|f| f.parse().ok()).collect(),
        };
        Sheet(text.lines().map(line).collect())
    }

    pub fn lines(&self, letter: u8) -> impl Iterator<Item = &Line> {
        self.0.iter().filter(move |line| line.letter == letter)
    }

    pub fn line(&self, letter: u8) -> &Line {
        self.lines(letter).next().unwrap()
    }
}

impl Line {
    pub fn numbers(&self) -> Vec<u64> {
        self.fields.iter().map(|f| f.unwrap_or(0)).collect()
    }

    /// The expressions after `skipped` fields, each an object of its own.
    pub fn exprs(&self, skipped: usize) -> Vec<PhysicalExprRef> {
        let fields = self.numbers();
        fields[skipped..].chunks(3).map(expr).collect()
    }

    pub fn pairs(&self) -> Vec<(PhysicalExprRef, PhysicalExprRef)> {
        let exprs = self.exprs(0);
        let pair = |pair: &[PhysicalExprRef]| (pair[0].clone(), pair[1].clone());
        exprs.chunks(2).map(pair).collect()
    }

    pub fn names(&self) -> Vec<String> {
        self.numbers().iter().map(u64::to_string).collect()
    }
}

fn expr(fields: &[u64]) -> PhysicalExprRef {
    match fields[0] {
        0 => Arc::new(Column::new(&fields[1].to_string(), fields[2] as usize)),
        1 => Arc::new(Other(fields[1].to_string())),
        _ => Arc::new(NoOp),
    }
}

/// A line of an answer.
pub fn put<T: ToString>(text: &mut String, letter: char, fields: impl IntoIterator<Item = T>) {
    text.push(letter);
    for field in fields {
        write!(text, ",{}", field.to_string()).unwrap();
    }
    text.push('\n');
}

pub fn put_exprs<'a>(
    text: &mut String,
    letter: char,
    exprs: impl IntoIterator<Item = &'a PhysicalExprRef>,
) {
    let fields = exprs.into_iter().flat_map(|e| {
        let (kind, name, index) = e.numbers();
        [kind.to_string(), name.to_owned(), index.to_string()]
    });
    put(text, letter, fields);
}
