//! Sheets to compare on: accepted ones of every kind, small and large, with and without the facts that no plan gives; and damaged
//! copies. The same seed gives the same sheets. And those that stand in the repository with their answers.

mod damage;
mod exchanges;
mod keys;
mod known;
mod random;

pub use damage::damage;
pub use exchanges::exchange_sheet;
pub use keys::{input_sheet, key_sheet, short_key_sheets};
pub use known::{Case, Example, OUTPUT_REQUIREMENTS, cases, examples, replay_cases, top};
pub use random::Random;

/// A line: its letter and its fields, nothing for an empty one.
#[derive(Clone, Debug)]
pub struct Line {
    pub letter: u8,
    pub fields: Vec<Option<u64>>,
}

impl Line {
    pub fn new(letter: u8, fields: impl IntoIterator<Item = u64>) -> Line {
        let fields = fields.into_iter().map(Some).collect();
        Line { letter, fields }
    }
}

#[derive(Clone, Debug)]
pub struct Sheet(pub Vec<Line>);

impl Sheet {
    /// The lines of an accepted sheet, taken apart without a test.
    pub fn read(text: &[u8]) -> Sheet {
        let text = String::from_utf8_lossy(text);
        let line = |line: &str| Line {
            letter: line.as_bytes()[0],
            fields: line.split(',').skip(1).map(|f| f.parse().ok()).collect(),
        };
        Sheet(text.lines().map(line).collect())
    }

    pub fn text(&self) -> Vec<u8> {
        let mut out = vec![];
        for line in &self.0 {
            out.push(line.letter);
            for field in &line.fields {
                let field = field.map_or(String::new(), |n| n.to_string());
                out.push(b',');
                out.extend_from_slice(field.as_bytes());
            }
            out.push(b'\n');
        }
        out
    }
}

/// How a sheet is made.
#[derive(Clone, Copy, Debug)]
pub struct Manner {
    /// As large as sheets may be, or small.
    pub large: bool,
    /// Without the facts that no plan gives.
    pub planned: bool,
}

/// An accepted sheet of any kind.
pub fn some_sheet(random: &mut Random) -> Sheet {
    let manner = Manner {
        large: random.below(50) == 0,
        planned: random.below(2) == 0,
    };
    match random.below(8) {
        0..3 => key_sheet(random, manner),
        3 => input_sheet(random, manner),
        _ => exchange_sheet(random, manner),
    }
}
