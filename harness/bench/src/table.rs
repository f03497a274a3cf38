//! Tables of times: a row for each side, a column for each sort of work. The first side's figure is 1.

use timing::{Side, best};

const ROUNDS: usize = 600;

/// A side with its name.
pub type Named<'a> = (&'static str, Side<'a>);

/// A side, by a run over all the work that answers some number.
pub fn side<'a>(name: &'static str, run: impl FnMut() -> u64 + 'a) -> Named<'a> {
    let (rounds, run) = (ROUNDS, Box::new(run));
    (name, Side { rounds, run })
}

pub struct Table {
    columns: Vec<&'static str>,
    names: Vec<&'static str>,
    figures: Vec<Vec<f64>>,
}

impl Table {
    pub fn new() -> Table {
        Table {
            columns: vec![],
            names: vec![],
            figures: vec![],
        }
    }

    /// Races the sides, and divides their times by `units` (bytes, or calls).
    pub fn column(&mut self, name: &'static str, units: usize, sides: Vec<Named>) {
        let (names, mut sides): (Vec<_>, Vec<_>) = sides.into_iter().unzip();
        let times = best(&mut sides).into_iter();
        self.columns.push(name);
        self.names = names;
        self.figures
            .push(times.map(|ns| ns / units as f64).collect());
    }

    pub fn print(&self, title: &str) {
        println!("\n## {title}\n");
        println!("| side | {} |", self.columns.join(" | "));
        println!("|---|{}", "---|".repeat(self.columns.len()));
        for (i, name) in self.names.iter().enumerate() {
            let cells: Vec<String> = self
                .figures
                .iter()
                .map(|column| format!("{:.2} ({:.2})", column[i], column[i] / column[0]))
                .collect();
            println!("| {name} | {} |", cells.join(" | "));
        }
    }
}
