//! The proved functions over runs of nodes, beside the same changes of rows in plain Rust: on the trees of the D sheets in examples/,
//! on generated ones, and on runs of any numbers; at every place and past the end. The status is 1 where anything differs.

mod proved;
mod rows;

use proved::{Change, Node};
use rows::{Row, node_of, row_of};
use sheets::{Line, Random, Sheet};
use std::process::ExitCode;

const GENERATED: usize = 1000;
const ANY: usize = 2000;
const SEED: u64 = 20;

/// Differences that are printed.
const PRINTED: u64 = 20;

/// Nodes behind those lent, which no change may touch.
const BEHIND: usize = 2;

/// The T lines of a D sheet: `T,kind,count,keeps,limit,order,tracked,need,children`. The n-th has id n.
fn tree(sheet: &Sheet) -> Vec<Row> {
    let row = |(n, line): (usize, &Line)| {
        let field = |k: usize| line.fields[k].unwrap_or(0);
        let limited = u64::from(line.fields[3].is_some());
        [
            n as u64 + 1,
            field(0),
            field(1),
            field(2),
            limited,
            field(3),
            field(4),
            0,
            field(5),
            field(6),
        ]
    };
    let lines = sheet.0.iter().filter(|line| line.letter == b'T');
    let whole = lines.filter(|line| line.fields.len() == 8);
    whole.enumerate().map(row).collect()
}

fn examples() -> Vec<Vec<Row>> {
    let texts = sheets::examples().into_iter().map(|example| example.sheet);
    texts
        .filter(|text| text.starts_with(b"D,") && !text.windows(2).any(|w| w == b"\n\n"))
        .map(|text| tree(&Sheet::read(&text)))
        .collect()
}

fn generated(random: &mut Random) -> Vec<Vec<Row>> {
    (0..GENERATED)
        .map(|_| sheets::some_sheet(random))
        .filter(|sheet| sheet.0[0].letter == b'D')
        .map(|sheet| tree(&sheet))
        .collect()
}

/// Numbers of one or of many digits, marks that are no marks among them.
fn any_row(random: &mut Random) -> Row {
    std::array::from_fn(|_| match random.below(4) {
        0 => random.number(),
        1 => random.below(16),
        _ => random.below(3),
    })
}

fn any(random: &mut Random) -> Vec<Vec<Row>> {
    let mut run = || (0..random.below(6)).map(|_| any_row(random)).collect();
    (0..ANY).map(|_| run()).collect()
}

struct Run {
    random: Random,
    compared: u64,
    differences: u64,
}

impl Run {
    fn changes(&mut self) -> [Change; 8] {
        let (count, order) = (self.random.below(5000), self.random.below(9));
        [
            Change::Put(node_of(&any_row(&mut self.random))),
            Change::Track(self.random.below(3)),
            Change::TrackNew,
            Change::Coalesce,
            Change::Sort,
            Change::Relax,
            Change::Interleave,
            Change::Split { count, order },
        ]
    }

    fn judge(&mut self, what: &str, same: bool) {
        self.compared += 1;
        if !same {
            self.differences += 1;
        }
        if !same && self.differences <= PRINTED {
            println!("differs: {what}");
        }
    }

    fn at(&mut self, run: &[Row], i: usize) {
        let mut behind = run.to_vec();
        behind.extend((0..BEHIND).map(|_| any_row(&mut self.random)));
        let nodes: Vec<Node> = behind.iter().map(node_of).collect();
        let found = run.get(i).map_or([0; 10], |r| *r);
        let read = proved::get(&nodes[..run.len()], i);
        self.judge(&format!("get {i} of {run:?}"), row_of(&read) == found);
        for change in self.changes() {
            let (mut nodes, mut expected) = (nodes.clone(), behind.clone());
            proved::change(&mut nodes[..run.len()], i, change);
            rows::change(&mut expected[..run.len()], i, change);
            let same = nodes.iter().map(row_of).eq(expected);
            self.judge(&format!("{change:?} at {i} of {run:?}"), same);
        }
    }

    fn tree(&mut self, run: &[Row]) {
        for i in 0..run.len() + BEHIND {
            self.at(run, i);
        }
        self.at(run, usize::MAX);
    }
}

fn main() -> ExitCode {
    let mut random = Random::new(SEED);
    let trees = [examples(), generated(&mut random), any(&mut random)];
    let mut run = Run {
        random,
        compared: 0,
        differences: 0,
    };
    trees.iter().flatten().for_each(|t| run.tree(t));
    let [examples, generated, any] = trees.map(|t| t.len());
    println!(
        "nodes: {examples} trees of examples, {generated} generated, {any} runs of any numbers: {} reads and changes, {} differences",
        run.compared, run.differences
    );
    match run.differences == 0 && examples > 0 && generated > 0 {
        true => ExitCode::SUCCESS,
        false => ExitCode::FAILURE,
    }
}
