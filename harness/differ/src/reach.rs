//! What a sheet and its answer show: outcomes, kinds, forms and refusals.

use std::collections::BTreeMap;

/// How often each feature was shown.
#[derive(Default)]
pub struct Reach(BTreeMap<String, u64>);

impl Reach {
    pub fn note(&mut self, sheet: &[u8], answer: &[u8]) {
        for feature in features(sheet, answer) {
            *self.0.entry(feature).or_default() += 1;
        }
    }

    /// What the run should have reached and didn't.
    pub fn missed(&self) -> Vec<String> {
        let all = wanted().into_iter();
        all.filter(|what| !self.0.contains_key(what)).collect()
    }

    pub fn print(&self) {
        println!("\noutcomes reached, and how often:");
        for (what, count) in &self.0 {
            println!("  {count:>8}  {what}");
        }
    }
}

/// What every run must reach of K and I sheets: an operator and mode, and the verdicts on it.
const VERDICTS: [(&str, &str); 21] = [
    ("K,0,0", "k,1,1 k,1,2 k,1,3"),
    ("K,0,1", "k,1,0"),
    ("K,0,2", "k,1,0"),
    ("K,1,0", "k,1,0"),
    ("K,2,0", "k,1,1 k,1,2 k,1,3"),
    ("K,3,0", "k,0,0 k,1,0 k,1,2"),
    ("K,3,1", "k,0,0 k,1,0"),
    ("K,4,0", "k,1,0"),
    ("K,5,0", "k,1,0"),
    ("K,6,0", "k,0,0 k,1,0"),
    ("I,0,0", "i,0,0 i,1,1 i,1,2 i,2,1 i,2,2 i,3,0"),
    ("I,0,1", "i,0,0"),
    ("I,0,2", "i,0,0"),
    ("I,1,0", "i,0,0"),
    ("I,2,0", "i,0,0 i,1,1 i,1,2 i,2,1 i,2,2 i,3,0"),
    ("I,3,0", "i,0,0"),
    ("I,3,1", "i,0,0"),
    ("I,4,0", "i,0,0"),
    ("I,5,0", "i,0,0"),
    ("I,6,0", "i,0,0"),
    ("K,0,1 join", "0 1 2 3 4 5 6 7 8 9"),
];

/// The ways that a child can go through forms.
const PATHS: &str = "0|0 1|0 2|0 1 3|0 4|0 1 5|0 6|0 1 7|0 8|0 1 9|0 4 12|0 1 5 13";

/// What every run must reach of D sheets.
const EXCHANGES: &str = "worked kind 0|worked kind 1|worked kind 2|worked kind 5|worked kind 6|worked kind 7|worked kind 8|worked kind 9|\
worked kind 10|worked kind 11|changed 0|changed 1|window 1|interleave 1|tracked 0|tracked 1|1 becomes 2|3 loses order|4 loses order|\
split at its source|new 1: keeps 0, no limit, tracked 0|new 1: keeps 0, no limit, tracked 1|new 2: keeps 0, no limit, tracked 0|\
new 2: keeps 0, no limit, tracked 1|new 11: keeps 0, limit, tracked 0|new 11: keeps 0, no limit, entries, tracked 0|\
new 11: keeps 0, limit, entries, tracked 0|new 12: keeps 0, no limit, tracked 1|new 12: keeps 1, no limit, tracked 1|\
new 13: keeps 0, no limit, tracked 1|new 13: keeps 1, no limit, tracked 1";

/// All that every run must reach, as features.
fn wanted() -> Vec<String> {
    let verdicts = VERDICTS.iter().flat_map(|(sheet, verdicts)| {
        let arrow = if sheet.ends_with("join") { "" } else { " ->" };
        let feature = move |verdict| format!("{sheet}{arrow} {verdict}");
        verdicts.split(' ').map(feature)
    });
    let paths = PATHS.split('|').flat_map(|path| {
        ["first", "another"].map(|child| format!("D {child} child passes forms {path}"))
    });
    let exchanges = EXCHANGES.split('|').map(|what| format!("D {what}"));
    let work = [(9, 'D'), (10, 'K'), (11, 'D')];
    let refusals = work.map(|(n, kind)| format!("{kind} refused by {n} for \"the sheet\""));
    verdicts
        .chain(paths)
        .chain(exchanges)
        .chain(refusals)
        .collect()
}

/// The first fields of a line, as text.
fn start(line: &str, fields: usize) -> String {
    line.split(',').take(fields).collect::<Vec<_>>().join(",")
}

fn field(line: &str, i: usize) -> &str {
    line.split(',').nth(i).unwrap_or("")
}

/// Number and kind of sheet of a refusal, with the letter of the line that is to blame.
fn refusal(sheet: &str, verdict: &str) -> String {
    let kind = sheet.chars().next().unwrap_or(' ');
    let line: usize = field(verdict, 2).trim_end().parse().unwrap_or(0);
    let blamed = line.checked_sub(1).and_then(|i| sheet.lines().nth(i));
    let letter = match line {
        0 => "the sheet",
        _ => blamed.map_or("a missing line", |l| l.get(..1).unwrap_or("")),
    };
    format!("{kind} refused by {} for {letter:?}", field(verdict, 1))
}

/// What a sheet and its answer show.
pub fn features(sheet: &[u8], answer: &[u8]) -> Vec<String> {
    let (sheet, answer) = (
        String::from_utf8_lossy(sheet),
        String::from_utf8_lossy(answer),
    );
    let head = sheet.lines().next().unwrap_or("");
    let verdict = answer.lines().next().unwrap_or("");
    if verdict.starts_with('e') {
        return vec![refusal(&sheet, verdict)];
    }
    let mut shown = vec![];
    if head.starts_with("K,0,1") {
        shown.push(format!("K,0,1 join {}", field(head, 3)));
    }
    if head.starts_with('D') {
        exchange(&sheet, &answer, verdict, &mut shown);
    } else {
        shown.push(format!("{} -> {}", start(head, 3), start(verdict, 3)));
    }
    shown
}

fn exchange(sheet: &str, answer: &str, verdict: &str, shown: &mut Vec<String>) {
    let trees: Vec<&str> = sheet.lines().filter(|l| l.starts_with("T,")).collect();
    for (name, i) in [
        ("changed", 1),
        ("window", 2),
        ("interleave", 3),
        ("tracked", 4),
    ] {
        shown.push(format!("D {name} {}", field(verdict, i)));
    }
    let mut lines = answer.lines().skip(1);
    let worked: usize = lines.next().map_or(0, |l| field(l, 1).parse().unwrap_or(0));
    if let Some(tree) = worked.checked_sub(1).and_then(|i| trees.get(i)) {
        shown.push(format!("D worked kind {}", field(tree, 1)));
    }
    lines.for_each(|line| shown.push(tree_line(line, &trees)));
    for (child, forms) in oracle::forms(sheet.as_bytes()).iter().enumerate() {
        let path: Vec<String> = forms.iter().map(|form| form.to_string()).collect();
        let second = if child == 0 { "first" } else { "another" };
        shown.push(format!("D {second} child passes forms {}", path.join(" ")));
    }
    shown.sort();
    shown.dedup();
}

fn tree_line(line: &str, trees: &[&str]) -> String {
    let [id, kind, keeps] = [1, 2, 4].map(|i| field(line, i));
    let id: usize = id.parse().unwrap_or(0);
    if id == 0 {
        let limit = if field(line, 5).is_empty() {
            "no limit"
        } else {
            "limit"
        };
        let mask = if field(line, 7) == "0" {
            ""
        } else {
            ", entries"
        };
        let tracked = field(line, 8);
        return format!("D new {kind}: keeps {keeps}, {limit}{mask}, tracked {tracked}");
    }
    let tree = trees[id - 1];
    if field(tree, 1) != kind {
        format!("D {} becomes {kind}", field(tree, 1))
    } else if field(tree, 3) != keeps {
        format!("D {kind} loses order")
    } else if field(tree, 2) != field(line, 3) {
        "D split at its source".to_owned()
    } else {
        format!("D {kind} stays")
    }
}
