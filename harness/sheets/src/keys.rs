//! K and I sheets: few names, so that every outcome is frequent.

use crate::{Line, Manner, Random, Sheet};

type Expr = [u64; 3];

const PLACEHOLDER: Expr = [2, 0, 0];
const MOST_ENTRIES: usize = 32;

fn some_expr(random: &mut Random, names: u64) -> Expr {
    match random.below(20) {
        0 => PLACEHOLDER,
        1 => [1, random.below(names), 0],
        2 => {
            let digits = 1 + random.below(4) as u32;
            [0, random.of_digits(digits), random.below(65536)]
        }
        _ => [0, random.below(names), random.below(3)],
    }
}

fn some_keys(random: &mut Random, n: usize, names: u64) -> Vec<Expr> {
    (0..n).map(|_| some_expr(random, names)).collect()
}

/// A list that fits the keys of a side, or most of them, in another order or another altogether.
fn asked(random: &mut Random, l: &[Expr], g: &[Expr], names: u64) -> Vec<Expr> {
    let mut r = match random.below(2) {
        0 => l.to_vec(),
        _ => g.to_vec(),
    };
    match random.below(4) {
        0 => {}
        1 => random.shuffle(&mut r),
        _ => {
            for _ in 0..random.below(3) {
                if !r.is_empty() {
                    let (i, j) = (random.place(r.len()), random.place(r.len()));
                    r.swap(i, j);
                }
            }
        }
    }
    match random.below(8) {
        0 => {
            let n = (l.len() + random.place(2)).min(MOST_ENTRIES);
            some_keys(random, n, names)
        }
        1 if !r.is_empty() => {
            let i = random.place(r.len());
            r[i] = match random.below(2) {
                0 => PLACEHOLDER,
                _ => some_expr(random, names),
            };
            r
        }
        2 if !r.is_empty() => r[1..].to_vec(),
        _ => r,
    }
}

/// A rewriting list, often of expressions that are there.
fn rules(random: &mut Random, manner: Manner, known: &[Expr], names: u64) -> Vec<Expr> {
    let pairs = match random.below(8) {
        _ if manner.large => random.place(MOST_ENTRIES + 1),
        0..3 => 0,
        _ => 1 + random.place(3),
    };
    let mut list = vec![];
    for _ in 0..2 * pairs {
        list.push(match random.below(3) {
            0 if !known.is_empty() => random.of(known),
            _ => some_expr(random, names),
        });
    }
    list
}

fn size(random: &mut Random, manner: Manner) -> usize {
    match manner.large {
        true => random.place(MOST_ENTRIES + 1),
        false => random.place(5),
    }
}

fn names(random: &mut Random, manner: Manner) -> u64 {
    match manner.large && random.below(2) == 0 {
        true => 40,
        false => 1 + random.below(4),
    }
}

fn line(letter: u8, exprs: &[Expr]) -> Line {
    Line::new(letter, exprs.concat())
}

fn directions(random: &mut Random, op: u64, n: usize) -> Line {
    let count = if op == 2 { n } else { 0 };
    Line::new(b'S', (0..count).map(|_| random.below(4)))
}

fn mode(random: &mut Random, op: u64) -> u64 {
    match op {
        0 => random.of(&[0, 0, 1, 1, 2]),
        3 => random.of(&[0, 0, 0, 1]),
        _ => 0,
    }
}

fn operator(random: &mut Random) -> u64 {
    random.of(&[0, 0, 0, 1, 2, 2, 2, 3, 3, 3, 4, 5, 6])
}

/// What an operator requires, often what it can be given; of an aggregate also a placeholder, which takes a place again.
fn required(
    random: &mut Random,
    op: u64,
    pairs: (&[Expr], &[Expr]),
    o: &[u64],
    names: u64,
) -> Vec<Expr> {
    let columns: Vec<Expr> = (0..).zip(o).map(|(i, name)| [0, *name, i]).collect();
    match op {
        _ if random.below(10) == 0 => vec![],
        3 if o.len() > 1 && random.below(4) == 0 => {
            let mut r = columns;
            random.shuffle(&mut r);
            let place = 1 + random.place(r.len() - 1);
            r[place] = PLACEHOLDER;
            r
        }
        3 => asked(random, &columns, &columns, names),
        _ => asked(random, pairs.0, pairs.1, names),
    }
}

/// Empties the lists that an operator doesn't use.
fn used_only(op: u64, mode: u64, lines: &mut [Line]) {
    let ordered = op == 2 || op == 0 && mode == 0;
    for line in lines {
        let used = match line.letter {
            b'L' | b'G' | b'W' => ordered,
            b'O' | b'A' => op == 3,
            b'M' => op == 4,
            _ => true,
        };
        if !used {
            line.fields.clear();
        }
    }
}

fn head(random: &mut Random, op: u64, mode: u64) -> [u64; 7] {
    let children = match op {
        0..=2 => 2,
        3..=5 => 1,
        _ => random.below(9),
    };
    let join = if op == 0 { random.below(10) } else { 0 };
    let (plain, partial) = (random.mark(7), random.mark(6));
    let left = random.of(&[0, 0, 1, 2, 3, 4]);
    [op, mode, join, left, plain, partial, children]
}

pub fn key_sheet(random: &mut Random, manner: Manner) -> Sheet {
    let names = names(random, manner);
    let (n, op) = (size(random, manner), operator(random));
    let head = {
        let mode = mode(random, op);
        head(random, op, mode)
    };
    let (l, g) = (some_keys(random, n, names), some_keys(random, n, names));
    let o: Vec<u64> = (0..n).map(|_| random.below(names)).collect();
    let count = size(random, manner);
    let a: Vec<u64> = (0..count).map(|_| random.below(names)).collect();
    let r = required(random, op, (&l, &g), &o, names);
    let mapped = (r.len() + random.of(&[0, 0, 0, 1])).min(MOST_ENTRIES);
    let m = some_keys(random, mapped, names);
    let known: Vec<Expr> = l.iter().chain(&g).chain(&r).copied().collect();
    let w = rules(random, manner, &known, names);
    let mut lines = vec![
        Line::new(b'K', head),
        line(b'R', &r),
        line(b'L', &l),
        line(b'G', &g),
        directions(random, op, n),
        line(b'W', &w),
        Line::new(b'O', o),
        Line::new(b'A', a),
        line(b'M', &m),
    ];
    used_only(op, head[1], &mut lines);
    for _ in 0..head[6] {
        let n = random.place(3);
        lines.push(line(b'C', &some_keys(random, n, names)));
    }
    Sheet(lines)
}

/// A side's keys after its mark.
fn side(random: &mut Random, letter: u8, l: &[Expr], g: &[Expr], names: u64) -> Line {
    let mut fields = vec![random.mark(6)];
    if fields[0] == 1 {
        fields.extend(asked(random, l, g, names).concat());
    }
    Line::new(letter, fields)
}

pub fn input_sheet(random: &mut Random, manner: Manner) -> Sheet {
    let names = names(random, manner);
    let (n, op) = (
        size(random, manner),
        random.of(&[0, 0, 0, 2, 2, 2, 1, 3, 4, 5, 6]),
    );
    let mode = mode(random, op);
    let (l, g) = (some_keys(random, n, names), some_keys(random, n, names));
    let known: Vec<Expr> = l.iter().chain(&g).copied().collect();
    Sheet(vec![
        Line::new(b'I', [op, mode]),
        line(b'L', &l),
        line(b'G', &g),
        directions(random, op, n),
        side(random, b'H', &l, &g, names),
        side(random, b'N', &l, &g, names),
        line(b'W', &rules(random, manner, &known, names)),
        line(b'V', &rules(random, manner, &known, names)),
    ])
}

/// Every list of up to `most` of three columns.
fn lists(most: usize) -> Vec<Vec<Expr>> {
    let mut all = vec![vec![]];
    let mut last = all.clone();
    for _ in 0..most {
        let longer = last.iter().flat_map(|list: &Vec<Expr>| {
            (0..3).map(move |name| [list.clone(), vec![[0, name, name]]].concat())
        });
        last = longer.collect();
        all.extend(last.clone());
    }
    all
}

/// Every K sheet of a join whose order is tried: 0 to 2 pairs and 0 to 3 required keys over three columns, no rewriting or one pair.
pub fn short_key_sheets() -> impl Iterator<Item = Sheet> {
    let sides = lists(2);
    let pairs: Vec<(Vec<Expr>, Vec<Expr>)> = sides
        .iter()
        .flat_map(|l| {
            let same = sides.iter().filter(|g| g.len() == l.len());
            same.map(|g| (l.clone(), g.clone()))
        })
        .collect();
    let columns: Vec<Expr> = (0..3).map(|name| [0, name, name]).collect();
    let mut rules = vec![vec![]];
    for from in &columns {
        rules.extend(columns.iter().map(|to| vec![*from, *to]));
    }
    lists(3).into_iter().flat_map(move |r| {
        let (pairs, rules) = (pairs.clone(), rules.clone());
        pairs.into_iter().flat_map(move |(l, g)| {
            let (r, rules) = (r.clone(), rules.clone());
            rules
                .into_iter()
                .flat_map(move |w| [0, 2].map(|op| short_key_sheet(op, &r, &l, &g, &w)))
        })
    })
}

fn short_key_sheet(op: u64, r: &[Expr], l: &[Expr], g: &[Expr], w: &[Expr]) -> Sheet {
    let directions = if op == 2 { l.len() as u64 } else { 0 };
    let empty = |letter| Line::new(letter, []);
    Sheet(vec![
        Line::new(b'K', [op, 0, 0, 0, 0, 0, 2]),
        line(b'R', r),
        line(b'L', l),
        line(b'G', g),
        Line::new(b'S', 0..directions),
        line(b'W', w),
        empty(b'O'),
        empty(b'A'),
        empty(b'M'),
        empty(b'C'),
        empty(b'C'),
    ])
}
