//! The proved `try_reorder` beside plain Rust on the same lists.

use crate::proved;
use crate::table::{Named, Table, side};
use sheets::Random;
use timing::{End, Key, joined};

#[derive(Clone, Copy, Debug, PartialEq, Eq)]
struct Expr {
    kind: u16,
    name: u16,
    index: u16,
}

const NO_OP: Expr = Expr {
    kind: 2,
    name: 0,
    index: 0,
};

impl Expr {
    fn of(key: &Key) -> Expr {
        let [kind, name, index] = key.map(|n| n as u16);
        Expr { kind, name, index }
    }

    fn packed(self) -> u64 {
        (self.kind as u64) << 32 | (self.name as u64) << 16 | self.index as u64
    }
}

/// The report, and the keys where they moved.
type Answer = (u64, Vec<Expr>, Vec<Expr>);

fn positions(current: &[Expr], expected: &[Expr]) -> Option<Vec<usize>> {
    if current.is_empty() || expected.is_empty() {
        return None;
    }
    let mut current = current.to_vec();
    let mut places = vec![];
    for expr in expected {
        let place = current.iter().position(|e| e == expr)?;
        current[place] = NO_OP;
        places.push(place);
    }
    Some(places)
}

/// What an expression is by the first rule for it, or else the expression.
fn by_rules(w: &[(Expr, Expr)], e: &Expr) -> Expr {
    w.iter().find(|rule| rule.0 == *e).map_or(*e, |rule| rule.1)
}

fn rewritten(w: &[(Expr, Expr)], keys: &[Expr]) -> Vec<Expr> {
    keys.iter().map(|e| by_rules(w, e)).collect()
}

/// As the original has it, on vectors.
#[inline(never)]
fn on_vectors(w: &[(Expr, Expr)], r: &[Expr], l: &[Expr], g: &[Expr]) -> Answer {
    if l.len() != r.len() {
        return (3, vec![], vec![]);
    }
    if r == l || r == g {
        return (1, vec![], vec![]);
    }
    let (mut r2, mut l2, mut g2) = (vec![], vec![], vec![]);
    if !w.is_empty() {
        r2 = rewritten(w, r);
        l2 = rewritten(w, l);
        g2 = rewritten(w, g);
        if r2 == l2 || r2 == g2 {
            return (1, vec![], vec![]);
        }
    }
    let Some(places) = positions(l, r)
        .or_else(|| positions(g, r))
        .or_else(|| positions(&l2, &r2))
        .or_else(|| positions(&g2, &r2))
    else {
        return (3, vec![], vec![]);
    };
    let left = places.iter().map(|p| l[*p]).collect();
    let right = places.iter().map(|p| g[*p]).collect();
    (2, left, right)
}

#[derive(Clone, Copy)]
struct Keys {
    items: [Expr; 32],
    count: usize,
}

impl Keys {
    const NONE: Keys = Keys {
        items: [NO_OP; 32],
        count: 0,
    };

    fn of(keys: impl Iterator<Item = Expr>) -> Keys {
        let mut out = Keys::NONE;
        for e in keys {
            out.items[out.count] = e;
            out.count += 1;
        }
        out
    }

    fn slice(&self) -> &[Expr] {
        &self.items[..self.count]
    }
}

fn places_in(current: &[Expr], expected: &[Expr], places: &mut [u8; 32]) -> bool {
    if current.is_empty() || expected.is_empty() {
        return false;
    }
    let mut left = Keys::of(current.iter().copied());
    for (i, expr) in expected.iter().enumerate() {
        let Some(place) = left.slice().iter().position(|e| e == expr) else {
            return false;
        };
        left.items[place] = NO_OP;
        places[i] = place as u8;
    }
    true
}

/// With no allocation: arrays of 32 and a count.
#[inline(never)]
fn on_arrays(
    w: &[(Expr, Expr)],
    r: &[Expr],
    l: &[Expr],
    g: &[Expr],
    left: &mut Keys,
    right: &mut Keys,
) -> u64 {
    if l.len() != r.len() {
        return 3;
    }
    if r == l || r == g {
        return 1;
    }
    let mut places = [0u8; 32];
    let mut found = false;
    if w.is_empty() {
        found = places_in(l, r, &mut places) || places_in(g, r, &mut places);
    } else {
        let new = |keys: &[Expr]| Keys::of(keys.iter().map(|e| by_rules(w, e)));
        let (r2, l2, g2) = (new(r), new(l), new(g));
        if r2.slice() == l2.slice() || r2.slice() == g2.slice() {
            return 1;
        }
        found = found
            || places_in(l, r, &mut places)
            || places_in(g, r, &mut places)
            || places_in(l2.slice(), r2.slice(), &mut places)
            || places_in(g2.slice(), r2.slice(), &mut places);
    }
    if !found {
        return 3;
    }
    *left = Keys::of(places[..r.len()].iter().map(|p| l[*p as usize]));
    *right = Keys::of(places[..r.len()].iter().map(|p| g[*p as usize]));
    2
}

/// The lists of one call, as plain Rust has them and packed.
struct Case {
    w: Vec<(Expr, Expr)>,
    r: Vec<Expr>,
    l: Vec<Expr>,
    g: Vec<Expr>,
    packed_w: Vec<[u64; 2]>,
    packed: [Vec<u64>; 3],
}

impl Case {
    fn new(w: Vec<(Expr, Expr)>, r: Vec<Expr>, l: Vec<Expr>, g: Vec<Expr>) -> Case {
        let pack = |keys: &[Expr]| keys.iter().map(|e| e.packed()).collect::<Vec<u64>>();
        Case {
            packed_w: w.iter().map(|x| [x.0.packed(), x.1.packed()]).collect(),
            packed: [pack(&r), pack(&l), pack(&g)],
            w,
            r,
            l,
            g,
        }
    }

    fn on_arrays(&self, [left, right]: &mut [Keys; 2]) -> u64 {
        on_arrays(&self.w, &self.r, &self.l, &self.g, left, right)
    }

    fn proved(&self, left: &mut [u64; 32], right: &mut [u64; 32]) -> u64 {
        let [r, l, g] = &self.packed;
        proved::try_reorder(&self.packed_w, r, l, g, left, right)
    }
}

fn some_expr(random: &mut Random, names: usize) -> Expr {
    match random.below(12) {
        0 => NO_OP,
        1 => Expr {
            kind: 1,
            name: random.place(names) as u16,
            index: 0,
        },
        _ => Expr {
            kind: 0,
            name: random.place(names) as u16,
            index: random.below(2) as u16,
        },
    }
}

fn some_keys(random: &mut Random, n: usize, names: usize) -> Vec<Expr> {
    (0..n).map(|_| some_expr(random, names)).collect()
}

/// Random lists: few names, so that every outcome is frequent.
fn some_case(random: &mut Random) -> Case {
    let most = if random.below(50) == 0 { 33 } else { 5 };
    let n = random.place(most);
    let names = 1 + random.place(4);
    let l = some_keys(random, n, names);
    let g = some_keys(random, n, names);
    let mut r = if random.below(2) == 0 {
        l.clone()
    } else {
        g.clone()
    };
    for _ in 0..random.below(3) {
        if n > 0 {
            let (i, j) = (random.place(n), random.place(n));
            r.swap(i, j);
        }
    }
    if random.below(3) == 0 {
        let longer = n + random.place(2);
        r = some_keys(random, longer.min(32), names);
    }
    let rules = random.below(3);
    let w = (0..rules)
        .map(|_| (some_expr(random, names), some_expr(random, names)))
        .collect();
    Case::new(w, r, l, g)
}

/// A room for packed keys that was filled with 7, once these keys are written into it.
fn room_with(keys: &[Expr]) -> [u64; 32] {
    let mut out = [7; 32];
    for (place, e) in out.iter_mut().zip(keys) {
        *place = e.packed();
    }
    out
}

/// Compares report and moved keys on the lists of a case. The report.
fn compare_one(case: &Case) -> Result<u64, String> {
    let (report, left, right) = on_vectors(&case.w, &case.r, &case.l, &case.g);
    let (mut a, mut b) = (room_with(&[]), room_with(&[]));
    let ours = case.proved(&mut a, &mut b);
    let mut keys = [Keys::NONE; 2];
    let third = case.on_arrays(&mut keys);
    let moved_apart = report == 2 && (keys[0].slice() != left || keys[1].slice() != right);
    let arrays_differ = third != report || moved_apart;
    if ours != report || a != room_with(&left) || b != room_with(&right) || arrays_differ {
        return Err(format!(
            "ordering {:?} {:?} {:?} {:?}: proved {ours}, plain {report} {third}",
            case.w, case.r, case.l, case.g
        ));
    }
    Ok(report)
}

/// Compares reports and moved keys on random lists.
pub fn compare(random: &mut Random, sheets: usize) -> Result<(), String> {
    let mut reports = [0usize; 4];
    for _ in 0..sheets {
        reports[compare_one(&some_case(random))? as usize] += 1;
    }
    println!(
        "orders compared: {sheets} ({} met, {} moved, {} impossible), no difference",
        reports[1], reports[2], reports[3]
    );
    Ok(())
}

const CASES: usize = 64;

/// How the order ends, whether with rules, and the column's name.
const COLUMNS: [(End, bool, &str); 6] = [
    (End::Met, false, "met"),
    (End::Moved, false, "moved"),
    (End::Impossible, false, "impossible"),
    (End::Met, true, "met, rules"),
    (End::Moved, true, "moved, rules"),
    (End::Impossible, true, "impossible, rules"),
];

fn timed_case(random: &mut Random, n: usize, end: End, rules: bool) -> Case {
    let joined = joined(random, n, end, rules);
    let exprs = |keys: &[Key]| keys.iter().map(Expr::of).collect::<Vec<Expr>>();
    let rules = joined.rules.chunks(2);
    let rules = rules.map(|pair| (Expr::of(&pair[0]), Expr::of(&pair[1])));
    Case::new(
        rules.collect(),
        exprs(&joined.required),
        exprs(&joined.left),
        exprs(&joined.right),
    )
}

/// Every side over the same cases; each is asked for its last key too.
fn sides(cases: &[Case]) -> Vec<Named<'_>> {
    let last = cases[0].l.len() - 1;
    let mut keys = [Keys::NONE; 2];
    let on_arrays = move |c: &Case| {
        let report = c.on_arrays(&mut keys);
        report + keys[0].items[last].name as u64
    };
    let on_vectors = |c: &Case| {
        let (report, left, _) = on_vectors(&c.w, &c.r, &c.l, &c.g);
        report + left.last().map_or(0, |e| e.name as u64)
    };
    let (mut a, mut b) = ([0u64; 32], [0u64; 32]);
    let proved = move |c: &Case| c.proved(&mut a, &mut b) + a[last];
    vec![
        over("plain Rust, arrays, no allocation", cases, on_arrays),
        over("plain Rust, vectors, as the original", cases, on_vectors),
        over("proved", cases, proved),
    ]
}

/// A side that takes one case after the other.
fn over<'a>(
    name: &'static str,
    cases: &'a [Case],
    mut run: impl FnMut(&Case) -> u64 + 'a,
) -> Named<'a> {
    side(name, move || cases.iter().map(&mut run).sum())
}

pub fn race(random: &mut Random) {
    for n in [4, 32] {
        let mut table = Table::new();
        for (end, rules, name) in COLUMNS {
            let case = |_| timed_case(random, n, end, rules);
            let cases: Vec<Case> = (0..CASES).map(case).collect();
            table.column(name, CASES, sides(&cases));
        }
        table.print(&format!("try_reorder, {n} pairs: ns a call (ratio)"));
    }
}
