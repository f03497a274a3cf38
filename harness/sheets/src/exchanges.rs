//! D sheets.

use crate::{Line, Manner, Random, Sheet};

const MOST_LINES: usize = 256;

struct Tree {
    kind: u64,
    count: u64,
    keeps: u64,
    limit: Option<u64>,
    order: u64,
    tracked: u64,
    need: u64,
    children: u64,
}

impl Tree {
    fn line(&self) -> Line {
        let first = [self.kind, self.count, self.keeps].map(Some);
        let last = [self.order, self.tracked, self.need, self.children].map(Some);
        Line {
            letter: b'T',
            fields: [&first[..], &[self.limit], &last].concat(),
        }
    }
}

/// A sheet while it is made.
struct Maker<'a> {
    random: &'a mut Random,
    manner: Manner,
    target: u64,
    trees: Vec<Tree>,
}

fn fan(random: &mut Random, kind: u64, large: bool) -> u64 {
    match kind {
        5 | 6 => 2,
        0 | 9 if large => random.below(9),
        0 => random.of(&[0, 0, 1, 1, 1, 2, 2, 3]),
        9 => random.of(&[0, 1, 2, 2, 3]),
        _ => 1,
    }
}

impl Maker<'_> {
    fn count(&mut self) -> u64 {
        let target = self.target;
        let large = self.random.below(65536);
        self.random.of(&[
            0,
            1,
            1,
            1,
            2,
            2,
            3,
            4,
            target,
            target,
            target - 1,
            target + 1,
            large,
        ])
    }

    fn limit(&mut self, kind: u64) -> Option<u64> {
        if kind == 3 || kind == 4 || self.random.below(4) > 0 {
            return None;
        }
        let large = self.random.below(1 << 32);
        Some(self.random.of(&[0, 1, 5, 10, 4294967295, large]))
    }

    fn tree(&mut self, kind: u64, limit: Option<u64>, children: u64) -> Tree {
        Tree {
            kind,
            count: self.count(),
            keeps: self.random.mark(if kind == 3 || kind == 4 { 5 } else { 1 }),
            limit,
            order: self.random.of(&[0, 0, 1, 2, 3]),
            tracked: self.random.mark(5),
            need: self.random.below(3),
            children,
        }
    }

    /// Operators that are taken off the top, then the worked node. The worked node's place.
    fn top(&mut self) -> usize {
        let above = self.random.of(&[0, 0, 0, 0, 1, 1, 2, 3]);
        for _ in 0..above {
            let kind = 1 + self.random.below(4);
            let tree = self.tree(kind, None, 1);
            self.trees.push(tree);
        }
        let kind = self.random.below(15);
        let kind = if kind > 11 {
            self.random.of(&[5, 6, 8, 9, 10])
        } else {
            kind
        };
        let (kind, limit) = match kind {
            3 | 4 => (0, None),
            1 | 2 => (kind, Some(self.random.below(20))),
            _ => (kind, self.limit(kind)),
        };
        let children = fan(self.random, kind, self.manner.large);
        let tree = self.tree(kind, limit, children);
        self.trees.push(tree);
        self.trees.len() - 1
    }

    /// A child's tree of at most so many lines.
    fn under(&mut self, room: usize) {
        let roomy = self.manner.large && room > 8;
        let leaf = room < 4 || !roomy && self.random.below(3) == 0;
        let kind = match self.random.below(12) {
            _ if leaf => self.random.of(&[0, 0, 0, 9]),
            0..3 => 1,
            3 => 2,
            4..7 => 3,
            7 => 4,
            _ => self.random.below(12),
        };
        let children = match leaf {
            true => 0,
            false => fan(self.random, kind, self.manner.large)
                .max(roomy as u64)
                .min(room as u64 / 4),
        };
        let fits = match kind {
            0 | 9 => true,
            5 | 6 => children == 2,
            _ => children == 1,
        };
        let kind = if fits { kind } else { 0 };
        let limit = self.limit(kind);
        let tree = self.tree(kind, limit, children);
        self.trees.push(tree);
        for _ in 0..children {
            self.under((room - 1) / children as usize);
        }
    }

    fn grow(&mut self) -> usize {
        let worked = self.top();
        let children = self.trees[worked].children as usize;
        let most = match (self.manner.large, self.random.below(4)) {
            (true, _) => MOST_LINES - worked - 1,
            (_, 0) => 8 * children,
            _ => 4 * children,
        };
        for _ in 0..children {
            self.under(most / children);
        }
        worked
    }
}

/// The T lines of the children of a node.
fn children_of(trees: &[Tree], at: usize) -> Vec<usize> {
    let mut places = vec![];
    let mut next = at + 1;
    for _ in 0..trees[at].children {
        places.push(next);
        let mut open = 1;
        while open > 0 {
            open += trees[next].children;
            open -= 1;
            next += 1;
        }
    }
    places
}

/// An F line.
fn child_line(random: &mut Random, batch: u64, worked: &Tree, manner: Manner) -> Line {
    let planned_output = manner.planned && worked.kind == 10;
    let gains = if planned_output { 0 } else { random.mark(5) };
    let maintains = if planned_output { 1 } else { random.mark(4) };
    let large = random.below(1 << 32);
    let rows = random.of(&[0, batch - 1, batch, batch, batch + 1, large, 4294967295]);
    let entries = random.of(&[0, 0, 0, 1, 2, 3, 8]);
    let (grouping, splits) = (random.mark(2), random.mark(4));
    Line::new(
        b'F',
        [
            gains,
            maintains,
            random.below(3),
            rows,
            grouping,
            splits,
            entries,
        ],
    )
}

/// The forms that a child of a need may pass through, and now and then another.
fn forms(random: &mut Random, need: u64) -> Vec<u64> {
    let passed: &[u64] = match need {
        0 => &[0, 1, 6, 7],
        1 => &[0, 1, 2, 3],
        _ => &[0, 1, 4, 5, 8, 9, 12, 13],
    };
    let spare = random.below(30) == 0;
    let missing = random.below(12) == 0;
    (0..16)
        .filter(|form| match passed.contains(form) {
            true => !missing || random.below(3) > 0,
            false => spare && random.below(2) == 0,
        })
        .collect()
}

struct Row {
    child: u64,
    form: u64,
    count: u64,
    order: u64,
    constant: u64,
}

fn row_line(random: &mut Random, row: Row, target: u64, manner: Manner) -> Line {
    let mut layout = random.of(&[0, 1, 1, 1, 2]);
    let (mut athash, mut exact, mut subset) = (random.mark(3), random.mark(3), random.mark(4));
    let (met, mut aftermet) = (random.mark(6), random.mark(3));
    if manner.planned {
        let exchanged = row.form >= 8 || row.form >> 1 == 2;
        subset |= exact;
        aftermet &= met;
        if exchanged {
            (athash, exact, subset) = (1, 1, 1);
        }
        if row.count != target {
            athash = 0;
        }
        if athash == 1 {
            layout = layout.max(1);
        }
    }
    let (ford, fplain) = (random.mark(2), random.mark(6));
    let facts = [layout, athash, exact, subset, met, aftermet, row.constant];
    let fields = [row.child, row.form, row.count].into_iter().chain(facts);
    Line::new(b'X', fields.chain([ford, fplain, row.order]))
}

fn rows(maker: &mut Maker, child: usize, at: usize, entries: u64) -> Vec<Line> {
    let (target, manner) = (maker.target, maker.manner);
    let (count, order, need) = (
        maker.trees[at].count,
        maker.trees[at].order,
        maker.trees[at].need,
    );
    let mut lines = vec![];
    for form in forms(maker.random, need) {
        let top = form >> 1 & 3;
        let row = Row {
            child: child as u64 + 1,
            form,
            count: match (form >> 3, top) {
                (0, 0) if form == 0 => count,
                (0, 0) => maker.count(),
                (0, 1) => 1,
                _ => target,
            },
            order: if form == 0 {
                order
            } else {
                maker.random.of(&[0, 0, 1, 2, 3])
            },
            constant: match maker.random.below(3) {
                0 => maker.random.below(1 << entries),
                1 => (1 << entries) - 1,
                _ => 0,
            },
        };
        lines.push(row_line(maker.random, row, target, manner));
    }
    lines
}

/// Masks that ask little, or much; of a plan, those of keyed children of joins.
fn masks(maker: &mut Maker, worked: usize, children: &[usize]) -> Line {
    let n = children.len();
    let keyed: u64 = (0..n)
        .map(|i| (maker.trees[children[i]].need == 2) as u64 * (1 << i))
        .sum();
    let asked = match maker.random.below(6) {
        _ if maker.manner.planned && !matches!(maker.trees[worked].kind, 5 | 6) => 0,
        _ if maker.manner.planned => keyed,
        0..3 => 0,
        3 => keyed,
        _ => (1 << n) - 1,
    };
    let random = &mut maker.random;
    let mask = |set: u64| match random.below(4) {
        0 => random.number() & asked,
        1 => asked & !set,
        _ if set == 0 => random.number() & asked,
        _ => 0,
    };
    Line::new(b'Y', (0..1 << n).map(mask))
}

fn settings(random: &mut Random, target: u64, batch: u64) -> Line {
    let (roundrobin, split, estimates) = (random.mark(6), random.mark(5), random.mark(4));
    let subset = random.of(&[0, 1, 2, 3, 4, target, 9, 65535]);
    let files = random.of(&[0, 0, 1, 1, 2, 3, target, 65535]);
    let (sort, union) = (random.mark(3), random.mark(2));
    Line::new(
        b'D',
        [
            target, roundrobin, split, batch, estimates, subset, files, sort, union,
        ],
    )
}

fn facts(random: &mut Random, worked: &Tree, manner: Manner) -> Line {
    let mut marks = [
        random.mark(3),
        random.mark(4),
        random.mark(4),
        random.mark(4),
    ];
    if manner.planned {
        marks[0] &= (worked.kind != 10 || worked.limit.is_none()) as u64;
        marks[1] &= (worked.kind == 7) as u64;
        marks[2] &= (worked.kind == 8) as u64;
        marks[3] &= (worked.kind == 8) as u64;
        marks[3] |= marks[2];
    }
    Line::new(b'B', marks)
}

pub fn exchange_sheet(random: &mut Random, manner: Manner) -> Sheet {
    let target = random.of(&[1, 2, 3, 4, 4, 4, 8, 4096]);
    let batch = random.of(&[1, 5, 8192, 65535]);
    let head = settings(random, target, batch);
    let mut maker = Maker {
        random,
        manner,
        target,
        trees: vec![],
    };
    let worked = maker.grow();
    let children = children_of(&maker.trees, worked);
    let mut lines = vec![head];
    lines.extend(maker.trees.iter().map(Tree::line));
    lines.push(facts(maker.random, &maker.trees[worked], manner));
    let mut found = vec![];
    for (child, at) in children.iter().enumerate() {
        let line = child_line(maker.random, batch, &maker.trees[worked], manner);
        let entries = line.fields[6].unwrap();
        lines.push(line);
        found.extend(rows(&mut maker, child, *at, entries));
    }
    lines.extend(found);
    lines.push(masks(&mut maker, worked, &children));
    Sheet(lines)
}
