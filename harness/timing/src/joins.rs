//! Sort-merge joins of so many pairs, by how the search for their order ends.

use sheets::{Line, Random, Sheet};

/// An expression: kind, name, index.
pub type Key = [u64; 3];

/// So many columns, each of another name.
pub fn columns(n: usize, from: u64) -> Vec<Key> {
    (0..n as u64).map(|i| [0, from + i, i]).collect()
}

/// The lists of a join: the keys that are asked for, its pairs, and a rewriting list.
pub struct Joined {
    pub required: Vec<Key>,
    pub left: Vec<Key>,
    pub right: Vec<Key>,
    pub rules: Vec<Key>,
}

/// How the search for a join's order ends.
#[derive(Clone, Copy, PartialEq)]
pub enum End {
    Met,
    Moved,
    Impossible,
}

/// A join of n pairs, two or more. With rules, every key but two is looked up in vain.
pub fn joined(random: &mut Random, n: usize, end: End, rules: bool) -> Joined {
    let (left, right) = (columns(n, 100), columns(n, 500));
    let mut required = left.clone();
    if end != End::Met {
        random.shuffle(&mut required);
        if required == left {
            required.swap(0, 1);
        }
    }
    if end == End::Impossible {
        required[n - 1][1] = 999;
    }
    let (last, before) = (left[n - 1], left[n - 2]);
    let name = |name| columns(1, name)[0];
    let in_vain = [name(900), name(901), name(902), name(903)];
    let used = [last, name(950), before, name(951)];
    let rules = match rules {
        true => [in_vain, used].concat(),
        false => vec![],
    };
    Joined {
        required,
        left,
        right,
        rules,
    }
}

impl Joined {
    /// The join as a K sheet, with the pairs' directions and the list that its second child has.
    pub fn sheet(&self, directions: Vec<u64>, second: &[Key]) -> Vec<u8> {
        let empty = |letter| Line::new(letter, []);
        Sheet(vec![
            Line::new(b'K', [2, 0, 0, 0, 0, 0, 2]),
            Line::new(b'R', self.required.concat()),
            Line::new(b'L', self.left.concat()),
            Line::new(b'G', self.right.concat()),
            Line::new(b'S', directions),
            Line::new(b'W', self.rules.concat()),
            empty(b'O'),
            empty(b'A'),
            empty(b'M'),
            empty(b'C'),
            Line::new(b'C', second.concat()),
        ])
        .text()
    }
}
