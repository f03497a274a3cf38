//! Refusals 1 to 8 once more, by a table of lines: slow, with strings, and in no other way like `plain`. A third opinion on any bytes.

/// Number and line.
pub type Refusal = (u64, u64);

const ROWS_MOST: u128 = 4294967295;
const FIELD_MOST: u128 = 65535;

/// What a line of a letter must be. Fields are named by a letter each: `n` a number, `w` a row count, `l` a limit, `m` a mark, a digit the
/// largest code, `c` children (at most 8), `e` expressions, `p` pairs of them, `x` one number each, `d` directions, `y` masks.
struct Shape {
    letter: char,
    fields: &'static str,
}

const SHAPES: [Shape; 20] = [
    shape('K', "nnnnmmc"),
    shape('R', "e"),
    shape('L', "e"),
    shape('G', "e"),
    shape('S', "d"),
    shape('W', "p"),
    shape('O', "x"),
    shape('A', "x"),
    shape('M', "e"),
    shape('C', "e"),
    shape('I', "nn"),
    shape('H', "me"),
    shape('N', "me"),
    shape('V', "p"),
    shape('D', "nmmnmnnmm"),
    shape('T', "nnmlnm2c"),
    shape('B', "mmmm"),
    shape('F', "mm2wmmc"),
    shape('X', "nnnnmmmmmnmmn"),
    shape('Y', "y"),
];

const fn shape(letter: char, fields: &'static str) -> Shape {
    Shape { letter, fields }
}

/// A sheet's lines that are still to be judged.
struct Lines {
    lines: Vec<String>,
    /// Bytes up to the end of each line.
    ends: Vec<usize>,
    at: usize,
    /// Whether the last line has no LF.
    open: bool,
}

impl Lines {
    fn new(text: &[u8]) -> Lines {
        // A byte each, so that lengths agree.
        let text: String = text.iter().map(|b| *b as char).collect();
        let mut lines: Vec<String> = text.split('\n').map(str::to_owned).collect();
        let open = lines.last().is_some_and(|line| !line.is_empty());
        if !open {
            lines.pop();
        }
        let mut end = 0;
        let ends = lines.iter().map(|line| {
            end += line.chars().count() + 1;
            end
        });
        Lines {
            ends: ends.collect(),
            lines,
            at: 0,
            open,
        }
    }

    fn number(&self) -> u64 {
        self.at as u64 + 1
    }

    fn whole(&self) -> bool {
        self.at < self.lines.len() && !(self.open && self.at + 1 == self.lines.len())
    }

    /// The next line's fields, where it is one of its letter's shape; `masks` is how many Y has. It stays the next one.
    fn fields(&self, letter: char, masks: usize) -> Result<Vec<Option<u128>>, Refusal> {
        let refuse = |number| Err((number, self.number()));
        if !self.whole() {
            return refuse(1);
        }
        let mut parts = self.lines[self.at].split(',');
        if parts.next() != Some(&letter.to_string()) {
            return refuse(1);
        }
        let shape = SHAPES.iter().find(|shape| shape.letter == letter).unwrap();
        let parts: Vec<&str> = parts.collect();
        let kinds = kinds(shape.fields, parts.len(), masks);
        let fields: Option<Vec<_>> = match kinds.len() == parts.len() {
            true => parts
                .iter()
                .zip(&kinds)
                .map(|(p, kind)| field(p, *kind))
                .collect(),
            false => None,
        };
        let Some(fields) = fields else {
            return refuse(2);
        };
        Ok(fields)
    }

    /// Refusals 3 and 4 of the next line by its shape; then goes on.
    fn judge(
        &mut self,
        letter: char,
        fields: &[Option<u128>],
        more: [bool; 2],
    ) -> Result<(), Refusal> {
        let shape = SHAPES.iter().find(|shape| shape.letter == letter).unwrap();
        let kinds = kinds(shape.fields, fields.len(), fields.len());
        let number = self.number();
        let marks = shape.fields.len() - 1;
        let entries = match shape.fields.chars().last() {
            Some('e') => (fields.len() - marks) / 3,
            Some('p') => fields.len() / 6,
            Some('x' | 'd') => fields.len(),
            _ => 0,
        };
        let children = (kinds.iter().zip(fields)).any(|(k, f)| *k == 'c' && f.unwrap() > 8);
        if entries > 32 || children || more[0] || self.ends[self.at] > 65536 {
            return Err((3, number));
        }
        let coded = |(kind, field): (&char, &Option<u128>)| match (kind, field) {
            ('m', Some(f)) => *f <= 1,
            ('2', Some(f)) => *f <= 2,
            ('d', Some(f)) => *f <= 3,
            _ => true,
        };
        let exprs = match shape.fields.chars().last() {
            Some('e' | 'p') => fields[marks..].chunks(3).all(is_expr),
            _ => true,
        };
        if !kinds.iter().zip(fields).all(coded) || !exprs || more[1] {
            return Err((4, number));
        }
        self.at += 1;
        Ok(())
    }

    /// A line whose shape says all.
    fn take(&mut self, letter: char) -> Result<Vec<u128>, Refusal> {
        let fields = self.fields(letter, 0)?;
        self.judge(letter, &fields, [false, false])?;
        Ok(fields.into_iter().map(|f| f.unwrap_or(0)).collect())
    }

    fn end(&self) -> Result<(), Refusal> {
        match self.at < self.lines.len() {
            true => Err((1, self.number())),
            false => Ok(()),
        }
    }
}

/// The kind of each of so many fields; of another number of them where that many can't be.
fn kinds(fields: &str, count: usize, masks: usize) -> Vec<char> {
    let last = fields.chars().last().unwrap_or('n');
    let width = match last {
        'e' => 3,
        'p' => 6,
        'x' | 'd' => 1,
        'y' => return vec!['n'; masks],
        _ => return fields.chars().collect(),
    };
    let mut kinds: Vec<char> = fields.chars().take(fields.len() - 1).collect();
    while kinds.len() < count {
        kinds.extend(vec![if last == 'd' { 'd' } else { 'n' }; width]);
    }
    kinds
}

/// A field's number, nothing for an absent limit; nothing at all where it is malformed or too large.
fn field(text: &str, kind: char) -> Option<Option<u128>> {
    if text.is_empty() {
        return (kind == 'l').then_some(None);
    }
    let digits = text.chars().all(|c| c.is_ascii_digit());
    if !digits || text.len() > 1 && text.starts_with('0') || text.len() > 12 {
        return None;
    }
    let number: u128 = text.parse().unwrap();
    let most = if "wl".contains(kind) {
        ROWS_MOST
    } else {
        FIELD_MOST
    };
    (number <= most).then_some(Some(number))
}

fn is_expr(fields: &[Option<u128>]) -> bool {
    matches!(
        fields,
        [Some(0), _, _] | [Some(1), _, Some(0)] | [Some(2), Some(0), Some(0)]
    )
}

fn mode_fits(op: u128, mode: u128) -> bool {
    let last = [2, 0, 0, 1, 0, 0, 0].get(op as usize);
    last.is_some_and(|last| mode <= *last)
}

fn judge_keys(lines: &mut Lines) -> Result<(), Refusal> {
    let fields = lines.fields('K', 0)?;
    let f: Vec<u128> = fields.iter().map(|f| f.unwrap_or(0)).collect();
    let (op, mode, join) = (f[0], f[1], f[2]);
    let coded = mode_fits(op, mode) && join <= if op == 0 { 9 } else { 0 };
    lines.judge('K', &fields, [false, !coded])?;
    let wanted = [2, 2, 2, 1, 1, 1].get(op as usize);
    if wanted.is_some_and(|wanted| *wanted != f[6]) {
        return Err((6, 1));
    }
    let mut sizes = vec![];
    for letter in "RLGSWOAM".chars() {
        sizes.push(lines.take(letter)?.len());
    }
    for _ in 0..f[6] {
        lines.take('C')?;
    }
    lines.end()?;
    let [_, l, g, s, w, o, a, m] = sizes[..] else {
        unreachable!()
    };
    let tried = op == 2 || (op, mode) == (0, 0);
    let wrong = [
        l != g,
        op == 2 && s * 3 != l,
        op != 2 && s > 0,
        !tried && l + g + w > 0,
        op != 3 && o + a > 0,
        op != 4 && m > 0,
    ];
    match wrong.contains(&true) {
        true => Err((5, 0)),
        false => Ok(()),
    }
}

fn judge_inputs(lines: &mut Lines) -> Result<(), Refusal> {
    let fields = lines.fields('I', 0)?;
    let (op, mode) = (fields[0].unwrap(), fields[1].unwrap());
    lines.judge('I', &fields, [false, !mode_fits(op, mode)])?;
    let (l, g, s) = (lines.take('L')?, lines.take('G')?, lines.take('S')?);
    let (h, n) = (lines.take('H')?, lines.take('N')?);
    lines.take('W')?;
    lines.take('V')?;
    lines.end()?;
    let wrong = [
        l.len() != g.len(),
        op == 2 && s.len() * 3 != l.len(),
        op != 2 && !s.is_empty(),
        h[0] == 0 && h.len() > 1,
        n[0] == 0 && n.len() > 1,
    ];
    match wrong.contains(&true) {
        true => Err((5, 0)),
        false => Ok(()),
    }
}

/// T lines until every operator has its children: kind, count, whether there is a limit, order and children of each.
fn judge_trees(lines: &mut Lines) -> Result<Vec<[u128; 5]>, Refusal> {
    let (mut trees, mut open) = (vec![], 1);
    while open > 0 {
        let fields = lines.fields('T', 0)?;
        let f: Vec<u128> = fields.iter().map(|f| f.unwrap_or(0)).collect();
        let limited = fields[3].is_some();
        if limited && (f[0] == 3 || f[0] == 4) {
            return Err((2, lines.number()));
        }
        lines.judge('T', &fields, [trees.len() == 256, f[0] > 11])?;
        let fits = match f[0] {
            0 | 9 => true,
            5 | 6 => f[7] == 2,
            _ => f[7] == 1,
        };
        if !fits {
            return Err((6, lines.number() - 1));
        }
        trees.push([f[0], f[1], limited as u128, f[4], f[7]]);
        open = open + f[7] - 1;
    }
    Ok(trees)
}

/// The worked node's children among the T lines.
fn children(trees: &[[u128; 5]]) -> Vec<usize> {
    let stays = |tree: &[u128; 5]| tree[2] == 1 || !(1..=4).contains(&tree[0]);
    let worked = trees.iter().position(stays).unwrap();
    let mut places = vec![];
    let mut next = worked + 1;
    for _ in 0..trees[worked][4] {
        places.push(next);
        let mut open = 1;
        while open > 0 {
            open = open + trees[next][4] - 1;
            next += 1;
        }
    }
    places
}

/// Whether a row fits what document 01's table says under 8.
fn row_fits(row: &[u128], target: u128, tree: &[u128; 5], entries: u128) -> bool {
    let [_, form, count, ..] = row[..] else {
        unreachable!()
    };
    let (split, top, related) = (form % 2, form / 2 % 4, form / 8);
    let counted = if related == 1 || top >= 2 {
        count == target
    } else if top == 1 {
        count == 1
    } else {
        split == 1 || (count, row[12]) == (tree[1], tree[3])
    };
    counted && row[9] < 1 << entries
}

fn judge_exchange(lines: &mut Lines) -> Result<(), Refusal> {
    let settings = lines.take('D')?;
    let trees = judge_trees(lines)?;
    lines.take('B')?;
    let places = children(&trees);
    let mut entries = vec![];
    for _ in &places {
        entries.push(lines.take('F')?[6]);
    }
    let mut rows: Vec<Vec<u128>> = vec![];
    while lines
        .lines
        .get(lines.at)
        .is_some_and(|line| line.starts_with('X'))
    {
        rows.push(lines.take('X')?);
    }
    let fields = lines.fields('Y', 1 << places.len())?;
    lines.judge('Y', &fields, [false, false])?;
    lines.end()?;
    let target = settings[0];
    if !(1..=4096).contains(&target) || settings[3] < 1 {
        return Err((7, 0));
    }
    let fits = |(i, row): (usize, &Vec<u128>)| {
        let known = (1..=places.len() as u128).contains(&row[0]) && row[1] <= 15;
        let repeated = rows[..i].iter().any(|other| other[..2] == row[..2]);
        known && !repeated && {
            let child = row[0] as usize - 1;
            row_fits(row, target, &trees[places[child]], entries[child])
        }
    };
    let masked = fields.iter().all(|mask| mask.unwrap() < 1 << places.len());
    match rows.iter().enumerate().all(fits) && masked {
        true => Ok(()),
        false => Err((8, 0)),
    }
}

/// The refusal of a sheet by numbers 1 to 8, if it has one.
pub fn judge(text: &[u8]) -> Option<Refusal> {
    let mut lines = Lines::new(text);
    match text.first() {
        Some(b'K') => judge_keys(&mut lines).err(),
        Some(b'I') => judge_inputs(&mut lines).err(),
        Some(b'D') => judge_exchange(&mut lines).err(),
        _ => Some((1, 1)),
    }
}
