//! D sheets as they are read: settings, operators, facts of children, rows of forms and masks.

use crate::line::{ABSENT, Line, NARROW, WIDE, line_at};
use crate::write::{Answer, Sink};
use crate::{MOST_BYTES, Room, refused};

/// Kinds of operators.
pub const OTHER: u64 = 0;
pub const MERGE: u64 = 1;
pub const COALESCE: u64 = 2;
pub const REPARTITION: u64 = 3;
pub const UNKNOWN_REPARTITION: u64 = 4;
pub const HASH_JOIN: u64 = 5;
pub const SORT_MERGE_JOIN: u64 = 6;
pub const WINDOW: u64 = 7;
pub const PARTIAL_AGGREGATE: u64 = 8;
pub const UNION: u64 = 9;
pub const OUTPUT_REQUIREMENT: u64 = 10;
pub const SORT: u64 = 11;
pub const KEYED_EXCHANGE: u64 = 12;
pub const ROUND_ROBIN: u64 = 13;
pub const INTERLEAVE: u64 = 14;

/// What is required of a child.
pub const UNSPECIFIED: u64 = 0;
pub const SINGLE: u64 = 1;
pub const KEYED: u64 = 2;

pub const MOST_CHILDREN: usize = 8;
const MOST_NODES: usize = 256;
const FORMS: usize = 16;
const LAST_KIND: u64 = SORT;
const MOST_TARGET: u64 = 4096;

/// A T line. What the decision changes is changed in place.
#[derive(Clone, Copy, Default)]
pub struct Node {
    pub kind: u64,
    pub count: u64,
    pub keeps: u64,
    /// `ABSENT` where there is none.
    pub limit: u64,
    pub order: u64,
    pub tracked: u64,
    pub need: u64,
    pub children: u64,
    /// The place after the last line under this one.
    pub end: usize,
    /// The sort above a merge with a limit that became a coalesce: its limit and order.
    pub sorted: Option<(u64, u64)>,
}

/// An F line.
#[derive(Clone, Copy, Default)]
pub struct Child {
    pub gains: u64,
    pub maintains: u64,
    pub rowkind: u64,
    pub rows: u64,
    pub grouping: u64,
    pub splits: u64,
    pub entries: u64,
}

/// An X row.
#[derive(Clone, Copy, Default)]
pub struct Row {
    pub count: u64,
    pub layout: u64,
    pub athash: u64,
    pub exact: u64,
    pub subset: u64,
    pub met: u64,
    pub aftermet: u64,
    pub constant: u64,
    pub ford: u64,
    pub fplain: u64,
    pub order: u64,
}

pub struct Exchange {
    pub nodes: [Node; MOST_NODES],
    pub lines: usize,
    /// The first T line that has a limit or isn't of kinds 1 to 4.
    pub worked: usize,
    /// friendly, window, aggexact, aggsubset
    pub facts: [u64; 4],
    pub children: [Child; MOST_CHILDREN],
    /// The T line of each child of the worked node.
    pub places: [usize; MOST_CHILDREN],
    rows: [[Row; FORMS]; MOST_CHILDREN],
    present: [u16; MOST_CHILDREN],
    /// Child and form of each row, in the sheet's order.
    sequence: [(u8, u8); MOST_CHILDREN * FORMS],
    listed: usize,
    pub masks: [u64; 256],
}

impl Exchange {
    pub fn new() -> Exchange {
        Exchange {
            nodes: [Node::default(); MOST_NODES],
            lines: 0,
            worked: 0,
            facts: [0; 4],
            children: [Child::default(); MOST_CHILDREN],
            places: [0; MOST_CHILDREN],
            rows: [[Row::default(); FORMS]; MOST_CHILDREN],
            present: [0; MOST_CHILDREN],
            sequence: [(0, 0); MOST_CHILDREN * FORMS],
            listed: 0,
            masks: [0; 256],
        }
    }

    pub fn fan(&self) -> usize {
        self.nodes[self.worked].children as usize
    }

    /// The row of a child's form, where it is on the sheet.
    pub fn row(&self, child: usize, form: usize) -> Option<&Row> {
        let there = self.present[child] >> form & 1 == 1;
        there.then_some(&self.rows[child][form])
    }
}

fn marks(fields: &[u64]) -> bool {
    fields.iter().all(|f| *f <= 1)
}

/// A reader of one line after the other.
struct Lines<'a> {
    s: &'a [u8],
    at: usize,
    /// The number of the line that is read next.
    number: usize,
}

impl Lines<'_> {
    /// The next line, of that letter and that many fields; `wide` may have the larger numbers.
    fn next(
        &mut self,
        letter: u8,
        count: usize,
        wide: Option<usize>,
        room: &mut Room,
    ) -> Result<Line, u64> {
        let line = line_at(self.s, self.at, letter, &mut room.fields);
        let line = line.ok_or(refused(1, self.number))?;
        let fits = line.count == count
            && match wide {
                None => line.largest <= NARROW,
                Some(wide) => (room.fields[..count].iter().enumerate())
                    .all(|(i, f)| *f <= NARROW || i == wide && (*f <= WIDE || *f == ABSENT)),
            };
        if !fits {
            return self.refuse(2);
        }
        self.at = line.next;
        Ok(line)
    }

    fn refuse<T>(&self, number: u64) -> Result<T, u64> {
        Err(refused(number, self.number))
    }

    /// Refusals 3 and 4 of the line that was just read; then the next one's number.
    fn judge(&mut self, too_large: bool, undefined: bool) -> Result<(), u64> {
        if too_large || self.at > MOST_BYTES {
            return self.refuse(3);
        }
        if undefined {
            return self.refuse(4);
        }
        self.number += 1;
        Ok(())
    }
}

fn read_settings(lines: &mut Lines, room: &mut Room) -> Result<(), u64> {
    lines.next(b'D', 9, None, room)?;
    room.head = room.fields[..9].try_into().unwrap();
    let h = &room.head;
    lines.judge(false, !marks(&[h[1], h[2], h[4], h[7], h[8]]))
}

fn read_node(lines: &mut Lines, room: &mut Room, place: usize) -> Result<u64, u64> {
    lines.next(b'T', 8, Some(3), room)?;
    let [kind, count, keeps, limit, order, tracked, need, children] =
        room.fields[..8].try_into().unwrap();
    if (kind == REPARTITION || kind == UNKNOWN_REPARTITION) && limit != ABSENT {
        return lines.refuse(2);
    }
    let too_large = place >= MOST_NODES || children > MOST_CHILDREN as u64;
    let undefined = kind > LAST_KIND || !marks(&[keeps, tracked]) || need > KEYED;
    lines.judge(too_large, undefined)?;
    let fit = match kind {
        OTHER | UNION => true,
        HASH_JOIN | SORT_MERGE_JOIN => children == 2,
        _ => children == 1,
    };
    if !fit {
        return Err(refused(6, lines.number - 1));
    }
    room.exchange.nodes[place] = Node {
        kind,
        count,
        keeps,
        limit,
        order,
        tracked,
        need,
        children,
        end: 0,
        sorted: None,
    };
    Ok(children)
}

/// Reads T lines until the tree is complete.
fn read_nodes(lines: &mut Lines, room: &mut Room) -> Result<(), u64> {
    let (mut place, mut wanted) = (0, 1);
    while wanted > 0 {
        wanted += read_node(lines, room, place)?;
        wanted -= 1;
        place += 1;
    }
    let x = &mut room.exchange;
    x.lines = place;
    for i in (0..place).rev() {
        let mut end = i + 1;
        for _ in 0..x.nodes[i].children {
            end = x.nodes[end].end;
        }
        x.nodes[i].end = end;
    }
    x.worked = 0;
    while x.nodes[x.worked].limit == ABSENT
        && (MERGE..=UNKNOWN_REPARTITION).contains(&x.nodes[x.worked].kind)
    {
        x.worked += 1;
    }
    let mut at = x.worked + 1;
    for child in 0..x.fan() {
        x.places[child] = at;
        at = x.nodes[at].end;
    }
    Ok(())
}

fn read_facts(lines: &mut Lines, room: &mut Room) -> Result<(), u64> {
    lines.next(b'B', 4, None, room)?;
    room.exchange.facts = room.fields[..4].try_into().unwrap();
    lines.judge(false, !marks(&room.exchange.facts))
}

fn read_child(lines: &mut Lines, room: &mut Room, child: usize) -> Result<(), u64> {
    lines.next(b'F', 7, Some(3), room)?;
    let [gains, maintains, rowkind, rows, grouping, splits, entries] =
        room.fields[..7].try_into().unwrap();
    if rows == ABSENT {
        return lines.refuse(2);
    }
    let undefined = !marks(&[gains, maintains, grouping, splits]) || rowkind > 2;
    lines.judge(entries > 8, undefined)?;
    room.exchange.children[child] = Child {
        gains,
        maintains,
        rowkind,
        rows,
        grouping,
        splits,
        entries,
    };
    Ok(())
}

/// Whether a row's count and order are what its form and its T line fix.
fn row_fits(room: &Room, child: usize, form: usize, row: &Row) -> bool {
    let x = &room.exchange;
    let node = &x.nodes[x.places[child]];
    let top = form >> 1 & 3;
    let counted = match (form >> 3, top) {
        (0, 0) => form == 1 || row.count == node.count && row.order == node.order,
        (0, 1) => row.count == 1,
        _ => row.count == room.head[0],
    };
    counted && row.constant >> x.children[child].entries == 0
}

/// Reads a row; whether it fits the sheet (refusal 8).
fn read_row(lines: &mut Lines, room: &mut Room) -> Result<bool, u64> {
    lines.next(b'X', 13, None, room)?;
    let f: [u64; 13] = room.fields[..13].try_into().unwrap();
    let undefined = !marks(&f[4..9]) || !marks(&f[10..12]);
    lines.judge(false, undefined)?;
    if f[0] == 0 || f[0] > room.exchange.fan() as u64 || f[1] >= FORMS as u64 {
        return Ok(false);
    }
    let (child, form) = (f[0] as usize - 1, f[1] as usize);
    let row = Row {
        count: f[2],
        layout: f[3],
        athash: f[4],
        exact: f[5],
        subset: f[6],
        met: f[7],
        aftermet: f[8],
        constant: f[9],
        ford: f[10],
        fplain: f[11],
        order: f[12],
    };
    let x = &mut room.exchange;
    if x.present[child] >> form & 1 == 1 {
        return Ok(false);
    }
    x.present[child] |= 1 << form;
    x.rows[child][form] = row;
    x.sequence[x.listed] = (child as u8, form as u8);
    x.listed += 1;
    Ok(row_fits(room, child, form, &row))
}

fn read_rows(lines: &mut Lines, room: &mut Room) -> Result<bool, u64> {
    room.exchange.present = [0; MOST_CHILDREN];
    room.exchange.listed = 0;
    let mut fit = true;
    while lines.s.get(lines.at) == Some(&b'X') {
        fit &= read_row(lines, room)?;
    }
    Ok(fit)
}

fn read_masks(lines: &mut Lines, room: &mut Room) -> Result<bool, u64> {
    let fan = room.exchange.fan();
    lines.next(b'Y', 1 << fan, None, room)?;
    lines.judge(false, false)?;
    let masks = &room.fields[..1 << fan];
    room.exchange.masks[..1 << fan].copy_from_slice(masks);
    Ok(masks.iter().all(|mask| mask >> fan == 0))
}

/// Reads the sheet: refusals 1 to 8.
pub fn read(s: &[u8], room: &mut Room) -> Result<(), u64> {
    let mut lines = Lines {
        s,
        at: 0,
        number: 1,
    };
    read_settings(&mut lines, room)?;
    read_nodes(&mut lines, room)?;
    read_facts(&mut lines, room)?;
    for child in 0..room.exchange.fan() {
        read_child(&mut lines, room, child)?;
    }
    let rows_fit = read_rows(&mut lines, room)?;
    let masks_fit = read_masks(&mut lines, room)?;
    if lines.at < s.len() {
        return lines.refuse(1);
    }
    let [target, _, _, batch, ..] = room.head;
    if target == 0 || target > MOST_TARGET || batch == 0 {
        return Err(refused(7, 0));
    }
    if rows_fit && masks_fit {
        Ok(())
    } else {
        Err(refused(8, 0))
    }
}

/// A limit's field, empty where there is none.
pub fn put_limit(sink: &mut impl Sink, limit: u64) {
    sink.byte(b',');
    if limit != ABSENT {
        sink.number(limit);
    }
}

/// The sheet as it was read.
pub struct Sheet<'a>(pub &'a Room);

impl Answer for Sheet<'_> {
    fn put(&self, sink: &mut impl Sink) {
        let x = &self.0.exchange;
        sink.numbers(b'D', self.0.head.iter().copied());
        for n in &x.nodes[..x.lines] {
            sink.byte(b'T');
            sink.fields([n.kind, n.count, n.keeps]);
            put_limit(sink, n.limit);
            sink.fields([n.order, n.tracked, n.need, n.children]);
            sink.byte(b'\n');
        }
        sink.numbers(b'B', x.facts.iter().copied());
        for c in &x.children[..x.fan()] {
            let first = [c.gains, c.maintains, c.rowkind, c.rows];
            let last = [c.grouping, c.splits, c.entries];
            sink.numbers(b'F', first.into_iter().chain(last));
        }
        for (child, form) in &x.sequence[..x.listed] {
            let r = &x.rows[*child as usize][*form as usize];
            let place = [*child as u64 + 1, *form as u64, r.count, r.layout];
            let held = [r.athash, r.exact, r.subset, r.met, r.aftermet, r.constant];
            let last = [r.ford, r.fplain, r.order];
            sink.numbers(b'X', place.into_iter().chain(held).chain(last));
        }
        sink.numbers(b'Y', x.masks[..1 << x.fan()].iter().copied());
    }
}
