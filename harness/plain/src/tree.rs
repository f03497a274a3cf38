//! D sheets: `ensure_distribution`.

use crate::exchange::{
    self, COALESCE, Child, Exchange, HASH_JOIN, INTERLEAVE, KEYED, KEYED_EXCHANGE, MERGE,
    MOST_CHILDREN, Node, OUTPUT_REQUIREMENT, PARTIAL_AGGREGATE, REPARTITION, ROUND_ROBIN, Row,
    SINGLE, SORT, SORT_MERGE_JOIN, UNION, UNKNOWN_REPARTITION, UNSPECIFIED, WINDOW, put_limit,
};
use crate::line::ABSENT;
use crate::write::{Answer, Sink, answered};
use crate::{Room, refused};

/// Bits of a form.
const SPLIT: usize = 1;
const RELATED: usize = 8;

struct Settings {
    target: u64,
    roundrobin: bool,
    split: bool,
    batch: u64,
    estimates: bool,
    subset: u64,
    files: u64,
    sort: bool,
    union: bool,
}

impl Settings {
    fn new(h: &[u64; 9]) -> Settings {
        Settings {
            target: h[0],
            roundrobin: h[1] == 1,
            split: h[2] == 1,
            batch: h[3],
            estimates: h[4] == 1,
            subset: h[5],
            files: h[6],
            sort: h[7] == 1,
            union: h[8] == 1,
        }
    }

    /// Whether so many rows gain from more partitions.
    fn rows_gain(&self, child: &Child) -> bool {
        match child.rowkind {
            0 => child.rows > self.batch,
            1 => !self.estimates || child.rows > self.batch,
            _ => true,
        }
    }
}

/// A merge or exchange that is put on a child.
#[derive(Clone, Copy)]
struct New {
    kind: u64,
    count: u64,
    keeps: u64,
    order: u64,
}

/// A child while its needs are met.
#[derive(Clone, Copy, Default)]
struct State {
    form: usize,
    /// What was put on it: by its own need, then by a relationship.
    top: Option<New>,
    related: Option<New>,
    /// The kept entries, count and limit of a sort for a required order.
    sort: Option<(u64, u64, u64)>,
    /// Whether its topmost operator is tracked.
    tracked: bool,
}

/// A sheet and what became of its children.
struct Tree<'a> {
    settings: Settings,
    x: &'a mut Exchange,
    states: [State; MOST_CHILDREN],
}

/// What is asked of a child, and whether some child must be hashed.
struct Asked {
    need: u64,
    hash_necessary: bool,
    allow_subset: bool,
    files_met: bool,
    add_roundrobin: bool,
}

/// `update_children`: new marks for the root's children.
fn update_children(nodes: &mut [Node]) {
    nodes[0].tracked = 0;
    let mut at = 1;
    for _ in 0..nodes[0].children {
        let end = nodes[at].end;
        nodes[at].tracked = tracks(nodes, at) as u64;
        at = end;
    }
}

fn tracks(nodes: &[Node], at: usize) -> bool {
    let node = &nodes[at];
    match node.kind {
        MERGE | COALESCE | REPARTITION => return true,
        UNKNOWN_REPARTITION => return false,
        _ if node.children == 0 => return true,
        _ => {}
    }
    let mut child = at + 1;
    (0..node.children).any(|i| {
        let c = &nodes[child];
        child = c.end;
        c.tracked == 1 && (i == 0 || c.need == 0)
    })
}

impl Tree<'_> {
    fn worked(&self) -> &Node {
        &self.x.nodes[self.x.worked]
    }

    fn node(&self, child: usize) -> &Node {
        &self.x.nodes[self.x.places[child]]
    }

    /// The row of the form that a child is in; refusal 9 where it is missing.
    fn row(&self, child: usize) -> Result<Row, u64> {
        let row = self.x.row(child, self.states[child].form);
        row.copied().ok_or(refused(9, 0))
    }

    /// Whether some keyed child has more than one partition or gains.
    fn hash_necessary(&self) -> bool {
        (0..self.x.fan()).any(|i| {
            let (node, child) = (self.node(i), &self.x.children[i]);
            let gains = child.gains == 1 && self.settings.rows_gain(child);
            node.need == KEYED && (node.count > 1 || gains)
        })
    }

    /// What a child is asked, by its count before it is split.
    fn asked(&self, i: usize, hash_necessary: bool) -> Asked {
        let (node, child, s) = (self.node(i), &self.x.children[i], &self.settings);
        let files_met = s.files > 0 && node.count >= s.files;
        let kind = self.worked().kind;
        let allow_subset = (node.count >= s.subset || files_met && node.count < s.target)
            && kind != HASH_JOIN
            && kind != SORT_MERGE_JOIN
            && !(node.need == KEYED && child.grouping == 1);
        let [_, _, aggexact, aggsubset] = self.x.facts;
        let answered = if allow_subset { aggsubset } else { aggexact } == 1;
        let kept = files_met && kind == PARTIAL_AGGREGATE && answered;
        Asked {
            need: node.need,
            hash_necessary,
            allow_subset,
            files_met,
            add_roundrobin: s.roundrobin
                && child.gains == 1
                && s.rows_gain(child)
                && node.count < s.target
                && !kept,
        }
    }

    /// Splits a child at its source, where that is asked for.
    fn split(&mut self, i: usize) -> Result<(), u64> {
        self.row(i)?;
        let child = &self.x.children[i];
        if self.settings.split && child.splits == 1 && self.settings.rows_gain(child) {
            self.states[i].form |= SPLIT;
            let row = self.row(i)?;
            let node = &mut self.x.nodes[self.x.places[i]];
            (node.count, node.order) = (row.count, row.order);
        }
        Ok(())
    }

    /// Puts a merge or exchange on a child: count and order are those of its own form.
    fn put_on(&mut self, i: usize, kind: u64, form: usize) -> Result<New, u64> {
        let under = self.row(i)?;
        self.states[i].form += form;
        self.states[i].tracked = true;
        let row = self.row(i)?;
        let keeps = kind >= KEYED_EXCHANGE && under.order != 0 && under.count > 1;
        Ok(New {
            kind,
            count: row.count,
            keeps: keeps as u64,
            order: row.order,
        })
    }

    fn needs_exchange(&self, i: usize, asked: &Asked, row: &Row) -> bool {
        let satisfied = if asked.allow_subset {
            row.subset
        } else {
            row.exact
        } == 1;
        let more = self.settings.target > row.count;
        let grouping = self.x.children[i].grouping == 1;
        let preserve = asked.files_met && !grouping && satisfied && more;
        let needs = !satisfied || (!asked.allow_subset && more && !preserve);
        asked.hash_necessary && needs
    }

    /// Meets a child's own need.
    fn meet(&mut self, i: usize, asked: &Asked) -> Result<(), u64> {
        let row = self.row(i)?;
        let kind = match asked.need {
            SINGLE if row.count > 1 => {
                if row.order != 0 {
                    MERGE
                } else {
                    COALESCE
                }
            }
            KEYED if self.needs_exchange(i, asked, &row) => KEYED_EXCHANGE,
            UNSPECIFIED if asked.add_roundrobin && row.count < self.settings.target => ROUND_ROBIN,
            _ => return Ok(()),
        };
        let form = match kind {
            KEYED_EXCHANGE => 4,
            ROUND_ROBIN => 6,
            _ => 2,
        };
        self.states[i].top = Some(self.put_on(i, kind, form)?);
        Ok(())
    }

    /// `enforce_distribution_relationships`: rounds of exchanges.
    fn relate(&mut self) -> Result<(), u64> {
        let mut related = 0usize;
        loop {
            let asked = self.x.masks[related];
            if asked == 0 {
                return Ok(());
            }
            let before = related;
            for i in (0..self.x.fan()).filter(|i| asked >> i & 1 == 1) {
                if before >> i & 1 == 1 || self.node(i).need != KEYED {
                    continue;
                }
                let row = self.row(i)?;
                if row.athash == 1 && row.exact == 1 {
                    continue;
                }
                self.states[i].related = Some(self.put_on(i, KEYED_EXCHANGE, RELATED)?);
                related |= 1 << i;
            }
            if related == before {
                return Err(refused(11, 0));
            }
        }
    }

    /// `replace_order_preserving_variants` on a child and on the tracked operators under it.
    fn replace(&mut self, i: usize) {
        let state = &mut self.states[i];
        for new in state.related.iter_mut().chain(&mut state.top) {
            match new.kind {
                MERGE => (new.kind, new.order) = (COALESCE, 0),
                _ if new.keeps == 1 => (new.keeps, new.order) = (0, 0),
                _ => {}
            }
        }
        let added = state.related.is_some() || state.top.is_some();
        let from = self.x.places[i];
        let end = self.x.nodes[from].end;
        let mut at = from;
        while at < end {
            let node = &mut self.x.nodes[at];
            if node.tracked == 0 && (at > from || added) {
                at = node.end;
                continue;
            }
            replace_one(node);
            at += 1;
        }
    }

    /// Order handling of one child.
    fn handle_order(&mut self, i: usize) -> Result<(), u64> {
        let (row, child, need) = (self.row(i)?, self.x.children[i], self.node(i).need);
        let kind = self.worked().kind;
        let streams = self.states[i].tracked
            && self.x.fan() == 1
            && child.maintains == 1
            && row.ford == 0
            && row.fplain == 1;
        if child.entries == 0 {
            let replaced = match need {
                UNSPECIFIED => child.maintains == 0 || kind == OUTPUT_REQUIREMENT,
                _ => child.maintains == 0 && !streams,
            };
            if replaced {
                self.replace(i);
            }
            return Ok(());
        }
        let desirable = self.x.facts[0] == 1 || self.settings.sort;
        if (row.met == 0 || !desirable) && !streams && self.states[i].tracked {
            self.replace(i);
            if row.met == 1 && row.aftermet == 0 {
                self.add_sort(i, &row);
            }
        }
        if self.states[i].sort.is_none() {
            self.untrack(i);
        }
        Ok(())
    }

    /// The count of a child's topmost operator.
    fn top_count(&self, i: usize) -> u64 {
        let state = &self.states[i];
        let new = state.related.or(state.top);
        new.map_or(self.node(i).count, |new| new.count)
    }

    fn add_sort(&mut self, i: usize, row: &Row) {
        let entries = (1u64 << self.x.children[i].entries) - 1;
        let kept = entries & !row.constant;
        let worked = self.worked();
        let limit = match worked.kind {
            OUTPUT_REQUIREMENT => worked.limit,
            _ => ABSENT,
        };
        if kept != 0 {
            self.states[i].sort = Some((kept, self.top_count(i).max(1), limit));
        }
    }

    /// Takes the mark off a child's topmost operator. A sort over a limited merge has none.
    fn untrack(&mut self, i: usize) {
        self.states[i].tracked = false;
        let state = &self.states[i];
        let place = self.x.places[i];
        if state.top.is_none() && state.related.is_none() && self.x.nodes[place].sorted.is_none() {
            self.x.nodes[place].tracked = 0;
        }
    }

    fn interleaves(&self) -> bool {
        let fan = self.x.fan();
        if self.worked().kind != UNION || self.settings.union || fan == 0 {
            return false;
        }
        let layout = |i: usize| self.row(i).map_or(0, |row| row.layout);
        layout(0) != 0 && (1..fan).all(|i| layout(i) == layout(0))
    }

    /// All steps on the worked node's children.
    fn ensure(&mut self) -> Result<(), u64> {
        let hash_necessary = self.hash_necessary();
        for i in 0..self.x.fan() {
            self.states[i].tracked = self.node(i).tracked == 1;
            let asked = self.asked(i, hash_necessary);
            self.split(i)?;
            self.meet(i, &asked)?;
        }
        self.relate()?;
        (0..self.x.fan()).try_for_each(|i| self.handle_order(i))
    }
}

fn replace_one(node: &mut Node) {
    match node.kind {
        MERGE => {
            if node.limit != ABSENT {
                node.sorted = Some((node.limit, node.order));
            }
            (node.kind, node.limit, node.order) = (COALESCE, ABSENT, 0);
        }
        REPARTITION | UNKNOWN_REPARTITION if node.keeps == 1 => (node.keeps, node.order) = (0, 0),
        _ => {}
    }
}

/// A t line.
struct Text {
    id: u64,
    kind: u64,
    count: u64,
    keeps: u64,
    limit: u64,
    order: u64,
    mask: u64,
    tracked: u64,
    children: u64,
}

impl Text {
    fn put(&self, sink: &mut impl Sink) {
        sink.byte(b't');
        sink.fields([self.id, self.kind, self.count, self.keeps]);
        put_limit(sink, self.limit);
        sink.fields([self.order, self.mask, self.tracked, self.children]);
        sink.byte(b'\n');
    }

    fn sort(count: u64, limit: u64, order: u64, mask: u64) -> Text {
        Text {
            id: 0,
            kind: SORT,
            count,
            keeps: 0,
            limit,
            order,
            mask,
            tracked: 0,
            children: 1,
        }
    }

    fn new(new: &New, tracked: bool) -> Text {
        Text {
            id: 0,
            kind: new.kind,
            count: new.count,
            keeps: new.keeps,
            limit: ABSENT,
            order: new.order,
            mask: 0,
            tracked: tracked as u64,
            children: 1,
        }
    }

    fn node(id: usize, node: &Node) -> Text {
        Text {
            id: id as u64,
            kind: node.kind,
            count: node.count,
            keeps: node.keeps,
            limit: node.limit,
            order: node.order,
            mask: 0,
            tracked: node.tracked,
            children: node.children,
        }
    }
}

struct Ensured<'a> {
    tree: Tree<'a>,
    interleave: bool,
}

impl Ensured<'_> {
    fn put_child(&self, sink: &mut impl Sink, i: usize) {
        let (x, state) = (&*self.tree.x, &self.tree.states[i]);
        let mut top = state.tracked;
        if let Some((mask, count, limit)) = state.sort {
            Text::sort(count, limit, 0, mask).put(sink);
        }
        for new in [&state.related, &state.top].into_iter().flatten() {
            Text::new(new, top).put(sink);
            top = true;
        }
        let from = x.places[i];
        for at in from..x.nodes[from].end {
            let node = &x.nodes[at];
            if let Some((limit, order)) = node.sorted {
                Text::sort(node.count, limit, order, 0).put(sink);
            }
            Text::node(at + 1, node).put(sink);
        }
    }
}

impl Answer for Ensured<'_> {
    fn put(&self, sink: &mut impl Sink) {
        let x = &*self.tree.x;
        let node = &x.nodes[x.worked];
        let window = node.kind == WINDOW && x.facts[1] == 1;
        let marks = [window as u64, self.interleave as u64, node.tracked];
        sink.numbers(b'd', [1].into_iter().chain(marks));
        let mut text = Text::node(x.worked + 1, node);
        if self.interleave {
            (text.kind, text.order) = (INTERLEAVE, 0);
        }
        text.put(sink);
        (0..x.fan()).for_each(|i| self.put_child(sink, i));
    }
}

/// A root without children.
struct Leaf<'a>(&'a Node);

impl Answer for Leaf<'_> {
    fn put(&self, sink: &mut impl Sink) {
        sink.numbers(b'd', [0; 4].into_iter());
        Text::node(1, self.0).put(sink);
    }
}

pub fn decide<const EXACT: bool>(s: &[u8], out: &mut [u8], room: &mut Room) -> u64 {
    if let Err(refusal) = exchange::read(s, room) {
        return refusal;
    }
    let settings = Settings::new(&room.head);
    let x = &mut room.exchange;
    update_children(&mut x.nodes[..x.lines]);
    if x.lines == 1 {
        return answered::<EXACT>(Leaf(&x.nodes[0]), out);
    }
    let mut tree = Tree {
        settings,
        x,
        states: [State::default(); MOST_CHILDREN],
    };
    if let Err(refusal) = tree.ensure() {
        return refusal;
    }
    let interleave = tree.interleaves();
    answered::<EXACT>(Ensured { tree, interleave }, out)
}
