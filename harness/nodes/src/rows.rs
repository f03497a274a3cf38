//! The same changes of a row of numbers, in plain Rust.

use crate::proved::{Change, Node};

/// The fields of a node in their order.
pub type Row = [u64; 10];

const ID: usize = 0;
const KIND: usize = 1;
const COUNT: usize = 2;
const KEEPS: usize = 3;
const LIMITED: usize = 4;
const LIMIT: usize = 5;
const ORDER: usize = 6;
const MASK: usize = 7;
const TRACKED: usize = 8;
const NEED: usize = 9;

const COALESCE: u64 = 2;
const SORT: u64 = 11;
const INTERLEAVE: u64 = 14;
const EXCHANGES: [u64; 4] = [3, 4, 12, 13];

pub fn row_of(n: &Node) -> Row {
    [
        n.id, n.kind, n.count, n.keeps, n.limited, n.limit, n.order, n.mask, n.tracked, n.need,
    ]
}

pub fn node_of(r: &Row) -> Node {
    Node {
        id: r[ID],
        kind: r[KIND],
        count: r[COUNT],
        keeps: r[KEEPS],
        limited: r[LIMITED],
        limit: r[LIMIT],
        order: r[ORDER],
        mask: r[MASK],
        tracked: r[TRACKED],
        need: r[NEED],
    }
}

/// A limit has mark 1; where there is none its number is 0.
fn settle(r: &mut Row) {
    match r[LIMITED] {
        0 => r[LIMIT] = 0,
        _ => r[LIMITED] = 1,
    }
}

fn operator_changed(r: &mut Row, change: Change) {
    settle(r);
    match change {
        Change::Put(n) => *r = row_of(&n),
        Change::Track(m) => r[TRACKED] = m,
        Change::TrackNew => r[TRACKED] = 1,
        Change::Coalesce => {
            r[KIND] = COALESCE;
            r[ORDER] = 0;
            r[LIMITED] = 0;
            r[LIMIT] = 0;
        }
        Change::Sort => {
            r[KIND] = SORT;
            for field in [ID, KEEPS, MASK, TRACKED] {
                r[field] = 0;
            }
        }
        Change::Relax if EXCHANGES.contains(&r[KIND]) && r[KEEPS] == 1 => {
            r[KEEPS] = 0;
            r[ORDER] = 0;
        }
        Change::Relax => {}
        Change::Interleave => {
            r[KIND] = INTERLEAVE;
            r[ORDER] = 0;
        }
        Change::Split { count, order } => {
            r[COUNT] = count;
            r[ORDER] = order;
        }
    }
}

pub fn change(rows: &mut [Row], i: usize, change: Change) {
    if let Some(r) = rows.get_mut(i) {
        operator_changed(r, change);
    }
}
