//! The proved functions, behind safe ones that hand slices over.

/// An operator: the struct of crate `exchange`, field by field.
#[repr(C)]
#[derive(Clone, Copy, Debug, PartialEq, Eq)]
pub struct Node {
    pub id: u64,
    pub kind: u64,
    pub count: u64,
    pub keeps: u64,
    pub limited: u64,
    pub limit: u64,
    pub order: u64,
    pub mask: u64,
    pub tracked: u64,
    pub need: u64,
}

unsafe extern "C" {
    fn nodes_get(ns: *const Node, len: usize, i: usize) -> Node;
    fn nodes_put(ns: *mut Node, len: usize, i: usize, n: Node);
    fn nodes_track(ns: *mut Node, len: usize, i: usize, m: u64);
    fn nodes_track_new(ns: *mut Node, len: usize, i: usize);
    fn nodes_coalesce(ns: *mut Node, len: usize, i: usize);
    fn nodes_sort(ns: *mut Node, len: usize, i: usize);
    fn nodes_relax(ns: *mut Node, len: usize, i: usize);
    fn nodes_interleave(ns: *mut Node, len: usize, i: usize);
    fn nodes_split(ns: *mut Node, len: usize, i: usize, count: u64, order: u64);
}

/// A change of one node of a run.
#[derive(Clone, Copy, Debug)]
pub enum Change {
    Put(Node),
    Track(u64),
    TrackNew,
    Coalesce,
    Sort,
    Relax,
    Interleave,
    Split { count: u64, order: u64 },
}

pub fn get(ns: &[Node], i: usize) -> Node {
    unsafe { nodes_get(ns.as_ptr(), ns.len(), i) }
}

pub fn change(ns: &mut [Node], i: usize, change: Change) {
    let (start, len) = (ns.as_mut_ptr(), ns.len());
    unsafe {
        match change {
            Change::Put(n) => nodes_put(start, len, i, n),
            Change::Track(m) => nodes_track(start, len, i, m),
            Change::TrackNew => nodes_track_new(start, len, i),
            Change::Coalesce => nodes_coalesce(start, len, i),
            Change::Sort => nodes_sort(start, len, i),
            Change::Relax => nodes_relax(start, len, i),
            Change::Interleave => nodes_interleave(start, len, i),
            Change::Split { count, order } => nodes_split(start, len, i, count, order),
        }
    }
}
