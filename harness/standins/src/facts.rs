//! The facts of a D sheet, and where a plan stands among them.

use crate::stats::Precision;
use crate::{ExecutionPlan, execution_plan::EmissionType};
use std::cell::{Cell, RefCell};
use std::sync::Arc;

/// An F line's facts that are asked of the child.
#[derive(Debug)]
pub struct Child {
    pub rows: Precision<usize>,
    pub splits: bool,
}

/// An X row.
#[derive(Clone, Copy, Debug, Default)]
pub struct Row {
    pub count: usize,
    pub layout: u64,
    pub athash: bool,
    pub exact: bool,
    pub subset: bool,
    pub met: bool,
    pub aftermet: bool,
    pub constant: u64,
    pub ford: bool,
    pub fplain: bool,
    pub order: u64,
}

/// The steps of `ensure_distribution` that make operators, as far as a stand-in can tell them apart.
#[derive(Clone, Copy, Debug, PartialEq, Eq)]
pub enum Phase {
    /// Each child's own need, until relationships are asked for.
    Needs,
    /// Relationships, until no child is unsatisfied.
    Relationships,
    /// What comes after them.
    Orders,
}

#[derive(Debug)]
pub struct Facts {
    pub target: usize,
    pub children: Vec<Child>,
    /// Rows by child and form.
    pub rows: Vec<[Option<Row>; 16]>,
    pub masks: Vec<u64>,
    pub phase: Cell<Phase>,
    /// The forms that each child passed through, the last one last.
    pub passed: Vec<RefCell<Vec<usize>>>,
    /// A row was needed that isn't on the sheet.
    pub missing: Cell<bool>,
}

impl Facts {
    pub fn row(&self, child: usize, form: usize) -> Row {
        let row = self.rows[child].get(form).copied().flatten();
        if row.is_none() {
            self.missing.set(true);
        }
        row.unwrap_or_default()
    }

    pub fn last(&self, child: usize) -> usize {
        *self.passed[child].borrow().last().unwrap()
    }

    fn pass(&self, child: usize, form: usize) {
        self.row(child, form);
        self.passed[child].borrow_mut().push(form);
    }
}

/// A child of the worked node, or an operator under it, as a plan carries it.
#[derive(Clone, Debug)]
pub struct Place {
    pub facts: Arc<Facts>,
    /// The number of the child from 0.
    pub index: usize,
    pub form: usize,
    /// Went through `replace_order_preserving_variants`.
    pub after: bool,
    /// Was made after the relationships: a variant that took another's place, or the coalesce that tries an unordered child.
    pub changed: bool,
    coalesced: bool,
}

impl Place {
    pub fn new(facts: &Arc<Facts>, index: usize) -> Place {
        Place {
            facts: Arc::clone(facts),
            index,
            form: 0,
            after: false,
            changed: false,
            coalesced: false,
        }
    }

    pub fn of(plan: &dyn ExecutionPlan) -> Place {
        let place = plan.properties().equivalence_properties().place.clone();
        place.expect("a child of the worked node")
    }

    pub fn child(&self) -> &Child {
        &self.facts.children[self.index]
    }

    pub fn row(&self) -> Row {
        self.facts.row(self.index, self.form)
    }

    /// The place of what is made on top of this one; `added` is what a form gains by it before relationships.
    pub fn under(&self, added: usize, coalesced: bool) -> Place {
        let mut new = self.clone();
        let added = match self.facts.phase.get() {
            Phase::Needs => added,
            Phase::Relationships => 8,
            Phase::Orders => {
                new.form = self.facts.last(self.index);
                (new.after, new.changed, new.coalesced) = (true, true, coalesced);
                return new;
            }
        };
        new.form += added;
        self.facts.pass(new.index, new.form);
        new
    }

    pub fn split(&self) -> Place {
        let mut new = self.clone();
        new.form += 1;
        self.facts.pass(new.index, new.form);
        new
    }

    /// What the worked node emits over this child, once orders are handled.
    pub fn emission(&self) -> Option<EmissionType> {
        if self.facts.phase.get() != Phase::Orders {
            return None;
        }
        let row = self.facts.row(self.index, self.facts.last(self.index));
        let blocks = if self.coalesced { row.fplain } else { row.ford };
        Some(match blocks {
            true => EmissionType::Final,
            false => EmissionType::Incremental,
        })
    }
}
