//! Labels of a result: document 01's t lines.

use crate::build::Plan;
use crate::enforce_distribution::DistributionContext;
use crate::exchanges::Exchange;
use crate::output_requirements::OutputRequirementExec;
use standins::Partitioning;
use standins::coalesce_partitions::CoalescePartitionsExec;
use standins::repartition::RepartitionExec;
use standins::sorts::sort::SortExec;
use standins::sorts::sort_preserving_merge::SortPreservingMergeExec;
use standins::tree_node::Transformed;
use standins::union::InterleaveExec;
use std::fmt::Write;
use std::sync::Arc;

/// A t line.
struct Line {
    id: usize,
    kind: u64,
    count: u64,
    keeps: u64,
    limit: Option<usize>,
    order: u64,
    mask: u64,
    tracked: bool,
    children: usize,
}

fn limit(limit: Option<usize>) -> String {
    limit.map_or(String::new(), |n| n.to_string())
}

/// The T line that a plan was built from; 0 where a file made it.
fn id(plan: &Plan) -> usize {
    match plan.is::<OutputRequirementExec>() {
        true => 0,
        false => plan.node().id,
    }
}

struct Labels<'a> {
    exchange: &'a Exchange,
    lines: Vec<Line>,
}

impl Labels<'_> {
    /// Count and order of a T line; of the row of form 1 where the child was split.
    fn stated(&self, at: usize) -> (u64, u64) {
        let (exchange, tree) = (self.exchange, &self.exchange.trees[at]);
        let child = exchange
            .under(exchange.worked)
            .iter()
            .position(|t| *t == at);
        let split = child.filter(|i| exchange.facts.passed[*i].borrow().contains(&1));
        match split {
            Some(i) => {
                let row = exchange.facts.row(i, 1);
                (row.count as u64, row.order)
            }
            None => (tree.count, tree.order),
        }
    }

    /// The line of an operator of the sheet, as it is or as the variant that took its place.
    fn kept(&mut self, context: &DistributionContext, at: usize) {
        let tree = &self.exchange.trees[at];
        let (count, order) = self.stated(at);
        let changed = id(&context.plan) == 0;
        let (kind, keeps) = match context.plan.downcast_ref::<RepartitionExec>() {
            Some(r) if matches!(r.partitioning(), Partitioning::UnknownPartitioning(_)) => {
                (4, r.preserve_order() as u64)
            }
            Some(r) => (3, r.preserve_order() as u64),
            None if context.plan.is::<CoalescePartitionsExec>() => (2, tree.keeps),
            None => (tree.kind, tree.keeps),
        };
        self.lines.push(Line {
            id: at + 1,
            kind,
            count,
            keeps,
            limit: context.plan.fetch(),
            order: if changed { 0 } else { order },
            mask: 0,
            tracked: context.data,
            children: context.children.len(),
        });
    }

    /// The line of a merge or exchange that a file put on a child, by the row of its form.
    fn added(&mut self, context: &DistributionContext, child: usize, form: usize) {
        let row = self.exchange.facts.row(child, form);
        let plan = &context.plan;
        let (kind, keeps) = match plan.downcast_ref::<RepartitionExec>() {
            Some(r) if matches!(r.partitioning(), Partitioning::Hash(..)) => {
                (12, r.preserve_order())
            }
            Some(r) => (13, r.preserve_order()),
            None if plan.is::<SortPreservingMergeExec>() => (1, false),
            None => (2, false),
        };
        let changed = plan.node().place().is_some_and(|place| place.changed);
        self.lines.push(Line {
            id: 0,
            kind,
            count: row.count as u64,
            keeps: keeps as u64,
            limit: plan.fetch(),
            order: if changed { 0 } else { row.order },
            mask: 0,
            tracked: context.data,
            children: context.children.len(),
        });
    }

    fn sort(&mut self, context: &DistributionContext) {
        let sort = context.plan.downcast_ref::<SortExec>().unwrap();
        self.lines.push(Line {
            id: 0,
            kind: 11,
            count: 0,
            keeps: 0,
            limit: context.plan.fetch(),
            order: sort.expr().number,
            mask: sort.expr().mask(),
            tracked: context.data,
            children: context.children.len(),
        });
    }

    /// Labels what stands where T line `at` stood: what a file made, down to the first operator of the sheet, and what is under it.
    /// `forms` are those of the merges and exchanges put on the child, the topmost first.
    fn chain(&mut self, context: &DistributionContext, at: usize, child: usize, forms: &[usize]) {
        let mut made = vec![];
        let mut next = context;
        while id(&next.plan) == 0 {
            made.push(next);
            next = &next.children[0];
        }
        let first = id(&next.plan) - 1;
        let sorts = made.iter().filter(|c| c.plan.is::<SortExec>()).count();
        let new = made.len() - sorts - (first - at);
        assert_eq!(new, forms.len(), "merges and exchanges, and forms passed");
        let from = self.lines.len();
        let mut taken = 0;
        for context in made {
            if context.plan.is::<SortExec>() {
                self.sort(context);
            } else if taken < new {
                self.added(context, child, forms[taken]);
                taken += 1;
            } else {
                self.kept(context, at + taken - new);
                taken += 1;
            }
        }
        self.kept(next, first);
        self.count_sorts(from);
        for (context, at) in next.children.iter().zip(self.exchange.under(first)) {
            self.chain(context, at, child, &[]);
        }
    }

    /// A sort has the count under it, at least 1 where it is for a required order.
    fn count_sorts(&mut self, from: usize) {
        for i in (from..self.lines.len() - 1).rev() {
            if self.lines[i].id == 0 && self.lines[i].kind == 11 {
                let least = (self.lines[i].mask != 0) as u64;
                self.lines[i].count = self.lines[i + 1].count.max(least);
            }
        }
    }
}

/// Whether a context and its plan have the same children.
fn agree(context: &DistributionContext) -> bool {
    let plans = context.plan.children();
    plans.len() == context.children.len()
        && plans
            .iter()
            .zip(&context.children)
            .all(|(p, c)| Arc::ptr_eq(p, &c.plan))
        && context.children.iter().all(agree)
}

pub fn written(exchange: &Exchange, ensured: &Transformed<DistributionContext>) -> String {
    let context = &ensured.data;
    assert!(agree(context), "a plan's children are not its context's");
    let mut labels = Labels {
        exchange,
        lines: vec![],
    };
    let interleave = context.plan.is::<InterleaveExec>();
    let output = context.plan.is::<OutputRequirementExec>();
    let window = !output && context.plan.node().better;
    labels.kept(context, exchange.worked);
    let worked = &exchange.trees[exchange.worked];
    let line = &mut labels.lines[0];
    line.order = worked.order;
    if interleave {
        (line.kind, line.order) = (14, 0);
        line.limit = worked.limit.map(|limit| limit as usize);
    }
    let under = exchange.under(exchange.worked);
    for (child, context) in context.children.iter().enumerate() {
        let passed = exchange.facts.passed[child].borrow();
        let mut forms: Vec<usize> = passed.iter().copied().filter(|form| *form > 1).collect();
        forms.reverse();
        labels.chain(context, under[child], child, &forms);
    }
    let marks = [ensured.transformed, window, interleave, context.data].map(|m| m as u64);
    let [changed, window, interleave, tracked] = marks;
    let mut text = format!("d,{changed},{window},{interleave},{tracked}\n");
    for l in labels.lines {
        let fields = [l.id as u64, l.kind, l.count, l.keeps].map(|f| f.to_string());
        let limit = limit(l.limit);
        let last = [l.order, l.mask, l.tracked as u64, l.children as u64].map(|f| f.to_string());
        writeln!(text, "t,{},{limit},{}", fields.join(","), last.join(",")).unwrap();
    }
    text
}
