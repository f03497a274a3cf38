//! D sheets: `ensure_distribution`, on plans built from the sheet.

use crate::build::{Plan, hash_join, sort_merge_join};
use crate::enforce_distribution::{DistributionContext, ensure_distribution};
use crate::label;
use crate::output_requirements::OutputRequirementExec;
use crate::sheet::Sheet;
use standins::aggregates::{AggregateExec, AggregateMode, PhysicalGroupBy};
use standins::coalesce_partitions::CoalescePartitionsExec;
use standins::config::ConfigOptions;
use standins::execution_plan::{Boundedness, EmissionType};
use standins::expressions::Column;
use standins::facts::{Child, Facts, Phase, Place, Row};
use standins::logical_plan::Aggregate;
use standins::repartition::RepartitionExec;
use standins::sorts::sort::SortExec;
use standins::sorts::sort_preserving_merge::SortPreservingMergeExec;
use standins::stats::Precision;
use standins::tree_node::Transformed;
use standins::union::UnionExec;
use standins::windows::{BoundedWindowAggExec, WindowAggExec};
use standins::{
    Distribution, EquivalenceProperties, LexOrdering, Node, Operator, OrderingRequirements,
    Partitioning, PhysicalExprRef, PlanProperties, Result,
};
use std::cell::{Cell, RefCell};
use std::num::NonZeroUsize;
use std::sync::Arc;

/// A T line.
pub struct Tree {
    pub kind: u64,
    pub count: u64,
    pub keeps: u64,
    pub limit: Option<u64>,
    pub order: u64,
    tracked: bool,
    need: u64,
    pub children: u64,
    /// The place after the last line under it.
    pub end: usize,
}

/// A D sheet: T lines, the worked node's place, F lines, B's fields and the facts that plans carry.
pub struct Exchange {
    pub trees: Vec<Tree>,
    pub worked: usize,
    children: Vec<Vec<u64>>,
    marks: Vec<u64>,
    pub facts: Arc<Facts>,
}

fn trees(sheet: &Sheet) -> Vec<Tree> {
    let tree = |line: &crate::sheet::Line| {
        let f = line.numbers();
        Tree {
            kind: f[0],
            count: f[1],
            keeps: f[2],
            limit: line.fields[3],
            order: f[4],
            tracked: f[5] == 1,
            need: f[6],
            children: f[7],
            end: 0,
        }
    };
    let mut trees: Vec<Tree> = sheet.lines(b'T').map(tree).collect();
    for i in (0..trees.len()).rev() {
        trees[i].end = (0..trees[i].children).fold(i + 1, |end, _| trees[end].end);
    }
    trees
}

fn row(f: &[u64]) -> Row {
    Row {
        count: f[2] as usize,
        layout: f[3],
        athash: f[4] == 1,
        exact: f[5] == 1,
        subset: f[6] == 1,
        met: f[7] == 1,
        aftermet: f[8] == 1,
        constant: f[9],
        ford: f[10] == 1,
        fplain: f[11] == 1,
        order: f[12],
    }
}

fn facts(sheet: &Sheet, target: usize) -> Facts {
    let children: Vec<Child> = (sheet.lines(b'F').map(|line| line.numbers()))
        .map(|f| Child {
            rows: match f[2] {
                0 => Precision::Exact(f[3] as usize),
                1 => Precision::Inexact(f[3] as usize),
                _ => Precision::Absent,
            },
            splits: f[5] == 1,
        })
        .collect();
    let mut rows = vec![[None; 16]; children.len()];
    for f in sheet.lines(b'X').map(|line| line.numbers()) {
        rows[f[0] as usize - 1][f[1] as usize] = Some(row(&f));
    }
    Facts {
        target,
        passed: children.iter().map(|_| RefCell::new(vec![0])).collect(),
        missing: Cell::new(rows.iter().any(|forms| forms[0].is_none())),
        children,
        rows,
        masks: sheet.line(b'Y').numbers(),
        phase: Cell::new(Phase::Needs),
    }
}

fn settings(d: &[u64]) -> ConfigOptions {
    let mut config = ConfigOptions::default();
    config.execution.target_partitions = d[0] as usize;
    config.execution.batch_size = NonZeroUsize::new(d[3] as usize).unwrap();
    config
        .execution
        .use_row_number_estimates_to_optimize_partitioning = d[4] == 1;
    let optimizer = &mut config.optimizer;
    optimizer.enable_round_robin_repartition = d[1] == 1;
    optimizer.repartition_file_scans = d[2] == 1;
    optimizer.subset_repartition_threshold = d[5] as usize;
    optimizer.preserve_file_partitions = d[6] as usize;
    optimizer.prefer_existing_sort = d[7] == 1;
    optimizer.prefer_existing_union = d[8] == 1;
    config
}

impl Exchange {
    fn read(sheet: &Sheet, target: usize) -> Exchange {
        let trees = trees(sheet);
        let taken_off = |tree: &Tree| tree.limit.is_none() && (1..=4).contains(&tree.kind);
        Exchange {
            worked: trees.iter().position(|tree| !taken_off(tree)).unwrap(),
            trees,
            children: sheet.lines(b'F').map(|line| line.numbers()).collect(),
            marks: sheet.line(b'B').numbers(),
            facts: Arc::new(facts(sheet, target)),
        }
    }

    /// The T lines of an operator's children.
    pub fn under(&self, at: usize) -> Vec<usize> {
        let mut next = at + 1;
        let child = |_| {
            let end = self.trees[next].end;
            std::mem::replace(&mut next, end)
        };
        (0..self.trees[at].children).map(child).collect()
    }

    /// What the worked node's boundedness and emission must be for `friendly`; each way that there is, by the root's order.
    fn pipeline(&self) -> (EmissionType, Boundedness) {
        match (self.marks[0], self.trees[0].order % 2) {
            (1, 0) => (EmissionType::Incremental, Boundedness::Unbounded),
            (1, _) => (EmissionType::Both, Boundedness::Unbounded),
            (_, 0) => (EmissionType::Incremental, Boundedness::Bounded),
            _ => (EmissionType::Final, Boundedness::Unbounded),
        }
    }

    #[expect(deprecated)]
    fn need(&self, at: usize, grouping: bool) -> Distribution {
        let mut keys = vec![Arc::new(Column::new("key", at)) as PhysicalExprRef];
        if grouping {
            keys.push(Arc::new(Column::new(Aggregate::INTERNAL_GROUPING_ID, 0)));
        }
        match self.trees[at].need {
            0 => Distribution::UnspecifiedDistribution,
            1 => Distribution::SinglePartition,
            _ if at.is_multiple_of(2) => Distribution::HashPartitioned(keys),
            _ => Distribution::KeyPartitioned(keys),
        }
    }

    fn properties(&self, at: usize, place: Option<Place>) -> PlanProperties {
        let tree = &self.trees[at];
        let child = place.as_ref().map(|place| place.index);
        let top = child.filter(|i| self.under(self.worked)[*i] == at);
        let stated = top.and_then(|i| self.facts.rows[i][0]);
        let partitioning = match stated {
            Some(row) => Partitioning::of(&row, self.facts.target),
            None => Partitioning::UnknownPartitioning(tree.count as usize),
        };
        let equivalences = EquivalenceProperties {
            place,
            aggregate: [self.marks[2] == 1, self.marks[3] == 1],
            order: (tree.order != 0).then(|| LexOrdering::numbered(tree.order)),
            ..Default::default()
        };
        let (emission, boundedness) = self.pipeline();
        PlanProperties::new(equivalences, partitioning, emission, boundedness)
    }

    fn node(&self, at: usize, children: Vec<Plan>, place: Option<Place>) -> Node {
        let mut node = Node::new(children, self.properties(at, place));
        node.id = at + 1;
        node.fetch = self.trees[at].limit.map(|limit| limit as usize);
        let worked = at == self.worked;
        let grouping = |i: usize| worked && self.children[i][4] == 1;
        let under = self.under(at).into_iter().enumerate();
        node.needs = under
            .map(|(i, child)| self.need(child, grouping(i)))
            .collect();
        if worked {
            node.gains = self.children.iter().map(|f| f[0] == 1).collect();
            node.maintains = self.children.iter().map(|f| f[1] == 1).collect();
            let order = |f: &Vec<u64>| OrderingRequirements::entries(f[6] as usize);
            node.orders = self.children.iter().map(order).collect();
            node.window = self.marks[1] == 1;
        }
        node
    }

    fn plan(&self, at: usize, node: Node) -> Plan {
        let tree = &self.trees[at];
        let expr = LexOrdering::numbered(0);
        let inputs = || [Arc::clone(&node.children[0]), Arc::clone(&node.children[1])];
        match tree.kind {
            0 if tree.children == 2 && at.is_multiple_of(2) => {
                hash_join(vec![], 1, 0, inputs(), node)
            }
            1 => Arc::new(SortPreservingMergeExec { node, expr }),
            2 => Arc::new(CoalescePartitionsExec { node }),
            3 | 4 => repartition(tree, at, node),
            5 => hash_join(vec![], 0, 0, inputs(), node),
            6 => sort_merge_join(vec![], &[], inputs(), node),
            7 if at.is_multiple_of(2) => Arc::new(WindowAggExec {
                node,
                empty: vec![],
            }),
            7 => Arc::new(BoundedWindowAggExec {
                node,
                observer: None,
            }),
            8 => self.partial_aggregate(tree, node),
            9 => Arc::new(UnionExec { node }),
            10 if at == self.worked => output_requirement(node),
            11 => Arc::new(SortExec { node, expr }),
            _ => Arc::new(Operator { node }),
        }
    }

    /// A Partial aggregate. Where it satisfies nothing it may also have no group, or a grouping set, by its order.
    fn partial_aggregate(&self, tree: &Tree, node: Node) -> Plan {
        let expr = Arc::new(Column::new("group", 0)) as PhysicalExprRef;
        let mut group = PhysicalGroupBy::new_single(vec![(expr, "group".to_owned())]);
        let satisfies = self.marks[2] + self.marks[3] > 0;
        match tree.order % 3 {
            1 if !satisfies => group.expr.clear(),
            2 if !satisfies => group.grouping_set = true,
            _ => {}
        }
        Arc::new(AggregateExec {
            node,
            mode: AggregateMode::Partial,
            group,
            aggregates: vec![],
            input_schema: Arc::default(),
        })
    }

    /// The plan of a T line and of those under it.
    fn context(&self, at: usize, child: Option<usize>) -> DistributionContext {
        let index = |i| if at == self.worked { Some(i) } else { child };
        let under = self.under(at).into_iter().enumerate();
        let children: Vec<DistributionContext> = under
            .map(|(i, next)| self.context(next, index(i)))
            .collect();
        let plans = children.iter().map(|c| Arc::clone(&c.plan)).collect();
        let place = child.map(|i| Place::new(&self.facts, i));
        let plan = self.plan(at, self.node(at, plans, place));
        DistributionContext::new(plan, self.trees[at].tracked, children)
    }
}

fn repartition(tree: &Tree, at: usize, node: Node) -> Plan {
    let count = tree.count as usize;
    let partitioning = match tree.kind {
        4 => Partitioning::UnknownPartitioning(count),
        _ if at.is_multiple_of(2) => Partitioning::RoundRobinBatch(count),
        _ => Partitioning::hash(vec![]),
    };
    Arc::new(RepartitionExec {
        node,
        partitioning,
        preserve_order: tree.keeps == 1,
    })
}

/// 002's own operator.
fn output_requirement(mut node: Node) -> Plan {
    let (input, fetch) = (node.children.remove(0), node.fetch);
    let (order, need) = (node.orders.remove(0), node.needs.remove(0));
    Arc::new(OutputRequirementExec::new(input, order, need, fetch))
}

/// A sheet's plans after `ensure_distribution`, and what that returned.
fn ensured(sheet: &Sheet) -> (Exchange, Result<Transformed<DistributionContext>>) {
    let d = sheet.line(b'D').numbers();
    let exchange = Exchange::read(sheet, d[0] as usize);
    let context = exchange.context(0, None);
    let ensured = ensure_distribution(context, &settings(&d));
    (exchange, ensured)
}

pub fn decide(sheet: &Sheet) -> Result<String, u64> {
    let (exchange, ensured) = ensured(sheet);
    let leaf = exchange.trees.len() == 1;
    if exchange.facts.missing.get() && !leaf {
        return Err(9);
    }
    let ensured = ensured.map_err(|_| 11u64)?;
    Ok(label::written(&exchange, &ensured))
}

pub fn forms(sheet: &Sheet) -> Vec<Vec<usize>> {
    let (exchange, _) = ensured(sheet);
    let passed = exchange.facts.passed.iter();
    passed.map(|forms| forms.borrow().clone()).collect()
}
