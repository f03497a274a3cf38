//! The operators that the files name, and one for all others.

use crate::compute::SortOptions;
use crate::expressions::Column;
use crate::facts::Place;
use crate::logical_plan::JoinType;
use crate::plan::{Node, Schema};
use crate::{ExecutionPlan, LexOrdering, Partitioning, PhysicalExprRef, Result};
use std::sync::Arc;

macro_rules! operators {
    ($($name:ident { $($field:ident: $type:ty),* })*) => {
        $(#[derive(Clone, Debug)]
        pub struct $name {
            pub node: Node,
            $(pub $field: $type,)*
        }

        impl ExecutionPlan for $name {
            fn name(&self) -> &str {
                stringify!($name)
            }

            fn node(&self) -> &Node {
                &self.node
            }

            fn with_node(&self, node: Node) -> Arc<dyn ExecutionPlan> {
                let mut new = self.clone();
                new.node = node;
                Arc::new(new)
            }
        })*
    };
}

type Plan = Arc<dyn ExecutionPlan>;
type Pairs = Vec<(PhysicalExprRef, PhysicalExprRef)>;

operators! {
    Operator {}
    GlobalLimitExec {}
    LocalLimitExec {}
    ScalarSubqueryExec {}
    UnionExec {}
    InterleaveExec {}
    CoalescePartitionsExec {}
    WindowAggExec { empty: Vec<()> }
    BoundedWindowAggExec { observer: Option<()> }
    CrossJoinExec { left: Plan }
    RepartitionExec { partitioning: Partitioning, preserve_order: bool }
    SortPreservingMergeExec { expr: LexOrdering }
    SortExec { expr: LexOrdering }
    ProjectionExec { expr: Vec<ProjectionExpr> }
    AggregateExec {
        mode: AggregateMode,
        group: PhysicalGroupBy,
        aggregates: Vec<String>,
        input_schema: Arc<Schema>
    }
    HashJoinExec {
        left: Plan,
        right: Plan,
        on: Pairs,
        join_type: JoinType,
        mode: PartitionMode
    }
    SortMergeJoinExec {
        left: Plan,
        right: Plan,
        on: Pairs,
        filter: Option<()>,
        join_type: JoinType,
        sort_options: Vec<SortOptions>,
        null_equality: NullEquality
    }
}

#[derive(Clone, Copy, Debug, PartialEq, Eq)]
pub enum PartitionMode {
    Partitioned,
    CollectLeft,
    Auto,
}

#[derive(Clone, Copy, Debug)]
pub struct NullEquality;

pub struct HashJoinExecBuilder(HashJoinExec);

impl HashJoinExec {
    pub fn builder(&self) -> HashJoinExecBuilder {
        HashJoinExecBuilder(self.clone())
    }
}

impl HashJoinExecBuilder {
    pub fn with_partition_mode(mut self, mode: PartitionMode) -> Self {
        self.0.mode = mode;
        self
    }

    pub fn with_on(mut self, on: Pairs) -> Self {
        self.0.on = on;
        self
    }

    pub fn build_exec(self) -> Result<Plan> {
        Ok(Arc::new(self.0))
    }
}

impl SortMergeJoinExec {
    pub fn try_new(
        left: Plan,
        right: Plan,
        on: Pairs,
        filter: Option<()>,
        join_type: JoinType,
        sort_options: Vec<SortOptions>,
        null_equality: NullEquality,
    ) -> Result<Self> {
        let children = vec![Arc::clone(&left), Arc::clone(&right)];
        Ok(SortMergeJoinExec {
            node: Node::bare(children, Default::default()),
            left,
            right,
            on,
            filter,
            join_type,
            sort_options,
            null_equality,
        })
    }
}

#[derive(Clone, Copy, Debug, PartialEq, Eq)]
pub enum AggregateMode {
    Partial,
    Final,
    FinalPartitioned,
}

type Groups = Vec<(PhysicalExprRef, String)>;

/// The groups of an aggregate, by expression and name.
#[derive(Clone, Debug)]
pub struct PhysicalGroupBy {
    pub expr: Groups,
    pub null_expr: Groups,
    pub grouping_set: bool,
}

impl PhysicalGroupBy {
    pub fn new_single(expr: Groups) -> Self {
        PhysicalGroupBy {
            expr,
            null_expr: vec![],
            grouping_set: false,
        }
    }

    pub fn expr(&self) -> &[(PhysicalExprRef, String)] {
        &self.expr
    }

    pub fn null_expr(&self) -> &[(PhysicalExprRef, String)] {
        &self.null_expr
    }

    pub fn is_empty(&self) -> bool {
        self.expr.is_empty()
    }

    pub fn has_grouping_set(&self) -> bool {
        self.grouping_set
    }
}

impl AggregateExec {
    /// Its columns are named by its groups, then by its aggregates.
    pub fn try_new(
        mode: AggregateMode,
        group: PhysicalGroupBy,
        aggregates: Vec<String>,
        _filters: Vec<()>,
        input: Plan,
        input_schema: Arc<Schema>,
    ) -> Result<Self> {
        let names = group.expr.iter().map(|(_, name)| name);
        let schema = Schema::new(names.chain(&aggregates).cloned());
        let node = Node::bare(vec![input], Default::default());
        Ok(AggregateExec {
            node: Node { schema, ..node },
            mode,
            group,
            aggregates,
            input_schema,
        })
    }

    pub fn mode(&self) -> &AggregateMode {
        &self.mode
    }

    pub fn group_expr(&self) -> &PhysicalGroupBy {
        &self.group
    }

    pub fn aggr_expr(&self) -> &[String] {
        &self.aggregates
    }

    pub fn filter_expr(&self) -> &[()] {
        &[]
    }

    pub fn input(&self) -> &Plan {
        &self.node.children[0]
    }

    pub fn input_schema(&self) -> Arc<Schema> {
        Arc::clone(&self.input_schema)
    }

    pub fn output_group_expr(&self) -> Vec<PhysicalExprRef> {
        let groups = self.group.expr.iter().enumerate();
        groups
            .map(|(i, (_, name))| Arc::new(Column::new(name, i)) as _)
            .collect()
    }
}

#[derive(Clone, Debug)]
pub struct ProjectionExpr {
    pub expr: PhysicalExprRef,
    pub alias: String,
}

impl ProjectionExec {
    pub fn try_new(expr: Vec<ProjectionExpr>, input: Plan) -> Result<Self> {
        let node = Node::bare(vec![input], Default::default());
        Ok(ProjectionExec { node, expr })
    }

    pub fn expr(&self) -> &[ProjectionExpr] {
        &self.expr
    }

    pub fn input(&self) -> &Plan {
        &self.node.children[0]
    }
}

/// What a form gains by a merge, a keyed exchange and a round robin.
const MERGED: usize = 2;
const KEYED: usize = 4;
const DEALT: usize = 6;

impl CoalescePartitionsExec {
    pub fn new(input: Plan) -> Self {
        let node = Node::on(input, MERGED, true);
        CoalescePartitionsExec { node }
    }
}

impl SortPreservingMergeExec {
    pub fn new(expr: LexOrdering, input: Plan) -> Self {
        let node = Node::on(input, MERGED, false);
        SortPreservingMergeExec { node, expr }
    }

    pub fn with_fetch(mut self, fetch: Option<usize>) -> Self {
        self.node.fetch = fetch;
        self
    }

    /// The order of its T line, or of its row where it was split; the one that a file gave it where a file made it.
    pub fn expr(&self) -> &LexOrdering {
        let stated = self.node.properties.equivalence_properties().order.as_ref();
        match self.node.id {
            0 => &self.expr,
            _ => stated.unwrap_or(&self.expr),
        }
    }
}

impl SortExec {
    pub fn new(expr: LexOrdering, input: Plan) -> Self {
        let node = Node::on(input, 0, false);
        SortExec { node, expr }
    }

    pub fn with_fetch(mut self, fetch: Option<usize>) -> Self {
        self.node.fetch = fetch;
        self
    }

    pub fn with_preserve_partitioning(self, _: bool) -> Self {
        self
    }

    pub fn expr(&self) -> &LexOrdering {
        &self.expr
    }
}

impl RepartitionExec {
    pub fn try_new(input: Plan, partitioning: Partitioning) -> Result<Self> {
        let added = match partitioning {
            Partitioning::RoundRobinBatch(_) => DEALT,
            _ => KEYED,
        };
        Ok(RepartitionExec {
            node: Node::on(input, added, false),
            partitioning,
            preserve_order: false,
        })
    }

    pub fn partitioning(&self) -> &Partitioning {
        &self.partitioning
    }

    pub fn preserve_order(&self) -> bool {
        self.preserve_order
    }

    /// Keeps order if what it stands on has an order and more than one partition.
    pub fn with_preserve_order(mut self) -> Self {
        let input = self.node.children[0].properties();
        self.preserve_order = input.equivalence_properties().order.is_some()
            && input.partitioning.partition_count() > 1;
        self
    }
}

impl InterleaveExec {
    pub fn try_new(children: Vec<Plan>) -> Result<Self> {
        let node = Node::bare(children, Default::default());
        Ok(InterleaveExec { node })
    }
}

/// Whether all layouts are equal and not 0.
pub fn can_interleave<'a>(children: impl Iterator<Item = &'a Plan>) -> bool {
    let layout = |plan: &Plan| {
        let place = Place::of(plan.as_ref());
        let last = place.facts.last(place.index);
        place.facts.row(place.index, last).layout
    };
    let layouts: Vec<u64> = children.map(layout).collect();
    layouts.first().is_some_and(|first| *first != 0)
        && layouts.iter().all(|layout| *layout == layouts[0])
}

macro_rules! windows {
    ($($name:ident),*) => {
        $(impl $name {
            /// Carries whether a better window is found.
            pub fn window_expr(&self) -> &Node {
                &self.node
            }

            pub fn input(&self) -> &Plan {
                &self.node.children[0]
            }

            pub fn partition_keys(&self) -> Vec<PhysicalExprRef> {
                vec![]
            }
        })*
    };
}

windows!(WindowAggExec, BoundedWindowAggExec);

impl BoundedWindowAggExec {
    pub fn state_observer(&self) -> Option<&()> {
        self.observer.as_ref()
    }
}

pub fn get_best_fitting_window(
    window: &Node,
    _: &Plan,
    _: &[PhysicalExprRef],
    _: Option<()>,
) -> Result<Option<Plan>> {
    let mut node = window.clone();
    node.better = true;
    let empty = vec![];
    let better = Arc::new(WindowAggExec { node, empty }) as Plan;
    Ok(window.window.then_some(better))
}
