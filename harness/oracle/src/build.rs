//! Joins and their inputs, from the lists of K and I sheets.

use crate::sheet::{Line, Sheet};
use standins::compute::SortOptions;
use standins::joins::{HashJoinExec, NullEquality, PartitionMode, SortMergeJoinExec};
use standins::logical_plan::JoinType;
use standins::{EquivalenceProperties, ExecutionPlan, Node, Operator, PhysicalExprRef};
use std::sync::Arc;

pub type Plan = Arc<dyn ExecutionPlan>;
pub type Pairs = Vec<(PhysicalExprRef, PhysicalExprRef)>;

pub const MODES: [PartitionMode; 3] = [
    PartitionMode::Partitioned,
    PartitionMode::CollectLeft,
    PartitionMode::Auto,
];

pub const JOINS: [JoinType; 10] = [
    JoinType::Inner,
    JoinType::Left,
    JoinType::Right,
    JoinType::Full,
    JoinType::LeftSemi,
    JoinType::RightSemi,
    JoinType::LeftAnti,
    JoinType::RightAnti,
    JoinType::LeftMark,
    JoinType::RightMark,
];

pub fn rewriting(line: &Line) -> EquivalenceProperties {
    let mut equivalences = EquivalenceProperties::default();
    equivalences.group.0 = line.pairs();
    equivalences
}

pub fn operator() -> Plan {
    let node = Node::bare(vec![], Default::default());
    Arc::new(Operator { node })
}

/// L and G as pairs.
pub fn pairs(sheet: &Sheet) -> Pairs {
    let [left, right] = [b'L', b'G'].map(|letter| sheet.line(letter).exprs(0));
    left.into_iter().zip(right).collect()
}

pub fn hash_join(on: Pairs, mode: u64, join: u64, inputs: [Plan; 2], node: Node) -> Plan {
    let [left, right] = inputs;
    Arc::new(HashJoinExec {
        node,
        left,
        right,
        on,
        join_type: JOINS[join as usize],
        mode: MODES[mode as usize],
    })
}

pub fn sort_merge_join(on: Pairs, directions: &[u64], inputs: [Plan; 2], node: Node) -> Plan {
    let [left, right] = inputs;
    let option = |d: &u64| SortOptions {
        descending: d & 1 == 1,
        nulls_first: d & 2 == 2,
    };
    Arc::new(SortMergeJoinExec {
        node,
        left,
        right,
        on,
        filter: None,
        join_type: JoinType::Inner,
        sort_options: directions.iter().map(option).collect(),
        null_equality: NullEquality,
    })
}

/// Pairs and directions of a join; nothing of another operator.
pub fn join_of(plan: &Plan) -> (Pairs, Vec<u64>) {
    if let Some(join) = plan.downcast_ref::<HashJoinExec>() {
        return (join.on.clone(), vec![]);
    }
    let Some(join) = plan.downcast_ref::<SortMergeJoinExec>() else {
        return (vec![], vec![]);
    };
    let direction = |o: &SortOptions| o.descending as u64 + 2 * o.nulls_first as u64;
    let directions = join.sort_options.iter().map(direction).collect();
    (join.on.clone(), directions)
}
