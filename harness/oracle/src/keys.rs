//! K sheets: `adjust_input_keys_ordering`.

use crate::build::{Pairs, Plan, hash_join, join_of, operator, pairs, rewriting, sort_merge_join};
use crate::enforce_distribution::{
    PlanWithKeyRequirements, adjust_input_keys_ordering, positions_of,
};
use crate::sheet::{Sheet, put, put_exprs};
use standins::aggregates::{AggregateExec, AggregateMode, PhysicalGroupBy};
use standins::coalesce_partitions::CoalescePartitionsExec;
use standins::expressions::{Column, NoOp};
use standins::joins::CrossJoinExec;
use standins::projection::{ProjectionExec, ProjectionExpr};
use standins::repartition::RepartitionExec;
use standins::windows::WindowAggExec;
use standins::{ExecutionPlanProperties, Node, Operator, Partitioning, PhysicalExprRef, Schema};
use std::sync::Arc;

/// The fields of the K line.
struct Head {
    op: u64,
    mode: u64,
    join: u64,
    left: u64,
    plain: bool,
    partial: bool,
}

fn ordered(head: &Head) -> bool {
    head.op == 2 || head.op == 0 && head.mode == 0
}

/// An input of so many columns.
fn columns(count: u64) -> Plan {
    let schema = Schema::new((0..count).map(|i| i.to_string()));
    let node = Node::bare(vec![], Default::default());
    Arc::new(Operator {
        node: Node { schema, ..node },
    })
}

/// Groups by names; each expression is an object of its own.
fn groups(names: &[String]) -> PhysicalGroupBy {
    let group = |name: &String| (Arc::new(Column::new(name, 0)) as _, name.clone());
    PhysicalGroupBy::new_single(names.iter().map(group).collect())
}

/// The operator under an aggregate: a Partial one of the same names, or, where `partial` is 0, one of another mode or no aggregate.
fn aggregate_input(head: &Head, names: &[String], aggregates: &[String]) -> Plan {
    let mode = match (head.partial, head.left % 2) {
        (true, _) => AggregateMode::Partial,
        (false, 1) => AggregateMode::Final,
        (false, _) => return operator(),
    };
    let (groups, aggregates) = (groups(names), aggregates.to_vec());
    let input =
        AggregateExec::try_new(mode, groups, aggregates, vec![], operator(), Arc::default());
    Arc::new(input.unwrap())
}

fn aggregate(head: &Head, sheet: &Sheet) -> Plan {
    let (names, aggregates) = (sheet.line(b'O').names(), sheet.line(b'A').names());
    let input = aggregate_input(head, &names, &aggregates);
    let mut groups = groups(&names);
    if !head.plain {
        groups.null_expr = vec![(Arc::new(NoOp), String::new())];
    }
    let mode = match (head.mode, head.left % 2) {
        (0, _) => AggregateMode::FinalPartitioned,
        (_, 0) => AggregateMode::Final,
        _ => AggregateMode::Partial,
    };
    let plan = AggregateExec::try_new(mode, groups, aggregates, vec![], input, Arc::default());
    Arc::new(plan.unwrap())
}

/// A projection that maps the requirement to M.
fn projection(sheet: &Sheet) -> Plan {
    let projected = |expr: PhysicalExprRef| ProjectionExpr {
        expr,
        alias: String::new(),
    };
    let exprs = sheet.line(b'M').exprs(0).into_iter().map(projected);
    Arc::new(ProjectionExec::try_new(exprs.collect(), operator()).unwrap())
}

/// Op 5: each of its three operators, by `left`, which has no other use there.
fn clearing(head: &Head) -> Plan {
    let node = Node::bare(vec![operator()], Default::default());
    match head.left % 3 {
        0 => Arc::new(RepartitionExec {
            node,
            partitioning: Partitioning::RoundRobinBatch(2),
            preserve_order: false,
        }),
        1 => Arc::new(CoalescePartitionsExec { node }),
        _ => Arc::new(WindowAggExec {
            node,
            empty: vec![],
        }),
    }
}

fn plan_of(head: &Head, sheet: &Sheet, on: Pairs) -> Plan {
    let inputs = [columns(head.left), operator()];
    let node = Node::bare(inputs.to_vec(), rewriting(sheet.line(b'W')));
    match head.op {
        0 => hash_join(on, head.mode, head.join, inputs, node),
        1 => {
            let [left, _] = inputs;
            Arc::new(CrossJoinExec { node, left })
        }
        2 => sort_merge_join(on, &sheet.line(b'S').numbers(), inputs, node),
        3 => aggregate(head, sheet),
        4 => projection(sheet),
        5 => clearing(head),
        _ => operator(),
    }
}

/// The places of an aggregate's groups among those of the Partial aggregate that was there, by their objects.
fn moved_groups(before: &Plan, after: &Plan) -> Vec<usize> {
    let groups = |plan: &Plan| {
        let aggregate = plan.downcast_ref::<AggregateExec>().unwrap();
        aggregate.group.expr.clone()
    };
    let before = groups(before.downcast_ref::<AggregateExec>().unwrap().input());
    let place = |expr: &PhysicalExprRef| before.iter().position(|(e, _)| Arc::ptr_eq(e, expr));
    let after = groups(after).into_iter();
    after.map(|(expr, _)| place(&expr).unwrap()).collect()
}

/// What a result says: report, positions, names and places, and the context whose lists count.
struct Labelled {
    report: u64,
    positions: Vec<usize>,
    names: Vec<String>,
    context: PlanWithKeyRequirements,
}

fn labelled(
    before: &Plan,
    tried: Option<Option<Vec<usize>>>,
    after: PlanWithKeyRequirements,
) -> Labelled {
    let (report, positions) = match tried {
        None => (0, vec![]),
        Some(None) => (3, vec![]),
        Some(Some(positions)) if positions.is_empty() => (1, positions),
        Some(Some(positions)) => (2, positions),
    };
    let acted = before.is::<AggregateExec>() && after.plan.is::<ProjectionExec>();
    if !acted {
        return Labelled {
            report,
            positions,
            names: vec![],
            context: after,
        };
    }
    let projection = after.plan.downcast_ref::<ProjectionExec>().unwrap();
    let name = |p: &ProjectionExpr| [p.alias.clone(), p.expr.numbers().2.to_string()];
    let names = projection.expr().iter().flat_map(name).collect();
    let mut after = after;
    let context = after.children.swap_remove(0);
    Labelled {
        report: 2,
        positions: moved_groups(before, &context.children[0].plan),
        names,
        context,
    }
}

fn written(changed: bool, label: &Labelled) -> String {
    let context = &label.context;
    let (on, directions) = join_of(&context.plan);
    let mut text = String::new();
    put(&mut text, 'k', [changed as u64, label.report]);
    put(&mut text, 'P', &label.positions);
    put_exprs(&mut text, 'R', &context.data);
    put_exprs(&mut text, 'L', on.iter().map(|(left, _)| left));
    put_exprs(&mut text, 'G', on.iter().map(|(_, right)| right));
    put(&mut text, 'S', directions);
    put(&mut text, 'J', &label.names);
    for child in &context.children {
        put_exprs(&mut text, 'C', &child.data);
    }
    text
}

pub fn decide(sheet: &Sheet) -> Result<String, u64> {
    let [op, mode, join, left, plain, partial, _] = sheet.line(b'K').numbers()[..] else {
        unreachable!("an accepted sheet")
    };
    let head = Head {
        op,
        mode,
        join,
        left,
        plain: plain == 1,
        partial: partial == 1,
    };
    let required = sheet.line(b'R').exprs(0);
    let on = pairs(sheet);
    let plan = plan_of(&head, sheet, on.clone());
    let tried = ordered(&head).then(|| positions_of(&on, &required, plan.equivalence_properties()));
    let child = |line: &crate::sheet::Line| {
        let input = plan
            .children()
            .first()
            .map_or_else(operator, |c| Arc::clone(c));
        PlanWithKeyRequirements::new(input, line.exprs(0), vec![])
    };
    let children = sheet.lines(b'C').map(child).collect();
    let context = PlanWithKeyRequirements::new(Arc::clone(&plan), required, children);
    let adjusted = adjust_input_keys_ordering(context).map_err(|_| 10u64)?;
    let label = labelled(&plan, tried, adjusted.data);
    Ok(written(adjusted.transformed, &label))
}
