//! I sheets: `reorder_join_keys_to_inputs`.

use crate::build::{Pairs, Plan, hash_join, join_of, operator, pairs, rewriting, sort_merge_join};
use crate::enforce_distribution::{positions_by_inputs, positions_of, reorder_join_keys_to_inputs};
use crate::sheet::{Line, Sheet, put, put_exprs};
use standins::execution_plan::{Boundedness, EmissionType};
use standins::{ExecutionPlanProperties, Node, Operator, Partitioning, PlanProperties};
use std::sync::Arc;

fn hashed(line: &Line) -> bool {
    line.numbers()[0] == 1
}

/// An input: hashed by its keys where its mark is 1.
fn input(keys: &Line, rules: &Line) -> Plan {
    let partitioning = match hashed(keys) {
        true => Partitioning::hash(keys.exprs(1)),
        false => Partitioning::UnknownPartitioning(2),
    };
    let (emission, boundedness) = (EmissionType::Incremental, Boundedness::Bounded);
    let properties = PlanProperties::new(rewriting(rules), partitioning, emission, boundedness);
    Arc::new(Operator {
        node: Node::new(vec![], properties),
    })
}

/// Report, followed side and positions, where an order is tried.
fn tried(sheet: &Sheet, on: &Pairs, left: &Plan, right: &Plan) -> (u64, u64, Vec<usize>) {
    let (h, n) = (sheet.line(b'H'), sheet.line(b'N'));
    if !hashed(h) && !hashed(n) {
        return (0, 0, vec![]);
    }
    let Some(positions) = positions_by_inputs(on, left, right) else {
        return (3, 0, vec![]);
    };
    let equivalences = left.equivalence_properties();
    let by_left = hashed(h) && positions_of(on, &h.exprs(1), equivalences).is_some();
    let report = if positions.is_empty() { 1 } else { 2 };
    (report, if by_left { 1 } else { 2 }, positions)
}

pub fn decide(sheet: &Sheet) -> Result<String, u64> {
    let [op, mode] = sheet.line(b'I').numbers()[..] else {
        unreachable!("an accepted sheet")
    };
    let [h, n, w, v] = [b'H', b'N', b'W', b'V'].map(|letter| sheet.line(letter));
    let (left, right) = (input(h, w), input(n, v));
    let (on, directions) = (pairs(sheet), sheet.line(b'S').numbers());
    let inputs = [Arc::clone(&left), Arc::clone(&right)];
    let node = Node::bare(inputs.to_vec(), Default::default());
    let plan = match op {
        0 => hash_join(on.clone(), mode, 0, inputs, node),
        2 => sort_merge_join(on.clone(), &directions, inputs, node),
        _ => operator(),
    };
    let (report, followed, positions) = match (op, mode) {
        (0, 0) | (2, _) => tried(sheet, &on, &left, &right),
        _ => (0, 0, vec![]),
    };
    let plan = reorder_join_keys_to_inputs(plan).unwrap();
    // An operator that is no join hands its lists back.
    let (on, directions) = match op {
        0 | 2 => join_of(&plan),
        _ => (on, directions),
    };
    let mut text = String::new();
    put(&mut text, 'i', [report, followed]);
    put(&mut text, 'P', positions);
    put_exprs(&mut text, 'L', on.iter().map(|(left, _)| left));
    put_exprs(&mut text, 'G', on.iter().map(|(_, right)| right));
    put(&mut text, 'S', directions);
    Ok(text)
}
