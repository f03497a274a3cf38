
// From here on not the file's: its private functions, for the harness.

/// `try_reorder`: the positions. Nothing where it is impossible, none where the order is met.
pub fn positions_of(
    on: &[(PhysicalExprRef, PhysicalExprRef)],
    expected: &[PhysicalExprRef],
    equivalences: &EquivalenceProperties,
) -> Option<Vec<usize>> {
    try_reorder(extract_join_keys(on), expected, equivalences).1
}

/// `reorder_current_join_keys`: the positions, likewise.
pub fn positions_by_inputs(
    on: &[(PhysicalExprRef, PhysicalExprRef)],
    left: &Arc<dyn ExecutionPlan>,
    right: &Arc<dyn ExecutionPlan>,
) -> Option<Vec<usize>> {
    reorder_current_join_keys(
        extract_join_keys(on),
        Some(left.output_partitioning()),
        Some(right.output_partitioning()),
        left.equivalence_properties(),
        right.equivalence_properties(),
    )
    .1
}
