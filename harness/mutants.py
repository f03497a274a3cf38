#!/usr/bin/env python3
"""Plants one fault at a time in copies of the three files and of `plain`, and shows that the differential run finds each.

    python3 harness/mutants.py            all of them
    python3 harness/mutants.py NAME..     some

The copies stand under target/mutants. A mutant that doesn't compile, or that the run doesn't find, makes the status 1. The three files
are taken from LOCHKAVE_SOURCES, or from ../shared/docs/src beside the repository; without them only the faults of `plain` are planted.
"""
import os
import shutil
import subprocess
import sys
from pathlib import Path

TOP = Path(__file__).resolve().parent.parent
SOURCES = Path(os.environ.get("LOCHKAVE_SOURCES", TOP / "../shared/docs/src")).resolve()
WORK = TOP / "target/mutants"
SHEETS = ["--sheets", "20000", "20000"]

DISTRIBUTION = "src/ensure_requirements/enforce_distribution.rs"
UTILS = "src/utils.rs"
OUTPUT = "src/output_requirements.rs"

# Name, file, what stands there once (or, with a number, the place where it stands that often), what stands there instead.
FILES = [
    ("a taken place isn't marked", DISTRIBUTION, "        current[expected_position] = Arc::new(NoOp::new());\n", ""),
    ("right keys are searched before left keys", DISTRIBUTION,
     "expected_expr_positions(&join_keys.left_keys, expected)\n        .or_else(|| expected_expr_positions(&join_keys.right_keys, expected))",
     "expected_expr_positions(&join_keys.right_keys, expected)\n        .or_else(|| expected_expr_positions(&join_keys.left_keys, expected))"),
    ("pairs of a K sheet move without directions", DISTRIBUTION, (".map(|idx| sort_options[positions[idx]])", 0), ".map(|idx| sort_options[idx])"),
    ("pairs of an I sheet move without directions", DISTRIBUTION, (".map(|idx| sort_options[positions[idx]])", 1), ".map(|idx| sort_options[idx])"),
    ("a shift takes one column too many", DISTRIBUTION, ".checked_sub(left_columns_len)", ".checked_sub(left_columns_len + 1)"),
    ("a right semi join hands on nothing", DISTRIBUTION, "requirements.data.clone()\n", "vec![]\n"),
    ("a normalized order isn't met", DISTRIBUTION, "if physical_exprs_equal(&normalized_expected, &normalized_left_keys)\n            || physical_exprs_equal(&normalized_expected, &normalized_right_keys)", "if physical_exprs_equal(&normalized_expected, &normalized_left_keys)"),
    ("an aggregate acts over any aggregate", DISTRIBUTION, "&& *agg_exec.mode() == AggregateMode::Partial", "&& *agg_exec.mode() != AggregateMode::FinalPartitioned"),
    ("limits are taken off the top", DISTRIBUTION, "while distribution_context.plan.fetch().is_none()\n        && (", "while true\n        && ("),
    ("two partitions count as one", DISTRIBUTION, ("partition_count() > 1 {", 0), "partition_count() > 2 {"),
    ("as many rows as a batch gain", DISTRIBUTION, "Precision::Exact(n_rows) => n_rows > batch_size", "Precision::Exact(n_rows) => n_rows >= batch_size"),
    ("estimates are always used", DISTRIBUTION, "!should_use_estimates || (n_rows > batch_size)", "n_rows > batch_size"),
    ("hash necessity isn't aligned", DISTRIBUTION, "if needs_alignment {", "if needs_alignment && false {"),
    ("round robin is asked once", DISTRIBUTION, "if input.plan.output_partitioning().partition_count() < n_target {", "if true {"),
    ("the subset threshold isn't reached at its number", DISTRIBUTION, ">= subset_satisfaction_threshold", "> subset_satisfaction_threshold"),
    ("partitioned joins take subsets", DISTRIBUTION, "&& !is_partitioned_join\n", ""),
    ("files are kept only below their threshold", DISTRIBUTION, "&& current_partitions >= config.optimizer.preserve_file_partitions;", "&& current_partitions > config.optimizer.preserve_file_partitions;"),
    ("a hashed child gets another exchange", DISTRIBUTION, "if already_target_hash {", "if already_target_hash && false {"),
    ("streaming is looked for the other way about", DISTRIBUTION, "Ok(without_ordered.pipeline_behavior() == EmissionType::Final)", "Ok(without_ordered.pipeline_behavior() != EmissionType::Final)"),
    ("an output requirement keeps orders", DISTRIBUTION, "|| plan.is::<OutputRequirementExec>()", "&& plan.is::<OutputRequirementExec>()"),
    ("tracking goes on", DISTRIBUTION, "context.data = false;\n                } else {", "} else {"),
    ("an untracked operator is gone into", DISTRIBUTION, "if child.data {", "if true {"),
    ("a limited merge loses its limit", DISTRIBUTION, "SortExec::new(ordering, Arc::clone(&context.plan)).with_fetch(fetch)", "SortExec::new(ordering, Arc::clone(&context.plan)).with_fetch(None)"),
    ("the first child's mark isn't taken over", DISTRIBUTION, "|| child_context.children[0].data\n", ""),
    ("unions stay", DISTRIBUTION, "&& !config.optimizer.prefer_existing_union", "&& config.optimizer.prefer_existing_union"),
    ("constant entries are kept, others dropped", UTILS, (".is_none()", 0), ".is_some()"),
    ("a sort is added where the order is held", UTILS, "if !node\n        .plan", "if node\n        .plan"),
    ("a sort has no limit", UTILS, ("with_fetch(fetch)", 0), "with_fetch(None)"),
    ("an output requirement with a limit is unbounded", OUTPUT, "let boundedness = if fetch.is_some() {", "let boundedness = if false {"),
    ("an output requirement maintains no order", OUTPUT, "fn maintains_input_order(&self) -> Vec<bool> {\n        vec![true]", "fn maintains_input_order(&self) -> Vec<bool> {\n        vec![false]"),
]

PLAIN = [
    ("leading zeros are taken", "line.rs", "_ if s[at] == b'0' => (MALFORMED, i),\n", ""),
    ("65536 is a field", "line.rs", "NARROW: u64 = 65535", "NARROW: u64 = 65536"),
    ("33 entries are taken", "lib.rs", "MOST_ENTRIES: usize = 32", "MOST_ENTRIES: usize = 33"),
    ("another expression has an index", "line.rs", "1 => f[2] == 0,", "1 => true,"),
    ("direction 4 is taken", "line.rs", "line.largest > 3 {", "line.largest > 4 {"),
    ("a line too many is not seen", "line.rs", "if at < s.len() {\n        return Err(refused(1, i + 2));", "if at + 1 < s.len() {\n        return Err(refused(1, i + 2));"),
    ("a sort-merge join has any number of children", "keys.rs", "0..=2 => children == 2,", "0..=1 => children == 2,"),
    ("an unused rewriting list is taken", "keys.rs", "l + w == 0", "l == 0"),
    ("keys after mark 0 are taken", "inputs.rs", "&& (n[0] == 1 || n.len() == 1)", ""),
    ("a taken place isn't marked", "reorder.rs", "left[found] = NO_OP;\n", ""),
    ("rewritten keys are tried before raw ones", "reorder.rs", "places_in(l, r, places)\n        || places_in(g, r, places)\n        || places_in(new_l, new_r, places)", "places_in(new_l, new_r, places)\n        || places_in(l, r, places)\n        || places_in(g, r, places)"),
    ("the last index of the left side is shifted", "keys.rs", "e & 0xffff < left", "e & 0xffff <= left"),
    ("names of aggregates are not looked through", "keys.rs", "moved.chain(a.iter().copied()).position(|m| m == *name)?", "moved.chain([]).position(|m| m == *name)?"),
    ("an answer of exactly the room is refused", "write.rs", "length.0 > out.len()", "length.0 >= out.len()"),
    ("nine entries are taken", "exchange.rs", "entries > 8", "entries > 9"),
    ("257 lines are taken", "exchange.rs", "place >= MOST_NODES ||", "place > MOST_NODES ||"),
    ("a limit on a repartition is taken", "exchange.rs", "(kind == REPARTITION || kind == UNKNOWN_REPARTITION) && limit != ABSENT", "kind == REPARTITION && limit != ABSENT"),
    ("a row's count isn't looked at", "exchange.rs", "(0, 1) => row.count == 1,", "(0, 1) => true,"),
    ("target 4097 is taken", "exchange.rs", "target > MOST_TARGET", "target > MOST_TARGET + 1"),
    ("files are kept only above their threshold", "tree.rs", "node.count >= s.files", "node.count > s.files"),
    ("one partition is merged", "tree.rs", "SINGLE if row.count > 1", "SINGLE if row.count > 0"),
    ("hashed or exact is enough", "tree.rs", "row.athash == 1 && row.exact == 1", "row.athash == 1 || row.exact == 1"),
    ("an untracked child under an exchange is replaced", "tree.rs", "(at > from || added)", "at > from"),
    ("a sort over nothing has count 0", "tree.rs", ".max(1)", ".max(0)"),
    ("a row that is missed isn't needed", "tree.rs", "fn split(&mut self, i: usize) -> Result<(), u64> {\n        self.row(i)?;", "fn split(&mut self, i: usize) -> Result<(), u64> {"),
    ("an interleave keeps its order", "tree.rs", "(text.kind, text.order) = (INTERLEAVE, 0)", "text.kind = INTERLEAVE"),
]


def planted(text, old, new):
    old, nth = old if isinstance(old, tuple) else (old, None)
    parts = text.split(old)
    if nth is None:
        assert len(parts) == 2, f"stands there {len(parts) - 1} times: {old}"
        nth = 0
    return old.join(parts[: nth + 1]) + new + old.join(parts[nth + 1 :])


def copy():
    """A copy of the harness whose neighbours are the repository's. Its files are new, so that cargo doesn't take an earlier mutant's build."""
    harness = WORK / "harness"
    if harness.exists():
        shutil.rmtree(harness)
    WORK.mkdir(parents=True, exist_ok=True)
    shutil.copytree(TOP / "harness", harness, ignore=shutil.ignore_patterns("target"), copy_function=shutil.copy)
    for name in ("examples", "crates", "target"):
        if not (WORK / name).exists():
            (WORK / name).symlink_to(TOP / name)
    return harness


def run(harness, sources):
    """Whether the run finds a difference; its last lines."""
    env = dict(os.environ, CARGO_TARGET_DIR=str(TOP / "harness/target/mutants"), LOCHKAVE_SOURCES=str(sources))
    command = ["cargo", "build", "--release", "--offline", "-q", "-p", "differ"]
    built = subprocess.run(command, cwd=harness, env=env, capture_output=True, text=True)
    if built.returncode:
        return False, built.stderr
    differ = TOP / "harness/target/mutants/release/differ"
    try:
        ran = subprocess.run([differ, *SHEETS], capture_output=True, text=True, errors="replace", timeout=120)
    except subprocess.TimeoutExpired:
        return True, "no end within two minutes"
    last = ran.stdout.splitlines()[-1] if ran.stdout else f"status {ran.returncode}"
    return last.endswith(" differences") and last != "0 differences", last


def in_files(name, path, old, new, harness):
    sources = WORK / "sources"
    if sources.exists():
        shutil.rmtree(sources)
    shutil.copytree(SOURCES, sources, copy_function=shutil.copy)
    for file in [sources, *sources.rglob("*")]:
        file.chmod(0o755)
    file = sources / path
    file.write_text(planted(file.read_text(), old, new))
    return run(harness, sources)


def in_plain(name, path, old, new, harness):
    file = harness / "plain/src" / path
    text = file.read_text()
    file.write_text(planted(text, old, new))
    try:
        return run(harness, SOURCES)
    finally:
        file.write_text(text)


def main():
    wanted = sys.argv[1:]
    harness = copy()
    mutants = [("plain", in_plain, *row) for row in PLAIN]
    if SOURCES.exists():
        mutants = [("files", in_files, *row) for row in FILES] + mutants
    else:
        print("NOT run: faults in the three files, which are not at hand")
    _, last = run(harness, SOURCES)
    if last != "0 differences":
        sys.exit(f"without a fault: {last}")
    missed = 0
    for where, plant, name, path, old, new in mutants:
        if wanted and name not in wanted:
            continue
        found, last = plant(name, path, old, new, harness)
        missed += not found
        print(f"{'found ' if found else 'MISSED'}  {where}, {Path(path).name}: {name} ({last.strip()[:120]})", flush=True)
    print(f"{missed} missed")
    sys.exit(missed > 0)


main()
