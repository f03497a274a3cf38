#!/usr/bin/env python3
"""How often the differential run comes by each block of the three files.

    python3 harness/coverage.py [ACCEPTED DAMAGED]

Makes a copy of the files under target/coverage in which each block of statements begins with a probe, builds the run over it, and prints
how often each block was come by, those never come by last. Only this copy has probes; the runs themselves are over the files as they are.
"""
import os
import re
import shutil
import subprocess
import sys
from pathlib import Path

TOP = Path(__file__).resolve().parent.parent
SOURCES = Path(os.environ.get("LOCHKAVE_SOURCES", TOP / "../shared/docs/src")).resolve()
WORK = TOP / "target/coverage"
FILES = ["src/ensure_requirements/enforce_distribution.rs", "src/utils.rs", "src/output_requirements.rs"]
# A probe's number is the file's place in the list times this, plus the line.
STEP = 2000

# Lines that end with a brace and begin no block of statements.
NO_BLOCK = re.compile(r"^\s*(use |pub use |struct |pub struct |enum |impl|mod |#|let \w+ \{$|exec @)|\bmatch\b[^>]*\{$|(\(|\||(?<![=!])= |=> |^\s*|Some\()[A-Z]\w*(::\w+)* \{$")


def blocks(lines):
    """The lines, from 1, after which a probe can stand."""
    heads = []
    for number, line in enumerate(lines, 1):
        code = line.split("//")[0].rstrip()
        if line.lstrip().startswith("//") or not code.endswith("{") or NO_BLOCK.search(code):
            continue
        if code.strip() == "{" and any("match " in before for before in lines[max(0, number - 5) : number - 1]):
            continue
        heads.append(number)
    return heads


def probed(path, place):
    lines = path.read_text().splitlines(keepends=True)
    heads = blocks(lines)
    for number in heads:
        lines[number - 1] = lines[number - 1].rstrip("\n") + f" crate::coverage::seen({place * STEP + number});\n"
    path.write_text("".join(lines))
    return heads


def main():
    sources = WORK / "sources"
    if sources.exists():
        shutil.rmtree(sources)
    shutil.copytree(SOURCES, sources)
    for file in [sources, *sources.rglob("*")]:
        file.chmod(0o755)
    heads = [probed(sources / name, place) for place, name in enumerate(FILES)]
    env = dict(os.environ, CARGO_TARGET_DIR=str(TOP / "harness/target/coverage"), LOCHKAVE_SOURCES=str(sources))
    subprocess.run(["cargo", "build", "--release", "--offline", "-q", "-p", "differ"], cwd=TOP / "harness", env=env, check=True)
    sheets = sys.argv[1:3] or ["100000", "20000"]
    ran = subprocess.run([TOP / "harness/target/coverage/release/differ", "--sheets", *sheets], capture_output=True, text=True, errors="replace")
    counts = dict(map(int, line.split()[1:]) for line in ran.stdout.splitlines() if line.startswith("block "))
    for place, name in enumerate(FILES):
        source = (SOURCES / name).read_text().splitlines()
        reached = [(number, counts.get(place * STEP + number, 0)) for number in heads[place]]
        print(f"\n{name}: {sum(count > 0 for _, count in reached)} of {len(reached)} blocks")
        for number, count in sorted(reached, key=lambda row: row[1] == 0):
            print(f"  {count:>9}  line {number}: {source[number - 1].strip()}")
    print(ran.stdout.splitlines()[-1])


main()
