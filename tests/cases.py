#!/usr/bin/env python3
"""The cases that the program `replay` runs in the gate: writes crates/replay/stdin and crates/replay/stdout.

    python3 tests/cases.py            writes both
    python3 tests/cases.py --check    says whether they are what it would write

Four sources, each a sheet with its answer:
- key_cases.py and plan_cases.py: a base sheet, an edit, and the answer, written by hand from document 01 and docs/DECISIONS.md;
- tests/key_rules.txt: a line `#` that says what fixes the answer, the sheet, the answer, by hand too;
- examples/: sheets of up to 2,000 bytes;
- tests/oracle.stdin and tests/oracle.stdout: the fixed list that `differ --list` of harness/ writes, cases as `replay` reads them, with
  the answers of the three files over stand-ins, and of plain Rust where a sheet isn't accepted.

Of cases with the same entry point, room and sheet the first stands; the others must have its answer, and are left out.

An answer stands on one line here, a space for each LF. `fixed` names a row of document 01's table (row 4), a decision of
docs/DECISIONS.md (decision 9), or cites document 01.
"""
import re
import sys
from pathlib import Path

import key_cases  # noqa: F401, adds its cases
import plan_cases  # noqa: F401, adds its cases
from sheets import DECIDE, MOST, ROWS, case, same

TOP = Path(__file__).resolve().parent.parent
LONGEST_EXAMPLE = 2000


def key_rules():
    """The cases of tests/key_rules.txt. An answer begins with k, i or e, and no line of a sheet does."""
    blocks = []
    for text in (TOP / "tests/key_rules.txt").read_text().splitlines():
        if text.startswith("#"):
            blocks.append((text[2:], [], []))
        else:
            fixed, sheet, answer = blocks[-1]
            (answer if answer or text[0] in "kie" else sheet).append(text)
    for number, (fixed, sheet, answer) in enumerate(blocks, 1):
        case(f"key rule {number}", " ".join(sheet), same, " ".join(answer), fixed)


def examples():
    for path in sorted((TOP / "examples").glob("*.sheet")):
        sheet = path.read_bytes()
        if len(sheet) <= LONGEST_EXAMPLE:
            ROWS.append((path.stem, "examples/", DECIDE, MOST, sheet, path.with_suffix(".answer").read_bytes()))


def fixed_list():
    """The cases of tests/oracle.stdin, with the answers of tests/oracle.stdout."""
    cases = (TOP / "tests/oracle.stdin").read_bytes()
    answers = re.split(rb"^# .*\n", (TOP / "tests/oracle.stdout").read_bytes(), flags=re.M)[1:]
    for answer in answers:
        name, head, cases = cases.split(b"\n", 2)
        entry, room, length = head.decode().split(",")
        sheet, cases = cases[: int(length)], cases[int(length) :]
        name, fixed = name[2:].decode().split(": ")
        ROWS.append((name, fixed, entry, int(room), sheet, answer))


def once():
    """The cases with their rooms as numbers, each entry point, room and sheet once."""
    cases = {}
    for name, fixed, entry, room, sheet, answer in ROWS:
        if room in ("exact", "one less"):
            room, answer = (len(answer), answer) if room == "exact" else (len(answer) - 1, b"e,12,0\n")
        first, _, expected = cases.setdefault((entry, room, sheet), (name, fixed, answer))
        if answer != expected:
            sys.exit(f"two answers to one case: {first}, {name}")
    return cases


def written(cases):
    """What `replay` reads, and what it must write."""
    stdin, stdout = [], []
    for (entry, room, sheet), (name, fixed, answer) in cases.items():
        head = f"# {name}: {fixed}\n".encode()
        stdin += [head, f"{entry},{room},{len(sheet)}\n".encode(), sheet]
        stdout += [head, answer]
    return b"".join(stdin), b"".join(stdout)


def main():
    edits = len(ROWS)
    key_rules()
    examples()
    fixed_list()
    files = [TOP / "crates/replay/stdin", TOP / "crates/replay/stdout"]
    cases = once()
    texts = written(cases)
    if sys.argv[1:] == ["--check"]:
        stale = [str(path.relative_to(TOP)) for path, text in zip(files, texts) if path.read_bytes() != text]
        if stale:
            sys.exit("not what tests/cases.py writes: " + ", ".join(stale))
    else:
        for path, text in zip(files, texts):
            path.write_bytes(text)
    print(f"{len(cases)} cases; {len(ROWS) - len(cases)} more repeat one of them and are left out; {edits} of all are edits of base sheets")


main()
