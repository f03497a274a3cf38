"""Cases of D sheets: a base sheet, an edit, and the answer, written by hand from document 01, 000 and docs/DECISIONS.md."""
from sheets import EXCHANGES, INPUTS, KEYS, WRITE, both, case, drop, field, keep, line, more, no_lf, put, same, swap

# A leaf: D, T, B, Y.
LEAF = "D,4,0,0,8192,0,9,0,0,0 T,0,1,0,,0,0,0,0 B,0,0,0,0 Y,0"
LEAF_SAME = "d,0,0,0,0 t,1,0,1,0,,0,0,0,0"
# One child of which nothing is required, no round robin: D, T, T, B, F, X, Y.
QUIET = "D,4,0,0,8192,0,9,0,0,0 T,0,1,0,,0,0,0,1 T,0,1,0,,0,0,0,0 B,0,0,0,0 F,0,1,2,0,0,0,0 X,1,0,1,0,0,0,0,0,0,0,0,0,0 Y,0,0"
QUIET_SAME = "d,1,0,0,0 t,1,0,1,0,,0,0,0,1 t,2,0,1,0,,0,0,1,0"
# Marked sheet 6, a round robin over the child: D, T, T, B, F, X form 0, X form 6, Y.
DEALT = "D,4,1,0,8192,0,9,0,0,0 T,0,1,0,,0,0,0,1 T,0,1,0,,0,0,0,0 B,0,0,0,0 F,1,1,0,8193,0,0,0 X,1,0,1,0,0,0,0,0,0,0,0,0,0 X,1,6,4,0,0,0,0,0,0,0,0,0,0 Y,0,0"
DEALT_OUT = "d,1,0,0,0 t,1,0,1,0,,0,0,0,1 t,0,13,4,0,,0,0,1,1 t,2,0,1,0,,0,0,1,0"
# A child that is split at its source: D, T, T, B, F, X form 0, X form 1, X form 7, Y.
SPLIT = "D,4,1,1,8192,0,9,0,0,0 T,0,1,0,,0,0,0,1 T,0,1,0,,0,0,0,0 B,0,0,0,0 F,1,1,2,0,0,1,0 X,1,0,1,0,0,0,0,0,0,0,0,0,0 X,1,1,4,0,0,0,0,0,0,0,0,0,0 X,1,7,4,0,0,0,0,0,0,0,0,0,0 Y,0,0"
SPLIT_ALONE = "d,1,0,0,0 t,1,0,1,0,,0,0,0,1 t,2,0,4,0,,0,0,1,0"
# A join over two keyed children of one partition each: D, T, T, T, B, F, F, X form 0 and 8 of each, Y.
PAIR = "D,4,0,0,8192,0,9,0,0,0 T,5,1,0,,0,0,0,2 T,0,1,0,,0,0,2,0 T,0,1,0,,0,0,2,0 B,0,0,0,0 F,0,1,2,0,0,0,0 F,0,1,2,0,0,0,0 X,1,0,1,0,0,1,1,0,0,0,0,0,0 X,1,8,4,1,1,1,1,0,0,0,0,0,0 X,2,0,1,0,0,1,1,0,0,0,0,0,0 X,2,8,4,2,1,1,1,0,0,0,0,0,0 Y,1,2,0,0"
PAIR_BOTH = "d,1,0,0,0 t,1,5,1,0,,0,0,0,2 t,0,12,4,0,,0,0,1,1 t,2,0,1,0,,0,0,1,0 t,0,12,4,0,,0,0,1,1 t,3,0,1,0,,0,0,1,0"
PAIR_NONE = "d,1,0,0,0 t,1,5,1,0,,0,0,0,2 t,2,0,1,0,,0,0,1,0 t,3,0,1,0,,0,0,1,0"
PAIR_SECOND = "d,1,0,0,0 t,1,5,1,0,,0,0,0,2 t,2,0,1,0,,0,0,1,0 t,0,12,4,0,,0,0,1,1 t,3,0,1,0,,0,0,1,0"
# The same, the first child with two partitions: both are hashed. X form 0 and 4 of each.
HASHED = "D,4,0,0,8192,0,9,0,0,0 T,5,4,0,,0,0,0,2 T,0,2,0,,0,0,2,0 T,0,1,0,,0,0,2,0 B,0,0,0,0 F,0,1,2,0,0,0,0 F,0,1,2,0,0,0,0 X,1,0,2,0,0,0,0,0,0,0,0,0,0 X,1,4,4,1,1,1,1,0,0,0,0,0,0 X,2,0,1,0,0,1,1,0,0,0,0,0,0 X,2,4,4,2,1,1,1,0,0,0,0,0,0 Y,0,0,0,0"
HASHED_BOTH = "d,1,0,0,0 t,1,5,4,0,,0,0,0,2 t,0,12,4,0,,0,0,1,1 t,2,0,2,0,,0,0,1,0 t,0,12,4,0,,0,0,1,1 t,3,0,1,0,,0,0,1,0"
# A single need and two partitions: D, T, T, B, F, X form 0, X form 2, Y.
MERGED = "D,4,0,0,8192,0,9,0,0,0 T,0,1,0,,0,0,0,1 T,0,2,0,,0,0,1,0 B,0,0,0,0 F,0,1,2,0,0,0,0 X,1,0,2,0,0,0,0,0,0,0,0,0,0 X,1,2,1,0,0,0,0,0,0,0,0,0,0 Y,0,0"
MERGED_ONE = "d,1,0,0,0 t,1,0,1,0,,0,0,0,1 t,0,2,1,0,,0,0,1,1 t,2,0,2,0,,0,0,1,0"

# Eight children, and every row that there can be.
FORM_COUNTS = [1, 7, 1, 1] + [4] * 12
ALL_ROWS = [f"X,{child},{form},{count},0,0,0,0,0,0,0,0,0,0" for child in range(1, 9) for form, count in enumerate(FORM_COUNTS)]


def eight(rows, masks=256):
    tree = ["T,0,1,0,,0,0,0,8"] + ["T,0,1,0,,0,0,0,0"] * 8
    return " ".join(["D,4,0,0,8192,0,9,0,0,0"] + tree + ["B,0,0,0,0"] + ["F,0,1,2,0,0,0,0"] * 8 + rows + ["Y" + ",0" * masks])


EIGHT_SAME = "d,1,0,0,0 t,1,0,1,0,,0,0,0,8 " + " ".join(f"t,{i},0,1,0,,0,0,1,0" for i in range(2, 10))


def chain(length):
    """Operators over one another, the last a leaf."""
    tree = ["T,0,1,0,,0,0,0,1"] * (length - 1) + ["T,0,1,0,,0,0,0,0"]
    return " ".join(["D,4,0,0,8192,0,9,0,0,0"] + tree + "B,0,0,0,0 F,0,1,2,0,0,0,0 X,1,0,1,0,0,0,0,0,0,0,0,0,0 Y,0,0".split(" "))


# Nothing under the second line is tracked: it has a child that isn't.
CHAIN_SAME = "d,1,0,0,0 " + " ".join(f"t,{i},0,1,0,,0,0,0,1" for i in range(1, 256)) + " t,256,0,1,0,,0,0,0,0"

# Fine sheets.
for name, sheet, answer, fixed in [
    ("a leaf", LEAF, LEAF_SAME, '"a leaf returns unchanged (tracked 0)"'),
    ("a child and nothing to do", QUIET, QUIET_SAME, '"Steps as in 000"'),
    ("a round robin", DEALT, DEALT_OUT, "marked sheet 6"),
    ("a split", SPLIT, SPLIT_ALONE, "as many partitions after the split as the target"),
    ("two rounds", PAIR, PAIR_BOTH, '"relationship rounds"'),
    ("two keyed children", HASHED, HASHED_BOTH, '"hash necessity is aligned over keyed children"'),
    ("a single need", MERGED, MERGED_ONE, "marked sheet 9"),
    ("eight children and 128 X rows", eight(ALL_ROWS), EIGHT_SAME, '"8 children a node"; each child and form once'),
    ("128 X rows, the last first", eight(ALL_ROWS[::-1]), EIGHT_SAME, "X rows in any order"),
    ("256 T lines", chain(256), CHAIN_SAME, '"256 T lines"'),
]:
    case(name, sheet, same, answer, fixed)
    case(f"{name}, by its own entry point", sheet, same, answer, fixed, entry=EXCHANGES)
    case(f"{name}, written again", sheet, same, sheet, "demand 2: the same bytes", entry=WRITE)
for name, sheet, answer in [("a leaf", LEAF, LEAF_SAME), ("two rounds", PAIR, PAIR_BOTH), ("256 T lines", chain(256), CHAIN_SAME)]:
    case(f"{name}, room for the answer", sheet, same, answer, "row 12", room="exact")
    case(f"{name}, one byte too little", sheet, same, answer, "row 12", room="one less")
    case(f"{name}, by its own entry point, one byte too little", sheet, same, answer, "row 12", entry=EXCHANGES, room="one less")
    case(f"{name}, written again with room for it", sheet, same, sheet, "row 12", entry=WRITE, room="exact")
    case(f"{name}, written again with one byte too little", sheet, same, sheet, "row 12", entry=WRITE, room="one less")
case("a D sheet for the function of K sheets", LEAF, same, "e,1,1", "decision 33", entry=KEYS)
case("a D sheet for the function of I sheets", LEAF, same, "e,1,1", "decision 33", entry=INPUTS)
case("a K sheet for the function of D sheets", "K,6,0,0,0,0,0,0 R L G S W O A M", same, "e,1,1", "decision 33", entry=EXCHANGES)
case("an I sheet for the function of D sheets", "I,6,0 L G S H,0 N,0 W V", same, "e,1,1", "decision 33", entry=EXCHANGES)
case("nothing for the function of D sheets", LEAF, keep(0), "e,1,1", "row 1", entry=EXCHANGES)

# Row 1: wrong, missing or extra line.
for name, sheet, edit, at in [
    ("DX", LEAF, line(1, "DX,4,0,0,8192,0,9,0,0,0"), 1),
    ("no T line", LEAF, drop(2), 2),
    ("no B line", LEAF, drop(3), 3),
    ("no Y line", LEAF, drop(4), 4),
    ("nothing after the D line", LEAF, keep(1), 2),
    ("no LF after Y", LEAF, no_lf, 4),
    ("a line after Y", LEAF, more("Y,0"), 5),
    ("an empty line after Y", LEAF, more(""), 5),
    ("a tree that goes on", LEAF, put(3, "T,0,1,0,,0,0,0,0"), 3),
    ("a tree that ends early", QUIET, drop(3), 3),
    ("a second child that isn't there", QUIET, field(2, 8, "2"), 4),
    ("t in place of T", QUIET, line(3, "t,0,1,0,,0,0,0,0"), 3),
    ("a second B line", QUIET, put(5, "B,0,0,0,0"), 5),
    ("no F line", QUIET, drop(5), 5),
    ("a second F line", QUIET, put(6, "F,0,1,2,0,0,0,0"), 6),
    ("an F line of a leaf", LEAF, put(4, "F,0,1,2,0,0,0,0"), 4),
    ("X before F", QUIET, swap(5, 6), 5),
    ("x in place of X", QUIET, line(6, "x,1,0,1,0,0,0,0,0,0,0,0,0,0"), 6),
    ("an X row after Y", QUIET, swap(6, 7), 7),
    ("one F line for two children", PAIR, drop(7), 7),
]:
    case(name, sheet, edit, f"e,1,{at}", "row 1")
case("F lines by the worked node's children, not by the root's", QUIET, both(put(2, "T,3,1,0,,0,0,0,1"), drop(6)), "e,1,6", '"per child of the worked node"')

# Row 2: malformed field, wrong field count, over the field's largest number.
for kind, sheet, at, places, longest in [("D", LEAF, 1, 9, ""), ("T", LEAF, 2, 8, ""), ("B", LEAF, 3, 4, ""), ("F", QUIET, 5, 7, ""), ("X", QUIET, 6, 13, ""), ("Y", QUIET, 7, 2, "")]:
    text = sheet.split(" ")[at - 1]
    case(f"{kind} with a field less", sheet, line(at, text.rsplit(",", 1)[0]), f"e,2,{at}", "row 2, field count")
    case(f"{kind} with a field more", sheet, line(at, text + ",0"), f"e,2,{at}", "row 2, field count")
    case(f"{kind} with an empty field", sheet, field(at, 1, ""), f"e,2,{at}", '"only limits may be empty"')
    case(f"{kind} with a leading zero", sheet, field(at, places, "00"), f"e,2,{at}", '"no leading zeros"')
    case(f"{kind} with 65536", sheet, field(at, places, "65536"), f"e,2,{at}", '"Fields are 0..65535"')
case("Y without a mask", LEAF, line(4, "Y"), "e,2,4", "row 2, field count: one set of no children")
case("255 masks of eight children", eight([], masks=255), same, "e,2,20", '"the 2^n sets of n children"')
case("257 masks of eight children", eight([], masks=257), same, "e,2,20", '"the 2^n sets of n children"')
case("the largest limit", LEAF, field(2, 4, "4294967295"), "d,0,0,0,0 t,1,0,1,0,4294967295,0,0,0,0", '"limits are 0..4294967295"')
case("one more than the largest limit", LEAF, field(2, 4, "4294967296"), "e,2,2", '"limits are 0..4294967295"')
case("the largest row count", QUIET, field(5, 4, "4294967295"), QUIET_SAME, '"row counts are 0..4294967295"')
case("one more than the largest row count", QUIET, field(5, 4, "4294967296"), "e,2,5", '"row counts are 0..4294967295"')
case("no row count", QUIET, field(5, 4, ""), "e,2,5", '"only limits may be empty"')
for kind in (3, 4):
    case(f"a limit on kind {kind}", QUIET, both(field(2, 1, str(kind)), field(2, 4, "0")), "e,2,2", '"3 and 4 have no limit (else 2)"')
    case(f"a limit on kind {kind}, nine children", QUIET, line(2, f"T,{kind},1,0,5,0,0,0,9"), "e,2,2", "lowest number")

# Row 3: sizes.
case("257 T lines", chain(257), same, "e,3,258", '"256 T lines"')
case("nine children", LEAF, field(2, 8, "9"), "e,3,2", '"8 children a node"')
case("nine children of a kind that has one", LEAF, line(2, "T,1,1,0,,0,0,0,9"), "e,3,2", "lowest number: 3 before 6")
case("nine entries", QUIET, field(5, 7, "9"), "e,3,5", '"entries over 8"')
case("nine entries and a wrong mark", QUIET, both(field(5, 7, "9"), field(5, 1, "2")), "e,3,5", "lowest number: 3 before 4")
case("eight entries, none constant, nothing to sort", QUIET, both(field(5, 7, "8"), both(field(6, 8, "1"), field(6, 9, "1"))), "d,1,0,0,0 t,1,0,1,0,,0,0,0,1 t,2,0,1,0,,0,0,0,0", '"entries of a required order 0..8"; a child with a required order is tracked no more')

# Row 4: codes and marks.
for kind, sheet, at, places in [("D", LEAF, 1, [2, 3, 5, 8, 9]), ("T", LEAF, 2, [3, 6]), ("B", LEAF, 3, [1, 2, 3, 4]), ("F", QUIET, 5, [1, 2, 5, 6]), ("X", QUIET, 6, [5, 6, 7, 8, 9, 11, 12])]:
    for place in places:
        case(f"{kind} with mark 2 at place {place}", sheet, field(at, place, "2"), f"e,4,{at}", '"Marks are 0 or 1"')
for kind in (12, 13, 14, 65535):
    case(f"kind {kind}", LEAF, field(2, 1, str(kind)), "e,4,2", "document 01, the kinds of T lines")
case("need 3", LEAF, field(2, 7, "3"), "e,4,2", '"0 unspecified, 1 single, 2 keyed"')
case("rowkind 3", QUIET, field(5, 3, "3"), "e,4,5", '"rowkind 0 exact, 1 estimate, 2 absent"')
case("kind 12 and no child", LEAF, line(2, "T,12,1,0,,0,0,0,0"), "e,4,2", "lowest number: 4 before 6")

# Row 6: child counts.
for kind in (1, 2, 3, 4, 7, 8, 10, 11):
    for children in (0, 2):
        case(f"kind {kind} with {children} children", LEAF, both(field(2, 1, str(kind)), field(2, 8, str(children))), "e,6,2", '"the rest one"')
for kind in (5, 6):
    for children in (1, 3):
        case(f"kind {kind} with {children} children", LEAF, both(field(2, 1, str(kind)), field(2, 8, str(children))), "e,6,2", '"Kinds 5 and 6 have two children"')
case("a union without children", LEAF, field(2, 1, "9"), "d,0,0,0,0 t,1,9,1,0,,0,0,0,0", '"0 and 9 any number"')

# Row 7: target and batch.
for place, value in [(1, "0"), (1, "4097"), (1, "65535"), (4, "0")]:
    case(f"{value} at place {place} of D", LEAF, field(1, place, value), "e,7,0", '"target 1..4096, batch from 1"')
for place, value in [(1, "1"), (1, "4096"), (4, "1"), (4, "65535"), (6, "65535"), (7, "65535")]:
    case(f"{value} at place {place} of D", LEAF, field(1, place, value), LEAF_SAME, '"target 1..4096, batch from 1, subset and files numbers"')
case("7 and 8", LEAF, both(field(1, 1, "0"), line(4, "Y,1")), "e,7,0", "Sheet in table order")
case("7 and 2", LEAF, both(field(1, 1, "0"), line(4, "Y,00")), "e,2,4", "Line before Sheet")
case("7 and 1", LEAF, both(field(1, 4, "0"), more("Y")), "e,1,5", "Line before Sheet")

# Row 8: X rows and masks that don't fit.
ROW = "X,{},{},{},0,0,0,0,0,0,0,0,0,0"
for name, edit in [
    ("the row of form 0 twice", put(7, ROW.format(1, 0, 1))),
    ("a row of a form that isn't passed, twice", put(7, ROW.format(1, 12, 4), ROW.format(1, 12, 4))),
    ("a row of child 0", put(7, ROW.format(0, 0, 1))),
    ("a row of child 2 of one", put(7, ROW.format(2, 0, 1))),
    ("a row of child 65535", put(7, ROW.format(65535, 0, 1))),
    ("form 16", put(7, ROW.format(1, 16, 4))),
    ("form 65535", put(7, ROW.format(1, 65535, 4))),
    ("form 0 with another count", field(6, 3, "2")),
    ("form 0 with another order", field(6, 13, "1")),
    ("a merge of two partitions", put(7, ROW.format(1, 2, 2))),
    ("a merge over a split, of two partitions", put(7, ROW.format(1, 3, 2))),
    ("a mask bit beyond the children", line(7, "Y,2,0")),
    ("a mask bit beyond the children in the last set", line(7, "Y,0,32768")),
    ("a constant entry where none is required", field(6, 10, "1")),
    ("a constant entry beyond the entries", both(field(5, 7, "1"), field(6, 10, "2"))),
    ("a ninth constant entry of eight", both(field(5, 7, "8"), field(6, 10, "256"))),
]:
    case(name, QUIET, edit, "e,8,0", "row 8")
for form in range(4, 16):
    case(f"form {form}, not of the target's count", QUIET, put(7, ROW.format(1, form, 1)), "e,8,0", '"its count isn\'t target (topmost is an exchange or round robin)"')
    case(f"form {form}, of the target's count", QUIET, put(7, ROW.format(1, form, 4)), QUIET_SAME, "row 8; rows that aren't needed may stand there")
for form, count in [(1, 0), (1, 65535), (2, 1), (3, 1)]:
    case(f"form {form} of count {count}", QUIET, put(7, ROW.format(1, form, count)), QUIET_SAME, "row 8; rows that aren't needed may stand there")
case("a row of a leaf", LEAF, put(4, ROW.format(1, 0, 1)), "e,8,0", "row 8, child unknown")
case("a mask bit of a leaf", LEAF, line(4, "Y,1"), "e,8,0", "row 8, a Y bit beyond the children")
case("129 X rows", eight(ALL_ROWS + ALL_ROWS[:1]), same, "e,8,0", "row 8: one of them is repeated")
case("256 X rows", eight(ALL_ROWS + ALL_ROWS), same, "e,8,0", "row 8")
case("129 X rows, the last with a wrong mark", eight(ALL_ROWS + ["X,1,0,1,0,2,0,0,0,0,0,0,0,0"]), same, "e,4,148", "Line before Sheet")
case("8 and 2", QUIET, both(field(6, 3, "2"), line(7, "Y,0,")), "e,2,7", "Line before Sheet")
case("8 and 9", QUIET, line(6, ROW.format(1, 16, 4)), "e,8,0", "Sheet before Work")

# Row 9: a row that is needed and missing, for each form. Forms 10, 11, 14 and 15 are never passed: a relationship exchange is given to keyed children alone.
SPLIT_FIRST = both(field(1, 3, "1"), both(field(6, 6, "1"), put(9, ROW.format(1, 1, 4))))  # the first of two children is split at its source
for name, sheet, edit in [
    ("form 0", QUIET, drop(6)),
    ("form 0 of a child that is split", SPLIT, drop(6)),
    ("form 0 of a keyed child", PAIR, drop(8)),
    ("form 1", SPLIT, drop(7)),
    ("form 2", MERGED, drop(7)),
    ("form 3", SPLIT, field(3, 7, "1")),
    ("form 4", HASHED, drop(9)),
    ("form 4 of the second child", HASHED, drop(11)),
    ("form 5", SPLIT, field(3, 7, "2")),
    ("form 6", DEALT, drop(7)),
    ("form 7", SPLIT, both(field(7, 3, "2"), drop(8))),
    ("form 8 in the first round", PAIR, drop(9)),
    ("form 8 in the second round", PAIR, drop(11)),
    ("form 9", PAIR, SPLIT_FIRST),
    ("form 12", HASHED, both(field(9, 5, "0"), line(12, "Y,1,0,0,0"))),
    ("form 13", HASHED, both(SPLIT_FIRST, both(put(10, "X,1,5,4,0,0,1,1,0,0,0,0,0,0"), line(14, "Y,1,0,0,0")))),
]:
    case(f"{name} is missing", sheet, edit, "e,9,0", '"Rows needed are those of each form a child passes through, 0 included"')
case("9 and 12", QUIET, drop(6), "e,9,0", "Work before Write", room=0)
case("a missing row, written again", QUIET, drop(6), QUIET.replace("X,1,0,1,0,0,0,0,0,0,0,0,0,0 ", ""), "written again: refusals 1 to 8 and 12 alone", entry=WRITE)

# Row 11: rounds that end in an error.
for name, edit in [
    ("the first child asked again", line(12, "Y,1,1,0,0")),
    ("both asked again", line(12, "Y,3,0,0,3")),
    ("a child that is hashed already", field(8, 5, "1")),
    ("a child whose need is unspecified", field(3, 7, "0")),
    ("a child whose need is single", field(3, 7, "1")),
]:
    case(f"a round changes nothing: {name}", PAIR, edit, "e,11,0", "row 11")
case("11 and 12", PAIR, line(12, "Y,1,1,0,0"), "e,11,0", "Work before Write", room=0)
case("a round that changes nothing, written again", PAIR, line(12, "Y,1,1,0,0"), PAIR.replace("Y,1,2,0,0", "Y,1,1,0,0"), "written again: refusals 1 to 8 and 12 alone", entry=WRITE)

# Decisions.
case("no child unsatisfied", PAIR, line(12, "Y,0,3,3,3"), PAIR_NONE, "the set of no children has no unsatisfied one")
case("both in one round", PAIR, line(12, "Y,3,0,0,0"), PAIR_BOTH, '"relationship rounds"')
case("the second child alone", PAIR, line(12, "Y,2,0,0,0"), PAIR_SECOND, '"bit n for child n+1"')
case("round robin by the count after the split", SPLIT, field(7, 3, "2"), "d,1,0,0,0 t,1,0,1,0,,0,0,0,1 t,0,13,4,0,,0,0,1,1 t,2,0,2,0,,0,0,1,0", '"Wrong, though plausible: testing round robin only before the split"')
case("a merge over a split", SPLIT, both(field(3, 7, "1"), line(8, ROW.format(1, 3, 1))), "d,1,0,0,0 t,1,0,1,0,,0,0,0,1 t,0,2,1,0,,0,0,1,1 t,2,0,4,0,,0,0,1,0", "a single need and four partitions after the split")
case("a keyed exchange over a split", SPLIT, both(field(3, 7, "2"), line(8, ROW.format(1, 5, 4))), "d,1,0,0,0 t,1,0,1,0,,0,0,0,1 t,0,12,4,0,,0,0,1,1 t,2,0,4,0,,0,0,1,0", "a keyed need that its row does not meet")
case("a relationship exchange over a split", PAIR, both(SPLIT_FIRST, put(10, "X,1,9,4,1,1,1,1,0,0,0,0,0,0")), "d,1,0,0,0 t,1,5,1,0,,0,0,0,2 t,0,12,4,0,,0,0,1,1 t,2,0,4,0,,0,0,1,0 t,0,12,4,0,,0,0,1,1 t,3,0,1,0,,0,0,1,0", "necessity goes by the count before the split; then the rounds")
case("X rows the other way about", HASHED, both(swap(8, 11), swap(9, 10)), HASHED_BOTH, "X rows in any order")
case("a limited merge is the worked node", LEAF, both(put(2, "T,1,1,0,0,0,0,0,1"), put(5, "F,0,1,2,0,0,0,0", ROW.format(1, 0, 1))), "e,2,7", "two sets of one child, one mask")
case("a limited merge is the worked node, with its masks", LEAF, both(put(2, "T,1,1,0,0,0,0,0,1"), both(put(5, "F,0,1,2,0,0,0,0", ROW.format(1, 0, 1)), line(7, "Y,0,0"))), "d,1,0,0,0 t,1,1,1,0,0,0,0,0,1 t,2,0,1,0,,0,0,1,0", "decision 1: a merge with a limit stays")
case("a chain of exchanges that ends in a leaf", LEAF, put(2, "T,3,4,0,,0,0,0,1", "T,2,1,0,,0,0,0,1", "T,1,1,0,,0,0,0,1"), "d,1,0,0,0 t,4,0,1,0,,0,0,0,0", '"the first T line not of kinds 1 to 4"; its own mark is on the sheet')
