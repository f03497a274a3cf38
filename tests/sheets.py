"""Sheets and edits of them, for the cases that the program `replay` runs."""

MOST = 65536

# Entry points, by the letter that `replay` knows them by.
DECIDE = "d"
KEYS = "k"  # lochkave_adjust_input_keys_ordering
INPUTS = "i"  # lochkave_reorder_join_keys_to_inputs
EXCHANGES = "x"  # lochkave_ensure_distribution
WRITE = "w"  # lochkave_rewrite


def lines(text):
    """The lines of a text that has a space for each LF."""
    return "".join(line + "\n" for line in text.split(" ")).encode("latin-1")


# Edits: each takes the sheet's lines, with their LFs, and gives the new ones.
def same(sheet):
    return sheet


def line(number, text):
    """Another text in place of line `number`, from 1."""
    return lambda sheet: sheet[: number - 1] + [text.encode("latin-1") + b"\n"] + sheet[number:]


def drop(number):
    return lambda sheet: sheet[: number - 1] + sheet[number:]


def more(*texts):
    """Lines after the last."""
    return lambda sheet: sheet + [text.encode("latin-1") + b"\n" for text in texts]


def put(number, *texts):
    """Lines before line `number`."""
    return lambda sheet: sheet[: number - 1] + [text.encode("latin-1") + b"\n" for text in texts] + sheet[number - 1 :]


def field(number, place, text):
    """Another text in place of a field of line `number`: the first after the letter is 1."""

    def edit(sheet):
        fields = sheet[number - 1][:-1].split(b",")
        fields[place] = text.encode("latin-1")
        return sheet[: number - 1] + [b",".join(fields) + b"\n"] + sheet[number:]

    return edit


def swap(a, b):
    def edit(sheet):
        new = list(sheet)
        new[a - 1], new[b - 1] = sheet[b - 1], sheet[a - 1]
        return new

    return edit


def keep(number):
    """The first lines only."""
    return lambda sheet: sheet[:number]


def no_lf(sheet):
    """The last line without its LF."""
    return sheet[:-1] + [sheet[-1][:-1]]


def both(first, second):
    return lambda sheet: second(first(sheet))


ROWS = []


def case(name, base, edit, answer, fixed, entry=DECIDE, room=MOST):
    """`room` is a number, or "exact", or "one less" than the answer: then the sheet is right and `answer` what more room gives."""
    sheet = b"".join(edit([text + b"\n" for text in lines(base).split(b"\n")[:-1]]))
    ROWS.append((name, fixed, entry, room, sheet, lines(answer)))
