"""MPS files as models: fixed columns and free ones.

    bprice-mps FILE.mps [OUT.lp] [--fixed | --free]         or: python3 -m bprice.mps ..

writes the LP text of a model of whole variables, to standard output where no name is given. Numbers are taken as they are written in decimals,
and rows are multiplied to whole numbers. What bprice can't solve is refused by its name: variables that are continuous, or without an end that
any row gives; sections that are not of linear models. Standard error has a line for each bound that a row gave, and for what readers of MPS
files don't agree on. The LP text begins with comments that tell which names were changed, and the scale of the objective where it is not 1.

The format is that of International Business Machines, "Mathematical Programming System/360, Linear and Separable Programming: User's Manual"
(1971), with integer markers, objective senses and bounds as later solvers read them.
"""
import re
import sys

from bprice.exact import Refused, exact
from bprice.model import Model

FIELDS = (1, 3), (4, 12), (14, 22), (24, 36), (39, 47), (49, 61)  # of fixed columns
MARKS = {"L": "<=", "G": ">=", "E": "="}
SENSES = {"MAX": "max", "MAXIMIZE": "max", "MAXIMISE": "max", "MIN": "min", "MINIMIZE": "min", "MINIMISE": "min"}
NUMBERED, PLAIN = ("UP", "LO", "FX", "LI", "UI"), ("BV", "FR", "MI", "PL")  # bounds with a number, and without
INTEGER = ("BV", "LI", "UI")  # bounds that make a variable an integer one
INFINITE = 10**20  # bounds of this magnitude and more are none


class Column:
    """A variable: its terms by row, whether it is whole, and its ends, None where they are infinite."""

    def __init__(self, is_integer):
        self.terms, self.is_integer, self.is_marked, self.low, self.high, self.given = {}, is_integer, is_integer, 0, None, set()


class Reader:
    """Takes the lines of an MPS text. `rows` has each row's mark by name, `sides` and `ranges` have numbers by row."""

    def __init__(self, is_fixed, tell):
        self.is_fixed, self.tell, self.line = is_fixed, tell, 0
        self.section, self.sense, self.objective, self.is_integer, self.is_ended = None, "min", None, False, False
        self.rows, self.columns, self.sides, self.ranges = {}, {}, {}, {}
        self.column = None  # the last column's name, which a line without one goes on with
        self.sets = {}  # of right sides, ranges and bounds the first one counts

    def need(self, is_right, words):
        if not is_right:
            raise Refused(f"mps {self.line}: {words}")

    def read(self, text):
        for self.line, line in enumerate(text.split("\n"), 1):
            line = line.rstrip()
            if not line or line.startswith("*"):
                continue
            if not line.startswith((" ", "\t")):
                self.begin(line.split())
            else:
                self.need(self.section is not None, "a line before the first section")
                getattr(self, "take_" + self.section.lower())(self.fields(line))
            if self.is_ended:
                return
        self.need(False, "the text ends without ENDATA")

    def begin(self, words):
        word = words[0].upper()
        if self.section == "OBJSENSE" and word in SENSES:  # some writers don't indent it
            self.take_objsense(words)
            return
        if word in ("NAME", "ENDATA"):
            self.section, self.is_ended = None, word == "ENDATA"
            return
        self.need(word in ("OBJSENSE", "OBJSENS", "ROWS", "COLUMNS", "RHS", "RANGES", "BOUNDS"),
                  f"the section {words[0]!r}, which bprice does not know")
        self.section = "OBJSENSE" if word == "OBJSENS" else word
        if self.section == "OBJSENSE" and len(words) > 1:
            self.take_objsense(words[1:])

    def fields(self, line):
        """The words of a line. From the third one on, a word that begins with `$` begins a comment."""
        if not self.is_fixed:
            words = line.split()
            return words[:next((place for place, word in enumerate(words) if place >= 2 and word.startswith("$")), None)]
        parts = [line.expandtabs()[low:high].strip() for low, high in FIELDS]
        for place in (2, 4):
            if parts[place].startswith("$"):
                parts[place:] = [""] * (len(parts) - place)
        if self.section == "ROWS":
            return parts[:2]
        if self.section == "BOUNDS":
            return parts[:4] if parts[3] else parts[:3]
        if self.section == "OBJSENSE":
            return line.split()
        filled = parts[1:6] if parts[4] else parts[1:4]
        return filled if filled[0] else filled[1:]

    def take_objsense(self, words):
        self.need(len(words) == 1 and words[0].upper() in SENSES, "an objective's sense other than MAX and MIN")
        self.sense = SENSES[words[0].upper()]

    def take_rows(self, words):
        self.need(len(words) == 2 and words[0].upper() in ("N", *MARKS), "no row's type and name")
        mark, name = words[0].upper(), words[1]
        self.need(name not in self.rows, f"a second row {name!r}")
        self.rows[name] = mark
        if mark == "N" and self.objective is None:
            self.objective = name
        elif mark == "N":
            self.tell(f"bprice: the row {name} is a second one without a side, and is left out")

    def take_columns(self, words):
        if len(words) >= 3 and words[1].strip("'\"").upper() == "MARKER":
            kind = next((word.strip("'\"").upper() for word in words[2:] if word), "")
            self.need(kind in ("INTORG", "INTEND"), f"the marker {kind!r}, which bprice does not know")
            self.is_integer = kind == "INTORG"
            return
        words = words if len(words) % 2 else [self.column, *words]
        self.need(len(words) in (3, 5) and words[0] is not None, "no column's name with rows and numbers")
        self.column = words[0]
        column = self.columns.setdefault(words[0], Column(self.is_integer))
        for row, number in zip(words[1::2], words[2::2]):
            self.need(row in self.rows, f"the row {row!r}, which the file does not have")
            self.need(row not in column.terms, f"a second number of {words[0]!r} in the row {row!r}")
            column.terms[row] = self.number(number)

    def number(self, text):
        """A number as a fraction, None for one that is infinite, with its sign lost."""
        if re.fullmatch(r"[+-]?inf(inity)?", text, re.IGNORECASE):
            return None
        self.need(re.fullmatch(r"[+-]?(\d+\.?\d*|\.\d+)([eEdD][+-]?\d{1,4})?", text), f"{text!r}, which is no number")
        return exact(text.lower().replace("d", "e"), f"line {self.line}")

    def is_first_set(self, kind, name):
        """Whether a line is of the first set of its section: others are alternatives, which are left out."""
        if self.sets.setdefault(kind, name) == name:
            return True
        self.tell(f"bprice: {kind} has a second set, {name}, which is left out")
        return False

    def take_sides(self, kind, words, numbers):
        self.need(len(words) in (2, 3, 4, 5), "no row's name and number")
        has_set = len(words) % 2
        if not self.is_first_set(kind, words[0] if has_set else ""):
            return
        for row, number in zip(words[has_set::2], words[has_set + 1::2]):
            self.need(row in self.rows, f"the row {row!r}, which the file does not have")
            self.need(row not in numbers, f"a second number of the row {row!r}")
            numbers[row] = self.number(number)
            self.need(numbers[row] is not None, f"an infinite number of the row {row!r}")

    def take_rhs(self, words):
        self.take_sides("RHS", words, self.sides)

    def take_ranges(self, words):
        self.take_sides("RANGES", words, self.ranges)

    def take_bounds(self, words):
        self.need(len(words) >= 2, "no bound")
        kind, rest = words[0].upper(), words[1:]
        self.need(kind in NUMBERED or kind in PLAIN, f"a bound {kind} of {rest[-1] if len(rest) == 1 else rest[1]!r}, which bprice does not know")
        has_set = len(rest) == 3 or len(rest) == 2 and kind in PLAIN and rest[1] in self.columns
        set_name, rest = (rest[0], rest[1:]) if has_set else ("", rest)
        self.need(rest and rest[0] in self.columns, f"the column {rest and rest[0]!r}, which the file does not have")
        self.need(len(rest) == 2 or len(rest) == 1 and kind in PLAIN, "no bound")
        if self.is_first_set("BOUNDS", set_name):
            self.bound(kind, rest[0], self.columns[rest[0]], rest[1] if kind in NUMBERED else None)

    def bound(self, kind, name, column, text):
        """One bound of a column. A number of 10^20 and more is none."""
        value = None if text is None else self.number(text)
        value = None if value is not None and abs(value) >= INFINITE else value
        column.is_integer = column.is_integer or kind in INTEGER
        if kind in ("UP", "UI"):
            column.high = value
            if value is not None and value < 0 and "low" not in column.given and column.low == 0:
                column.low = None
                self.tell(f"bprice: {name} has a negative upper bound and no lower one: it has none then, as most readers take it")
        elif kind in ("LO", "LI"):
            column.low = value
        elif kind in ("FX", "BV"):
            column.low, column.high = (value, value) if kind == "FX" else (0, 1)
        else:
            column.low = column.low if kind == "PL" else None
            column.high = column.high if kind == "MI" else None
        column.given |= {"UP": {"high"}, "UI": {"high"}, "PL": {"high"}, "LO": {"low"}, "LI": {"low"}, "MI": {"low"}}.get(kind, {"low", "high"})

    def row_sides(self, name, mark):
        """The least and the greatest sum of a row, with its range."""
        side, spread = self.sides.get(name, exact(0, "")), self.ranges.get(name)
        low, high = (None if mark == "L" else side), (None if mark == "G" else side)
        if spread is None:
            return low, high
        if mark == "E":
            return (side, side + spread) if spread >= 0 else (side + spread, side)
        return (side - abs(spread), side) if mark == "L" else (side, side + abs(spread))

    def constant(self):
        """The objective's constant: the right side of its row with the other sign."""
        side = self.sides.get(self.objective, 0)
        if side:
            self.tell(f"bprice: the right side {side} of the objective is the constant {-side}, as CPLEX and CBC take it (GLPK takes it as {side})")
        return -side

    def model(self):
        """The model of what was read."""
        model = Model(self.sense, self.tell)
        for name, column in self.columns.items():
            if column.is_marked and not column.given:
                column.high = 1
                self.tell(f"bprice: {name} is an integer without bounds: it is 0 or 1 then, as most readers take it")
            is_fixed = None not in (column.low, column.high) and column.low == column.high and column.low == int(column.low)
            if not column.is_integer and not is_fixed:
                raise Refused(f"the variable {name!r} is continuous; bprice solves models of whole variables alone")
            model.add_variable(name, column.low, column.high)
        by_row = {row: {} for row in self.rows}
        for name, column in self.columns.items():
            for row, number in column.terms.items():
                if number is None:
                    raise Refused(f"the coefficient of {name!r} in the row {row!r} is infinite")
                by_row[row][name] = number
        model.set_objective(by_row.get(self.objective, {}), self.constant())
        for row, mark in self.rows.items():
            if mark != "N":
                model.add_row(row, by_row[row], *self.row_sides(row, mark))
        return model


def parse(text, form=None, tell=None):
    """
    The model of an MPS text.

    :param form: "fixed", "free", or None: free columns, and fixed ones where the text can't be read so, as with spaces in names
    :param tell: called with a line of text for what is worth telling
    :raises Refused: with the line or the name of what is at fault
    """
    faults = []
    for is_fixed in {"fixed": (True,), "free": (False,), None: (False, True)}[form]:
        told = []
        reader = Reader(is_fixed, told.append)
        try:
            reader.read(text)
        except Refused as refused:
            faults.append((reader.line, refused))
            continue
        reader.tell = tell or (lambda line: None)
        for line in told:
            reader.tell(line)
        return reader.model()
    raise max(faults, key=lambda fault: fault[0])[1]  # of the reading that came further


def read(path, form=None, tell=None):
    """The model of an MPS file, see `parse`."""
    with open(path, encoding="utf-8", errors="surrogateescape", newline=None) as file:
        return parse(file.read(), form, tell)


def annotated(model):
    """The LP text of a model, behind comments that tell which names were changed and the scale of the objective."""
    text = model.text()
    notes = [f"\\ {own} is the {kind} {name}" for kind, names in (("variable", model.own), ("row", model.row_names))
             for name, own in names.items() if name != own]
    if model.scale != 1:
        notes.append(f"\\ the objective is {model.scale} times that of the MPS file")
    return "".join(f"{note}\n" for note in notes).encode("utf-8", "surrogateescape") + text.encode("ascii")


def main(words=None):
    """The command line's status: 0, 2 for other words, 3 for a text that is refused, 7 and 11 for files."""
    words = sys.argv[1:] if words is None else words
    names, forms = [word for word in words if not word.startswith("--")], [word for word in words if word.startswith("--")]
    if len(names) not in (1, 2) or len(forms) > 1 or not set(forms) <= {"--fixed", "--free"}:
        print(__doc__.strip(), file=sys.stderr)
        return 0 if words in (["--help"], ["-h"]) else 2
    try:
        text = annotated(read(names[0], forms[0][2:] if forms else None, lambda line: print(line, file=sys.stderr)))
        if len(names) == 1:
            sys.stdout.buffer.write(text)
        else:
            with open(names[1], "wb") as file:
                file.write(text)
    except Refused as refused:
        print(f"{names[0]}: {refused}", file=sys.stderr)
        return 3
    except OSError as fault:
        print(f"bprice-mps: {fault}", file=sys.stderr)
        return 11 if isinstance(fault, FileNotFoundError) else 7
    return 0


if __name__ == "__main__":
    sys.exit(main())
