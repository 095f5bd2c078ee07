"""Pure integer programs in whole numbers: built by hand or from other formats, read from and written as LP texts."""
import math

from bprice import answer, lp
from bprice.exact import Refused, end_of, exact, names_of


class Row:
    """A row: the sum of `terms` ({variable: coefficient}) is at least `low` and at most `high`, None where that side is open. All are whole."""

    def __init__(self, name, terms, low=None, high=None):
        self.name, self.terms, self.low, self.high = name, {variable: a for variable, a in terms.items() if a}, low, high

    @classmethod
    def scaled(cls, name, terms, low, high):
        """The row of fractions, multiplied by the least number that makes them whole, and divided by what they have in common."""
        sides = [side for side in (low, high) if side is not None]
        scale = math.lcm(*(number.denominator for number in (*sides, *terms.values())))
        common = math.gcd(*(int(number * scale) for number in (*sides, *terms.values()))) or 1
        low, high = (None if side is None else int(side * scale) // common for side in (low, high))
        return cls(name, {variable: int(a * scale) // common for variable, a in terms.items()}, low, high)

    def activity(self, point):
        """The row's sum at a point {variable: value}."""
        return sum(a * point[variable] for variable, a in self.terms.items())

    def admits(self, point):
        """Whether a point meets the row."""
        total = self.activity(point)
        return (self.low is None or self.low <= total) and (self.high is None or total <= self.high)


class Model:
    """
    A pure integer program. Numbers that are not whole are multiplied to whole ones, exactly.

    `sense` is "min" or "max". `costs` and `constant` are the objective times `scale`, which is 1 where the objective is whole. `spans` has the
    least and the greatest value of each variable, None where it has none yet. `rows` has each row by its name. `tell` is called with a line
    of text where a bound is taken from a row; `taken` has these bounds then: by (variable, 0 for the lower and 1 for the upper end) the row's
    name, and the ends of other variables that the row needed for it.
    """

    ADVICE = {"lower": "give it one", "upper": "give it one"}  # what to do about a bound that is missing

    def __init__(self, sense="min", tell=None):
        if sense not in ("min", "max"):
            raise Refused(f"the sense is 'min' or 'max', not {sense!r}")
        self.sense, self.tell = sense, tell or (lambda line: None)
        self.costs, self.constant, self.scale = {}, 0, 1
        self.spans, self.rows, self.taken = {}, {}, {}

    @classmethod
    def read(cls, path):
        """The model of an LP file. Raises Refused with the line and the kind of its first fault, and OSError where it can't be read."""
        with open(path, "rb") as file:
            return cls.parse(file.read())

    @classmethod
    def parse(cls, text):
        """The model of an LP text, as str or bytes. Raises Refused with the line and the kind of its first fault."""
        parsed = lp.parse(text)
        model = cls(parsed.sense)
        model.costs, model.constant, model.spans = parsed.costs, parsed.constant, parsed.spans
        model.rows = {name: Row(name, terms, low, high) for name, (terms, low, high) in parsed.rows.items()}
        return model

    def add_variable(self, name, low=0, high=None):
        """A variable with whole values. Fractional ends are rounded inwards; None, or an infinite float, leaves an end to the rows."""
        if name in self.spans:
            raise Refused(f"two variables have the name {name!r}")
        low, high = end_of(low, f"a bound of {name}"), end_of(high, f"a bound of {name}")
        self.spans[name] = None if low is None else math.ceil(low), None if high is None else math.floor(high)

    def add_row(self, name, terms, low=None, high=None):
        """A row: `terms` is {variable: coefficient}; the sum is at least `low` and at most `high`, and equal to both where they are equal."""
        if name in self.rows:
            raise Refused(f"two rows have the name {name!r}")
        if low is None and high is None:
            raise Refused(f"the row {name!r} has neither a least nor a greatest sum")
        terms = {variable: exact(a, f"row {name}, {variable}") for variable, a in terms.items()}
        self.need_known(terms, f"row {name}")
        self.rows[name] = Row.scaled(name, terms, *(end_of(side, f"the right side of row {name}") for side in (low, high)))

    def set_objective(self, terms, constant=0, sense=None):
        """The objective: {variable: cost}, a constant, and "min" or "max" where the sense is to change."""
        terms = {variable: exact(cost, f"objective, {variable}") for variable, cost in terms.items()}
        self.need_known(terms, "the objective")
        constant = exact(constant, "the objective's constant")
        self.scale = math.lcm(constant.denominator, *(cost.denominator for cost in terms.values()))
        self.costs = {variable: int(cost * self.scale) for variable, cost in terms.items() if cost}
        self.constant, self.sense = int(constant * self.scale), sense or self.sense

    def need_known(self, terms, where):
        unknown = next((variable for variable in terms if variable not in self.spans), None)
        if unknown is not None:
            raise Refused(f"{where} has the variable {unknown!r}, which the model does not have")

    @property
    def is_crossed(self):
        """Whether a variable has no whole number within its bounds, which no LP text can say."""
        return any(None not in span and span[0] > span[1] for span in self.spans.values())

    def bound_by_rows(self):
        """Takes bounds that are missing from the rows, again as long as that gives one more. Raises Refused where one is still missing."""
        missing = sum(span.count(None) for span in self.spans.values())
        while missing:
            for row in self.rows.values():
                if any(None in self.spans[name] for name in row.terms):
                    self.bound_by_row(row)
            left = sum(span.count(None) for span in self.spans.values())
            if left == missing:
                name = next(name for name, span in self.spans.items() if None in span)
                end = "lower" if self.spans[name][0] is None else "upper"
                raise Refused(f"the variable {name!r} has no {end} bound, and no row gives one: {self.ADVICE[end]}")
            missing = left

    def bound_by_row(self, row):
        for sign, side in ((1, row.high), (-1, None if row.low is None else -row.low)):
            if side is None:
                continue
            # sign * (the row's sum) is at most the side: what the other terms add at least leaves so much for one.
            least = {name: self.least(name, sign * a) for name, a in row.terms.items()}
            endless, total = [name for name, value in least.items() if value is None], sum(filter(None, least.values()))
            for name in endless if endless else row.terms:
                if len(endless) > 1:
                    break
                self.tighten(row, name, sign, side - total + (least[name] or 0))

    def tighten(self, row, name, sign, room):
        """The row's term of a variable, times `sign`, is at most `room`: that gives the bound that is missing."""
        a, (low, high) = sign * row.terms[name], self.spans[name]
        if self.spans[name][a > 0] is None:
            self.taken[name, int(a > 0)] = row.name, [(other, int(sign * b < 0)) for other, b in row.terms.items() if other != name]
        if a > 0 and high is None:
            high = room // a
            self.spans[name] = low, high if low is None else max(low, high)
            self.tell(f"bprice: {name} has no upper bound; row {row.name} gives {self.spans[name][1]}")
        elif a < 0 and low is None:
            low = -(room // -a)
            self.spans[name] = low if high is None else min(low, high), high
            self.tell(f"bprice: {name} has no lower bound; row {row.name} gives {self.spans[name][0]}")

    def least(self, name, a):
        end = self.spans[name][a < 0]
        return None if end is None else a * end

    @property
    def own(self):
        """For each variable its name in the LP text, which differs where LP texts can't have the name."""
        return names_of(self.spans, "v")

    @property
    def row_names(self):
        """For each row its name in the LP text."""
        return names_of(self.rows, "r")

    def text(self):
        """The LP text; missing bounds are taken from the rows. Raises Refused where a bound is missing still, or where bounds cross."""
        if self.is_crossed:
            name = next(name for name, (low, high) in self.spans.items() if None not in (low, high) and low > high)
            raise Refused(f"the variable {name!r} has no whole number within its bounds")
        self.bound_by_rows()
        own, row_names = self.own, self.row_names

        def terms(by_name):
            return " ".join(f"{'-' if a < 0 else '+'} {abs(a)} {own[name]}" for name, a in by_name.items())
        zero, extra = next(iter(own.values()), None), []
        if zero is None and self.rows:
            zero, extra = "v1", [" 0 <= v1 <= 0"]
        constant = f" {'-' if self.constant < 0 else '+'} {abs(self.constant)}" if self.constant else ""
        objective = terms(self.costs) or (f"0 {next(iter(own.values()))}" if own else "")  # some readers of LP texts take no empty objective
        # Each name stands behind another token of its line, so that none is taken for a section's word.
        lines = ["Maximize" if self.sense == "max" else "Minimize", f" obj: {objective}{constant}", "Subject To"]
        lines += [f" {row_names[name]}: {sided(row, terms(row.terms) or f'0 {zero}')}" for name, row in self.rows.items()]
        lines += ["Bounds", *(f" {low} <= {own[name]} <= {high}" for name, (low, high) in self.spans.items()), *extra]
        # As first on its line a name of a list could be a section's word: those are renamed, see TAKEN.
        lines += ["Generals", *(f" {own[name]}" for name in self.spans), "End"]
        return "\n".join(lines) + "\n"

    def write(self, path):
        """Writes the LP text to a file."""
        with open(path, "w", encoding="ascii", newline="\n") as file:
            file.write(self.text())

    def decomposition(self, blocks):
        """The DEC text of blocks given as {name of a row: block}; rows without one, or with None, are master rows."""
        blocks, names = {name: block for name, block in blocks.items() if block is not None}, self.row_names
        unknown = next((name for name in blocks if name not in names), None)
        if unknown is not None:
            raise Refused(f"blocks name the row {unknown!r}, which the model does not have")
        order = list(dict.fromkeys(blocks[name] for name in self.rows if name in blocks))
        lines = [f"NBLOCKS {len(order)}"]
        for place, block in enumerate(order, 1):
            lines.append(f"BLOCK {place} " + " ".join(names[name] for name in self.rows if blocks.get(name) == block))
        return "\n".join(lines) + "\n"

    def admits(self, point):
        """Whether a point {variable: whole value} meets every bound and row."""
        return all((low is None or low <= point[name]) and (high is None or point[name] <= high) for name, (low, high) in self.spans.items()) \
            and all(row.admits(point) for row in self.rows.values())

    def value(self, point):
        """The objective's value at a point, in its own numbers."""
        return exact(sum(a * point[name] for name, a in self.costs.items()) + self.constant, "value") / self.scale

    def start(self, point):
        """A certificate that begins the search with a point {variable: value}, or None where that is no point of the model."""
        self.bound_by_rows()
        whole = {}
        for name in self.spans:
            value = point.get(name)
            if value is None or exact(value, name).denominator != 1:
                return None
            whole[name] = int(value)
        if not whole or not self.admits(whole):
            return None
        best = [a * self.spans[name][(a > 0) == (self.sense == "max")] for name, a in self.costs.items()]
        value = sum(a * whole[name] for name, a in self.costs.items()) + self.constant
        return (f"bpcert 1\nclaim bound {sum(best) + self.constant} value {value}\npoint{''.join(f' {whole[name]}' for name in self.order())}\n"
                "open 1 rows 0 priced 0\nend\n")

    def order(self):
        """The variables' names by their first place in the LP text."""
        names = dict.fromkeys(self.costs or list(self.spans)[:1])
        for row in self.rows.values():
            names.update(dict.fromkeys(row.terms or list(self.spans)[:1]))
        return list(dict.fromkeys([*names, *self.spans]))

    def solve(self, **options):
        """Solves the model; the options and the answer are those of `bprice.solve`, in the model's own names and numbers."""
        return answer.solve(self, **options)


def sided(row, terms):
    """A row's text between or beside its sides."""
    if row.low == row.high:
        return f"{terms} = {row.low}"
    if None in (row.low, row.high):
        return f"{terms} >= {row.low}" if row.high is None else f"{terms} <= {row.high}"
    return f"{row.low} <= {terms} <= {row.high}"
