"""A checker of VIPR files, written from the description of the format alone: K. K. H. Cheung, A. Gleixner, D. E. Steffy, "Verifying Integer Programming
Results", 2017, and the page that its program has on files of version 1.1. It knows nothing of bprice, and all its numbers are exact.

    tools/tests/vipr.py FILE            prints what is proved, or why the file proves nothing (status 1)

Words are separated by white space; lines that begin with `%` may stand above VER. Indices count from 0, constraints through CON and DER. A vector is its
number of entries and for each an index and a number, whole or `p/q`; in place of a constraint's vector `OBJ` is the objective's. A constraint is a name,
a sense (`E`, `L`, `G`), a side and a vector; a derived one has behind it a reason in braces and the last constraint that uses it, or -1. Derivations of
version 1.1 that leave multipliers to be found (`lin incomplete`, `lin weak`) are not complete proofs, and are refused."""
import collections
import fractions
import math
import re
import sys

Constraint = collections.namedtuple("Constraint", "sense side terms assumed")  # sense: 1 at least, -1 at most, 0 equal; assumed: the assumptions it rests on
SENSES = {"G": 1, "L": -1, "E": 0}
NUMBER, COUNT = re.compile(r"[+-]?\d+(/\d+)?"), re.compile(r"\d+")


class Wrong(Exception):
    """Why a file proves nothing."""


def need(is_right, *why):
    if not is_right:
        raise Wrong(" ".join(map(str, why)))


class File:
    """The words of a file, and what was read of them."""

    def __init__(self, text):
        self.words, self.at = re.sub(r"\A(?:%[^\n]*\n)*", "", text).split(), 0
        self.variables, self.whole, self.objective, self.is_least = 0, set(), {}, True
        self.constraints, self.last_use, self.best = [], {}, None

    def word(self, *allowed):
        need(self.at < len(self.words), "the file ends too early")
        self.at += 1
        need(not allowed or self.words[self.at - 1] in allowed, self.words[self.at - 1], "stands where", allowed, "should")
        return self.words[self.at - 1]

    def count(self, most=math.inf):
        found = self.word()
        need(COUNT.fullmatch(found) and int(found) < most, "no index or count:", found)
        return int(found)

    def number(self):
        found = self.word()
        need(NUMBER.fullmatch(found) and not found.endswith("/0"), "no number:", found)
        return fractions.Fraction(found)

    def vector(self, most):
        entries = {}
        for _ in range(self.count()):
            index = self.count(most)
            need(index not in entries, "an index twice:", index)
            entries[index] = self.number()
        return {index: number for index, number in entries.items() if number}

    def constraint(self):
        self.word()
        sense, side = SENSES[self.word(*SENSES)], self.number()
        if self.at < len(self.words) and self.words[self.at] == "OBJ":
            self.at += 1
            return Constraint(sense, side, self.objective, frozenset())
        return Constraint(sense, side, self.vector(self.variables), frozenset())

    def read_model(self):
        self.word("VER"), self.word("1.0", "1.1"), self.word("VAR")
        self.variables = self.count()
        for _ in range(self.variables):
            self.word()
        self.word("INT")
        self.whole = {self.count(self.variables) for _ in range(self.count())}
        self.is_least = (self.word("OBJ"), self.word("min", "max"))[1] == "min"
        self.objective = self.vector(self.variables)
        self.word("CON")
        given, bounds = self.count(), self.count()
        need(bounds <= given, "more bounds than constraints")
        self.constraints = [self.constraint() for _ in range(given)]

    def read_claim(self):
        """The two ends of the range that is to be proved, None where there is no end, or no range for `infeas`."""
        self.word("RTP")
        if self.word("infeas", "range") == "infeas":
            return None
        ends = []
        for endless in ("-inf", "inf"):
            is_endless = self.at < len(self.words) and self.words[self.at] == endless
            ends.append(None if is_endless and self.word() else self.number())
        need(None in ends or ends[0] <= ends[1], "an empty range")
        return ends

    def read_points(self):
        """Each point meets all constraints; the best value of them."""
        self.word("SOL")
        for _ in range(self.count()):
            name, point = self.word(), self.vector(self.variables)
            need(all(point.get(j, 0) == int(point.get(j, 0)) for j in self.whole), name, "is not whole")
            need(all(holds(constraint, point) for constraint in self.constraints), name, "breaks a constraint")
            value = total(self.objective, point)
            self.best = value if self.best is None else min(self.best, value) if self.is_least else max(self.best, value)

    def read_derivations(self):
        self.word("DER")
        for _ in range(self.count()):
            stated, here = self.constraint(), len(self.constraints)
            self.word("{")
            kind = self.word("asm", "lin", "rnd", "uns")
            assumed, used = {"asm": self.assume, "lin": self.sum, "rnd": self.round, "uns": self.unsplit}[kind](stated, here)
            self.word("}")
            for index in used:
                need(self.last_use.get(index, here) >= here, "constraint", index, "is used behind its last use, by", here)
            last = self.word()
            need(re.fullmatch(r"-1|\d+", last), "no last use:", last)
            if last != "-1":
                self.last_use[here] = int(last)
            self.constraints.append(stated._replace(assumed=frozenset(assumed)))
        need(self.at == len(self.words), "words behind the last derivation")

    def assume(self, stated, here):
        return {here}, ()

    def weighed(self, here):
        """The sum of constraints that a reason writes, its assumptions, and the constraints. Weights of inequalities must not turn them against another."""
        weights, sense, side, terms, assumed = self.vector(here), 0, 0, collections.Counter(), set()
        for index, weight in weights.items():
            one = self.constraints[index]
            own = one.sense * (1 if weight > 0 else -1)
            need(own == 0 or sense in (0, own), "inequalities of both senses in", here)
            sense, side, assumed = own or sense, side + weight * one.side, assumed | one.assumed
            for j, a in one.terms.items():
                terms[j] += weight * a
        return Constraint(sense, side, {j: a for j, a in terms.items() if a}, assumed), weights

    def sum(self, stated, here):
        found, used = self.weighed(here)
        need(dominates(found, stated), "the sum does not imply", here)
        return found.assumed, used

    def round(self, stated, here):
        found, used = self.weighed(here)
        need(found.sense != 0, "an equation is rounded in", here)
        need(is_whole(found.terms, self.whole), "what is rounded is not whole in", here)
        rounded = found._replace(side=math.ceil(found.side) if found.sense > 0 else math.floor(found.side))
        need(dominates(rounded, stated), "the rounded sum does not imply", here)
        return found.assumed, used

    def unsplit(self, stated, here):
        low, low_part, high, high_part = (self.count(here) for _ in range(4))
        parts = [self.constraints[index] for index in (low_part, high_part)]
        need(all(index in part.assumed for index, part in zip((low_part, high_part), parts)), "no assumption is discharged in", here)
        need(parts[0].terms == parts[1].terms and is_whole(parts[0].terms, self.whole), "no split of whole numbers in", here)
        below, above = sorted(parts, key=lambda part: part.sense)
        need((below.sense, above.sense) == (-1, 1), "a split is not at most and at least in", here)
        need(below.side.denominator == above.side.denominator == 1 and below.side + 1 == above.side, "a split leaves a gap in", here)
        need(all(dominates(self.constraints[index], stated) for index in (low, high)), "a part does not imply", here)
        return (self.constraints[low].assumed - {low_part}) | (self.constraints[high].assumed - {high_part}), (low, low_part, high, high_part)


def is_whole(terms, variables):
    return all(j in variables and a.denominator == 1 for j, a in terms.items())


def total(terms, point):
    return sum(a * point.get(j, 0) for j, a in terms.items())


def holds(constraint, point):
    over = total(constraint.terms, point) - constraint.side
    return over == 0 if constraint.sense == 0 else over * constraint.sense >= 0


def is_absurd(constraint):
    return not constraint.terms and not holds(constraint, {})


def dominates(one, other):
    """Whether each point that meets the one meets the other, as the format asks for: absurd, or the same sum with a side that is as strong."""
    if is_absurd(one):
        return True
    if one.terms != other.terms or one.sense != other.sense and one.sense != 0:
        return False
    return one.side == other.side if other.sense == 0 else one.side * other.sense >= other.side * other.sense


def prove(text):
    """What a file proves, as a line; Wrong says why it proves nothing."""
    file = File(text)
    file.read_model()
    claim = file.read_claim()
    file.read_points()
    file.read_derivations()
    need(file.constraints, "there is nothing that proves the claim")
    last = file.constraints[-1]
    if claim is None:
        need(file.best is None, "a point of what is infeasible")
        need(is_absurd(last) and not last.assumed, "the last constraint is not absurd, or rests on assumptions")
        return "infeasible"
    reached, proved = claim[::-1] if file.is_least else claim
    if proved is not None:
        need(not last.assumed, "the last constraint rests on assumptions")
        need(dominates(last, Constraint(1 if file.is_least else -1, proved, file.objective, last.assumed)), "the last constraint does not imply the bound")
    if reached is not None:
        need(file.best is not None and (file.best <= reached if file.is_least else file.best >= reached), "no point reaches the range")
    return "range " + " ".join("none" if end is None else str(end) for end in claim)


if __name__ == "__main__":
    try:
        with open(sys.argv[1], encoding="latin-1") as given:
            print("proved", prove(given.read()))
    except Wrong as fault:
        sys.exit(f"wrong: {fault}")
