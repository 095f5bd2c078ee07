#!/usr/bin/env python3
"""Writes a certificate as a VIPR file, which checkers of other solvers' proofs read.

    tools/to_vipr.py LP CERT [FILE] [--dec DEC] [--lines N] [--states N] [--large]

The format is that of K. K. H. Cheung, A. Gleixner, D. E. Steffy, "Verifying Integer Programming Results", 2017, version 1.1: sections VER, VAR, INT, OBJ,
CON, RTP, SOL and DER, with the reasons `asm`, `lin`, `rnd` and `uns`. FILE gets it, or the standard output.

tools/check_certificate.py judges the certificate first; where it does not accept it, its report goes to standard error, and its status is the run's. A
constant of the objective, which the format does not have, is subtracted from the values in RTP. A leaf becomes one rounded sum of rows and of bounds, a
split two assumptions, a cut one rounded sum. A block that a leaf prices becomes a branch and bound of its own below that leaf; this is done for blocks
of at most 20 variables. Where a block has more, or more than N lines (1,000,000 where no number is given) would be derived, a sentence says so: status 1,
and nothing is written. --large: the certificate is of a larger model, as for `bprice check --large`.
"""
import argparse
import math
import pathlib
import sys
from collections import Counter, namedtuple
from fractions import Fraction

sys.dont_write_bytecode = True
sys.path.insert(0, str(pathlib.Path(__file__).resolve().parent))
import check_certificate  # noqa: E402
from check_certificate import INFINITE, Certificate, Judge, Model, form_blocks, read_dec  # noqa: E402

VERSION, MOST_VARIABLES, MOST_DEPTH = "1.1", 20, 500
Bound = namedtuple("Bound", "value index")  # of a variable or a row: the number, and the constraint that says so
Split = namedtuple("Split", "variable at before assumed")  # before: the variable's two bounds; assumed: the constraint of the part that is open
Problem = namedtuple("Problem", "name prices variables rows least")  # a block in one leaf; rows: terms by position, two bounds; least: what is to be shown


class NotWritten(Exception):
    """Why no file is written, as a sentence."""


class Derivations:
    """The derived constraints, each behind those that it rests on, and for each the last one that uses it."""

    def __init__(self, given, equations, most):
        self.given, self.most, self.texts, self.last_use = given, most, [], []
        self.equations = equations  # those of CON

    def add(self, name, sense, side, terms, reason, used):
        """Adds a constraint and gives its index. `terms` and `reason` are texts; `used` are the indices in the reason."""
        index = self.given + len(self.texts)
        if len(self.texts) >= self.most:
            raise NotWritten(f"more than {self.most} lines would be derived; --lines sets this limit")
        for other in used:
            if other >= self.given:
                self.last_use[other - self.given] = index
        self.texts.append(f"{name} {sense} {side} {terms} {{ {reason} }}")
        self.last_use.append(-1)
        return index

    def assume(self, variable, sense, side):
        index = self.given + len(self.texts)
        return self.add(f"asm:{index}", sense, side, sparse({variable: 1}), "asm", ())

    def combine(self, name, word, sense, side, terms, weights, exact=None):
        """Adds what a sum of constraints says: with `rnd` in place of `lin` its side is rounded. A sum of equations is an equation, and only inequalities are
        rounded; so there `exact`, the sum's own side, comes first."""
        weights = {index: weight for index, weight in weights.items() if weight}
        if word == "rnd" and self.equations.issuperset(weights):
            weights = {self.combine(name + ":exact", "lin", sense, exact, terms, weights): 1}
        return self.add(name, sense, side, terms, f"{word} {sparse(weights)}", weights)

    def join(self, name, sense, side, terms, parts):
        """Adds what holds in both parts of a split; parts are pairs of a derived constraint and the assumption that it may use."""
        numbers = [index for pair in parts for index in pair]
        return self.add(name, sense, side, terms, "uns " + " ".join(map(str, numbers)), numbers)

    def write(self, file):
        print(f"DER {len(self.texts)}", file=file)
        for text, last_use in zip(self.texts, self.last_use):
            print(text, last_use, file=file)


def sparse(numbers):
    """A vector: how many entries are not 0, then each with its index."""
    kept = sorted((index, number) for index, number in numbers.items() if number)
    return " ".join([str(len(kept)), *(f"{index} {number}" for index, number in kept)])


class Relaxation:
    """The linear relaxation of a block by the dual simplex method with bounds (C. E. Lemke, "The dual method of solving the linear programming problem",
    1954), with exact fractions and the least index in each choice (R. G. Bland, "New finite pivoting rules for the simplex method", 1977). Variables have
    two finite bounds, so their cheaper ends are a dual feasible start. Indices behind the variables are the rows' sums."""

    def __init__(self, prices, spans, rows):
        self.bounds = [*spans, *(sides for _, *sides in rows)]
        self.outside = {j: Fraction(price) for j, price in enumerate(prices)}  # the reduced costs of what is not in the basis
        self.is_high = {j: price < 0 for j, price in enumerate(prices)}  # which end each of these has
        self.basis = {len(prices) + i: {j: Fraction(terms.get(j, 0)) for j in self.outside} for i, (terms, *_) in enumerate(rows)}
        self.values, self.broken = {}, None
        while self.broken is None and self.step():
            pass

    def value(self, j):
        return self.bounds[j][self.is_high[j]].value

    def step(self):
        """Takes the first variable or sum past its bounds out of the basis; False where there is none. `broken` tells where that can't be done."""
        self.values = {i: sum(a * self.value(j) for j, a in row.items() if a) for i, row in self.basis.items()}
        for i in sorted(self.basis):
            low, high = self.bounds[i]
            if low.value <= self.values[i] <= high.value:
                continue
            sign, row = (1, self.basis[i]) if self.values[i] < low.value else (-1, self.basis[i])
            ways = [j for j in row if self.bounds[j][0].value < self.bounds[j][1].value and sign * row[j] * (-1 if self.is_high[j] else 1) > 0]
            if ways:
                self.pivot(i, min(ways, key=lambda j: (abs(self.outside[j] / row[j]), j)), sign < 0)
            else:
                self.broken = (i, sign)
            return True
        return False

    def pivot(self, i, j, is_high):
        """Has i leave the basis for one of its ends, and j enter."""
        row = self.basis.pop(i)
        factor = row.pop(j)
        row = {k: -a / factor for k, a in row.items()} | {i: 1 / factor}
        for other in [*self.basis.values(), self.outside]:
            weight = other.pop(j)
            for k, a in row.items():
                other[k] = other.get(k, 0) + weight * a
        self.basis[j], self.is_high[i] = row, is_high
        del self.is_high[j]

    def weights(self):
        """The weights of the constraints whose sum is the relaxation's bound, and that bound; or where no point meets the rows, those of a sum that says
        0 >= 1, and None."""
        signed = self.outside
        if self.broken is not None:
            i, sign = self.broken
            signed = {j: -sign * a for j, a in self.basis[i].items()} | {i: Fraction(sign)}
        ends = {j: self.bounds[j][weight < 0] for j, weight in signed.items() if weight}
        side, weights = sum(signed[j] * end.value for j, end in ends.items()), Counter()
        for j, end in ends.items():
            weights[end.index] += signed[j] if self.broken is None else signed[j] / side
        return weights, None if self.broken is not None else side


class BlockProof:
    """A derivation, by branch and bound, of the least that a block's part of a leaf's bound can be; or of `0 >= 1` where the block has no point."""

    def __init__(self, derivations, problem):
        self.derivations, self.problem = derivations, problem
        self.is_empty = problem.least >= INFINITE // 2
        self.side = 1 if self.is_empty else problem.least
        self.terms = sparse({} if self.is_empty else dict(zip(problem.variables, problem.prices)))

    def derive(self, spans, depth=0):
        """Adds what is to be shown within these bounds of the variables."""
        if depth > MOST_DEPTH:
            raise NotWritten(f"{self.problem.name} takes more than {MOST_DEPTH} splits one below another")
        relaxation = Relaxation([0] * len(spans) if self.is_empty else self.problem.prices, spans, self.problem.rows)
        weights, bound = relaxation.weights()
        if bound is None:
            return self.derivations.combine(self.problem.name, "lin", "G", 1, sparse({}), weights)
        if not self.is_empty and math.ceil(bound) >= self.side:
            return self.derivations.combine(self.problem.name, "rnd", "G", math.ceil(bound), self.terms, weights, bound)
        place, value = next((j, relaxation.values[j]) for j in range(len(spans)) if j in relaxation.values and relaxation.values[j].denominator > 1)
        parts = []
        for sense, at in (("L", math.floor(value)), ("G", math.ceil(value))):
            assumed, part = self.derivations.assume(self.problem.variables[place], sense, at), list(spans)
            part[place] = (spans[place][0], Bound(at, assumed)) if sense == "L" else (Bound(at, assumed), spans[place][1])
            parts.append((self.derive(part, depth + 1), assumed))
        return self.derivations.join(self.problem.name, "G", self.side, self.terms, parts)


class Translation:
    """A VIPR file from the texts of a model, a valid certificate and perhaps a decomposition."""

    def __init__(self, lp, cert, dec, most_lines, most_states, is_large=False):
        self.model = model = Model(lp)
        block_of, blocks, links = form_blocks(model, *read_dec(b"NBLOCKS 0" if dec is None else dec, model, is_large))
        self.cert = Certificate(cert, len(model.names), block_of, len(blocks), is_large)
        self.judge = Judge(model, blocks, links, most_states)
        self.given, self.rows, self.spans = [], [], []  # texts of CON's constraints; the bounds of each row, and of each variable in the zone at hand
        self.block_rows = {k: [i for i, own in enumerate(block_of[:len(model.rows)]) if own == k + 1] for k in self.judge.copies}
        self.write_constraints()
        self.rows += [None] * len(links)  # link rows say x - x = 0 here
        equations = {low.index for low, high in self.rows[:len(model.rows)] if low.index == high.index}
        self.derivations, self.priced = Derivations(len(self.given), equations, most_lines), {}
        claimed = self.cert.value if self.cert.bound is None else self.cert.bound
        self.goal = ("G", 1, sparse({})) if claimed is None else ("GL"[model.sign < 0], claimed - model.constant, "OBJ")
        self.add_cuts()
        self.add_tree()

    def write_constraints(self):
        """A row is one constraint, or two if it lies between two numbers; behind the rows each variable has two bounds."""
        names = list(self.model.row_names)
        for name, (terms, sides) in zip(names, self.model.rows):
            if sides[0] == sides[1]:
                index = self.give(name, "E", sides[0], terms)
                self.rows.append((Bound(sides[0], index), Bound(sides[1], index)))
            else:
                self.rows.append(tuple(Bound(side, self.give(name + end, sense, side, terms) if abs(side) != INFINITE else None)
                                       for sense, side, end in (("G", sides[0], ":low"), ("L", sides[1], ":high"))))
        for j, (name, span) in enumerate(zip(self.model.names, self.model.spans)):
            self.spans.append(tuple(Bound(side, self.give(name + end, sense, side, {j: 1}))
                                    for sense, side, end in (("G", span[0], ":lower"), ("L", span[1], ":upper"))))

    def give(self, name, sense, side, terms):
        self.given.append(f"{name} {sense} {side} {sparse(terms)}")
        return len(self.given) - 1

    def add_cuts(self):
        """Each cut is a rounded sum of its rows and of lower bounds, which make the coefficients whole. Another kind of cut would have its own method
        beside `add_rounding`, chosen here by the word of its line."""
        for place, (line, divisor, rows) in enumerate(self.cert.cuts):
            self.judge.add_cuts([(line, divisor, rows)])
            index = self.add_rounding(divisor, rows, self.judge.rows[-1], f"cut:{place + 1}")
            self.rows.append((Bound(self.judge.rows[-1].sides[0], index), Bound(INFINITE, None)))

    def add_rounding(self, divisor, rows, cut, name):
        weights, sums, exact = Counter(), Counter(), Fraction(0)
        for i, multiplier in rows.items():
            exact += Fraction(multiplier * self.rows[i][multiplier < 0].value, divisor)
            weights[self.rows[i][multiplier < 0].index] += Fraction(multiplier, divisor)
            for j, a in self.judge.rows[i].terms.items():
                sums[j] += multiplier * a
        for j, total in sums.items():
            weights[self.spans[j][0].index] += cut.terms[j] - Fraction(total, divisor)
        return self.derivations.combine(name, "rnd", "G", cut.sides[0], sparse(cut.terms), weights, exact)

    def add_tree(self):
        splits, halves = [], []  # the splits above the node at hand; for each of them what was derived in its low part, or None
        for node, bound in self.judge.bounds(self.cert.nodes):
            if node.word == b"split ":
                splits.append(Split(node.number, node.at, self.spans[node.number], None))
                halves.append(None)
                self.enter(splits, "L")
                continue
            done = self.add_leaf(node, bound)
            while splits and halves[-1] is not None:
                split, low = splits.pop(), halves.pop()
                self.spans[split.variable] = split.before
                done = self.derivations.join(f"split:{len(self.derivations.texts)}", *self.goal, [low, (done, split.assumed)])
            if splits:
                halves[-1] = (done, splits[-1].assumed)
                self.enter(splits, "G")

    def enter(self, splits, sense):
        """Assumes the low part of the innermost split, or its high part."""
        variable, at, (low, high), _ = splits[-1]
        side = at if sense == "L" else at + 1
        assumed = self.derivations.assume(variable, sense, side)
        splits[-1] = splits[-1]._replace(assumed=assumed)
        self.spans[variable] = (low, Bound(side, assumed)) if sense == "L" else (Bound(side, assumed), high)

    def add_leaf(self, leaf, bound):
        """The leaf's sum of rows, of blocks and of bounds, which says that the objective is as good as claimed at most, or 0 >= 1."""
        name, judge, model = f"line:{leaf.line}", self.judge, self.model
        prices = [leaf.number * cost - weighed for cost, weighed in zip(model.costs, judge.sums)]
        weights = Counter()
        for i, multiplier in judge.multipliers.items():
            if self.rows[i] is not None and multiplier:
                weights[self.rows[i][multiplier < 0].index] += multiplier
        for j in judge.alone:
            weights[self.spans[j][prices[j] < 0].index] += prices[j]
        for k, copies in judge.copies.items():
            empty = self.add_block(weights, k, [(prices[j] if row is None else judge.multipliers.get(row, 0), j) for j, row in copies], k in leaf.priced)
            if empty is not None:
                return self.derivations.combine(name, "lin", "G", 1, sparse({}), {empty: Fraction(1)})
        if leaf.number == 0:
            return self.derivations.combine(name, "lin", "G", 1, sparse({}), {index: Fraction(weight, bound) for index, weight in weights.items()})
        scale = leaf.number * model.sign
        exact = Fraction(bound, scale) - model.constant
        side = math.ceil(exact) if model.sign > 0 else math.floor(exact)
        return self.derivations.combine(name, "rnd", self.goal[0], side, "OBJ", {index: Fraction(weight, scale) for index, weight in weights.items()}, exact)

    def add_block(self, weights, k, copies, is_priced):
        """Adds to the weights what the block's part of the bound rests on; gives the constraint 0 >= 1 where a priced block has no point."""
        spans = [self.spans[j] for _, j in copies]
        ends = [span[price < 0] for (price, _), span in zip(copies, spans)]
        problem = self.problem(k, copies) if is_priced else None
        if problem is None or problem.least == sum(price * end.value for (price, _), end in zip(copies, ends)):
            for (price, _), end in zip(copies, ends):
                weights[end.index] += price
            return None
        if len(copies) > MOST_VARIABLES:
            raise NotWritten(f"{problem.name} is priced and has {len(copies)} variables; a block of at most {MOST_VARIABLES} can be written")
        key = (k, tuple(copies), tuple(spans))
        if key not in self.priced:
            self.priced[key] = BlockProof(self.derivations, problem).derive(spans)
        if problem.least >= INFINITE // 2:
            return self.priced[key]
        weights[self.priced[key]] += 1
        return None

    def problem(self, k, copies):
        """The block in the zone at hand; the least value is worked out as the checker does."""
        spanned = tuple([(price, self.spans[j][0].value, self.spans[j][1].value) for price, j in copies])
        place = {j: position for position, (_, j) in enumerate(copies)}
        forms = [({place[j]: a for j, a in self.model.rows[i].terms.items() if a}, *self.rows[i]) for i in self.block_rows[k]]
        return Problem(f"block:{k + 1}", [price for price, _ in copies], [j for _, j in copies], forms, self.judge.least(self.judge.forms[k], spanned))

    def write(self, file):
        model, claim, value = self.model, self.cert, self.cert.value
        names, is_least = list(model.names), model.sign > 0
        print(f"VER {VERSION}", f"VAR {len(names)}", " ".join(names), f"INT {len(names)}", " ".join(map(str, range(len(names)))), sep="\n", file=file)
        print("OBJ", "min" if is_least else "max", file=file)
        print(sparse({j: model.sign * cost for j, cost in enumerate(model.costs)}), file=file)
        print(f"CON {len(self.given)} {2 * len(names)}", *self.given, sep="\n", file=file)
        if claim.word == b"infeasible":
            print("RTP infeas\nSOL 0", file=file)
        else:
            proved, reached = self.goal[1], None if value is None else value - model.constant
            low, high = (proved, "inf" if reached is None else reached) if is_least else ("-inf" if reached is None else reached, proved)
            print(f"RTP range {low} {high}\nSOL {int(value is not None)}", file=file)
        if value is not None:
            print(f"point {sparse(dict(enumerate(claim.point)))}", file=file)
        self.derivations.write(file)


def main():
    parser = argparse.ArgumentParser(description=__doc__.split("\n\n", 1)[0])
    parser.add_argument("lp"), parser.add_argument("cert"), parser.add_argument("file", nargs="?"), parser.add_argument("--dec")
    parser.add_argument("--lines", type=int, default=1_000_000), parser.add_argument("--states", type=int, default=5_000_000)
    parser.add_argument("--large", action="store_true")
    words = parser.parse_args()
    try:
        lp, cert, dec = (pathlib.Path(name).read_bytes() if name else None for name in (words.lp, words.cert, words.dec))
        report = check_certificate.check(lp, cert, dec, words.states, words.large)
        if not report.startswith("accepted"):
            print(report, file=sys.stderr)
            return {"refused": 3, "rejected": 6}.get(report.split(" ", 1)[0], 10)
        translation = Translation(lp, cert, dec, words.lines, words.states, words.large)
        with open(words.file, "w", encoding="ascii") if words.file else sys.stdout as file:
            translation.write(file)
    except NotWritten as why:
        print(f"to_vipr.py: {why}", file=sys.stderr)
        return 1
    except OSError as fault:
        print(f"to_vipr.py: {fault}", file=sys.stderr)
        return 11 if isinstance(fault, FileNotFoundError) else 7
    return 0


if __name__ == "__main__":
    sys.exit(main())
