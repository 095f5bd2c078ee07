#!/usr/bin/env python3
"""Judges a certificate without bprice: it prints what `bprice check` prints, and was written from docs/FORMATS.md alone. All numbers
are exact. A block that a leaf prices is solved variable by variable, over the sums that its rows can still have.

    tools/check_certificate.py LP CERT [--dec DEC] [--states N] [--seconds S] [--large]

`accepted CLAIM` has status 0, `refused ..` 3, `rejected LINE KIND` 6; a file that can't be read 7, one not there 11. Where a block takes more than N
states (5,000,000 without the option) it prints `unknown LINE`, status 10: a greater N may do. After S seconds, and at Ctrl-C, it prints `not judged`,
status 12. --large: more blocks and splits, as `bprice check --large`. Sizes of models and lists of variables are not looked at: no claim rests on these."""
import argparse
import functools
import math
import operator
import re
import signal
import sys
from collections import Counter, deque, namedtuple

LARGEST, CUTS, SCALE, MULTIPLIER, BLOCKS, DEPTH = 2**62 - 1, 256, 2**20, 2**40, (4_096, 131_072), (8_256, 1_048_640)  # pairs: the usual and the large limit
INFINITE = 2**200  # all sums of finite numbers are below 2^123
SECTIONS = {word: section for section, words in {
    "objective": "maximize,maximum,max,minimize,minimum,min", "rows": "subject to,such that,st,s.t.,st.", "bounds": "bounds,bound",
    "generals": "general,generals,gen,integer,integers,int", "binaries": "binary,binaries,bin", "end": "end",
    "feature": "semi,semis,sos,sos1,sos2,pwlobj,lazy constraints,user cuts"}.items() for word in words.split(",")}
LETTER = rb"""A-Za-z!"#$%&(),;?@_`'{}~/|"""
NAME = rb"[" + LETTER + rb"][" + LETTER + rb"0-9.]*"
TOKEN = re.compile(rb"(?P<blank>[ \t\r]+|\\[^\n]*)|(?P<line>\n)|(?P<number>([0-9]+(\.[0-9]*)?|\.[0-9]+)([eE][+-]?[0-9]+)?)|(?P<name>"
                   + NAME + rb")|(?P<feature>->|[\[\]^*])|(?P<compare><=|=<|>=|=>|<|>|=)|(?P<sign>[+-])|(?P<colon>:)")
SECTION = re.compile(rb"(?i:(?:subject|such|lazy|user)[ \t\r]+)?" + NAME + rb"(?![" + LETTER + rb"0-9.]|[ \t]*:)")
ONCE, NAMING, LISTS = "NBLOCKS CONSDEFAULTMASTER PRESOLVED".split(), "BLOCK BLOCKCONSS BLOCKVARS".split(), "MASTERCONSS MASTERVARS LINKINGVARS".split()
INTEGER, SPELLED = re.compile(rb"-?[0-9]+"), re.compile(rb"0|-?[1-9][0-9]*")
PAIRS = re.compile(rb"(?:0|[1-9][0-9]{0,12})(?: [1-9][0-9]{0,12} (?:0|-?[1-9][0-9]{0,12}))*(?![0-9])")  # no multiplier has more than thirteen digits
Row = namedtuple("Row", "terms sides")  # terms: a coefficient for each variable; sides: the least and the greatest sum
Token, Block = namedtuple("Token", "kind value line"), namedtuple("Block", "variables rows")
Node = namedtuple("Node", "line word number at rows priced")  # number: a split's variable, or a leaf's scale; rows: multipliers


class Stop(Exception):
    """The report that ends the run; its first word tells the status."""


def need(is_right, *report):
    if not is_right:
        raise Stop(" ".join(map(str, report)))


def whole(text, in_bounds):
    """The number that a text spells, or the kind of its fault. No power of ten is made that is past all limits."""
    digits, _, power = text.lower().partition("e")
    before, _, behind = digits.partition(".")
    figures, size = (before + behind).rstrip("0"), power.lstrip("+-").lstrip("0")
    zeros = (-1 if power[:1] == "-" else 1) * (int(size or 0) if len(size) < 12 else 10**12) + len(before) - len(figures)
    if (figures := figures.lstrip("0")) and zeros < 0:
        return "not-whole"
    value = 0 if not figures else int(figures) * 10**zeros if len(figures) + zeros <= 20 else INFINITE
    return value if value <= LARGEST or in_bounds and value == INFINITE else "too-large"


def cut(text):
    """The tokens of an LP text. The kind of a section word is its section; signs are 1 and -1, comparisons `<`, `>` and `=`."""
    tokens, at, line, section = [], 0, 1, None
    while at < len(text) and section != "end":
        need(found := TOKEN.match(text, at), "refused lp", line, "bad-byte")
        at, kind, value = found.end(), found.lastgroup, found.group().decode("latin-1")
        if kind == "name":
            need(len(value) <= 255, "refused lp", line, "long-name")
            word = (not tokens or tokens[-1].line < line) and SECTION.match(text, found.start())
            word = word and (SECTIONS.get(" ".join(word[0].decode().lower().split())), word.end())
            if word and word[0]:
                (kind, at), section = word, word[0]
            elif section == "bounds" and value.lower() in ("inf", "infinity"):
                kind, value = "number", INFINITE
        elif kind in ("number", "sign", "compare"):
            value = whole(value, section == "bounds") if kind == "number" else {"+": 1, "-": -1}.get(value) or value.strip("=") or "="
        line += kind == "line"
        tokens += [Token(kind, value, line)] * (kind not in ("line", "blank"))
    return tokens + [Token("none", None, line)] * 2


class Model:
    """What an LP text means: spans by variable, costs of the form that minimises, rows."""
    def __init__(self, text):
        self.tokens, self.at, costs = cut(text), 0, Counter()
        self.names, self.born, self.spans, self.listed, self.rows, self.row_names = {}, [], [], [], [], {}
        self.sign = -1 if self.take("objective").lower().startswith("max") else 1
        self.at += 2 * self.is_labelled()
        if self.next.kind in ("name", "number", "sign"):
            self.read_expression(costs, True)
        self.take("rows")
        while self.next.kind in ("name", "number", "sign"):
            self.read_row()
        while self.next.kind != "end":
            section = self.next.kind
            self.take(section if section in ("bounds", "generals", "binaries") else "end")
            while section == "bounds" and self.next.kind in ("name", "number", "sign"):
                self.read_bound()
            while section != "bounds" and self.next.kind == "name":
                self.listed[self.variable()].add(section)
        for born, span, listed in zip(self.born, self.spans, self.listed):
            span[:] = [max(span[0], 0), min(span[1], 1)] if "binaries" in listed else span
            need(span[0] <= span[1], "refused lp", born, "crossed")
            need(INFINITE not in map(abs, span), "refused lp", born, "unbounded")
            need(listed or span[0] == span[1], "refused lp", born, "continuous")
        self.costs, self.constant = [self.sign * costs[j] for j in range(len(self.names))], costs[None]

    @property
    def next(self):
        return self.tokens[self.at]

    def need(self, is_right, kind="syntax"):
        """Where the next token is wrong, its own fault comes before that of its place."""
        own = {"none": "no-end", "feature": "feature", "number": self.next.value}.get(self.next.kind)
        need(is_right, "refused lp", self.next.line, own if isinstance(own, str) else kind)

    def take(self, kind):
        self.need(self.next.kind == kind and not (kind == "number" and isinstance(self.next.value, str)))
        self.at += 1
        return self.tokens[self.at - 1].value

    def is_labelled(self):
        return self.next.kind == "name" and self.tokens[self.at + 1].kind == "colon"

    def signs(self):
        return math.prod(iter(lambda: self.next.kind == "sign" and self.take("sign"), False))

    def variable(self):
        if self.next.kind == "name" and self.next.value not in self.names:
            self.names[self.next.value] = len(self.names)
            self.born.append(self.next.line), self.spans.append([0, INFINITE]), self.listed.append(set())
        return self.names[self.take("name")]

    def read_expression(self, terms, has_constants=False):
        is_first = True
        while is_first or self.next.kind == "sign":
            is_first, factor, is_number = False, self.signs(), self.next.kind == "number"
            factor *= self.take("number") if is_number else 1
            terms[None if has_constants and is_number and self.next.kind != "name" else self.variable()] += factor

    def read_row(self):
        row = Row(Counter(), [-INFINITE, INFINITE])
        name = self.next.value if self.is_labelled() else f"c{len(self.rows) + 1}"
        self.need(name not in self.row_names, "row-twice")
        self.row_names[name] = len(self.rows)
        self.rows.append(row)
        self.at += 2 * self.is_labelled()
        ahead = next(place for place in range(self.at, len(self.tokens)) if self.tokens[place].kind != "sign")
        if [token.kind for token in self.tokens[ahead:ahead + 2]] == ["number", "compare"]:
            self.read_between(self.signs() * self.take("number"), lambda: self.read_expression(row.terms) or row.sides)
        else:
            self.read_expression(row.terms)
            set_side(row.sides, self.take("compare"), self.signs() * self.take("number"))

    def read_bound(self):
        if self.next.kind != "name":
            self.read_between(self.signs() * self.take("number"), lambda: self.spans[self.variable()])
        elif (span := self.spans[self.variable()]) and self.next.kind == "name" and self.next.value.lower() == "free":
            self.at, span[:] = self.at + 1, [-INFINITE, INFINITE]
        else:
            set_side(span, self.take("compare"), self.signs() * self.take("number"))

    def read_between(self, value, read):
        mark, sides = self.take("compare"), read()
        set_side(sides, {"<": ">", ">": "<", "=": "="}[mark], value)
        if self.next.kind == "compare":
            self.need(mark == self.next.value != "=")
            set_side(sides, self.take("compare"), self.signs() * self.take("number"))


def set_side(sides, mark, value):
    sides[:] = [value if mark in ">=" else sides[0], value if mark in "<=" else sides[1]]


def read_dec(text, model, is_large=False):
    """Each row's block from 1, 0 for master rows, and how many blocks are named. Lists of variables only say again what the rows say."""
    block_of, given, keyword, wants, block = {}, {}, None, False, 0
    for line, written in enumerate(text.split(b"\n"), 1):
        def right(is_right, kind, line=line):
            need(is_right, "refused dec", line, kind)
        for place, token in enumerate(re.findall(r"[^ \t\r]+", written.decode("latin-1").partition("\\")[0])):
            right(not re.search("[^!-~]", token), "bad-byte")
            if place == 0 and token.upper() in ONCE + NAMING + LISTS:
                keyword, block = token.upper(), 0
                right(not wants and (keyword not in ONCE or keyword not in given), "syntax")
                right(keyword not in NAMING or "NBLOCKS" in given, "no-nblocks")
                wants = keyword not in LISTS
            elif wants:
                right(token.isdigit(), "syntax")
                block, wants = int(token.lstrip("0")[:9] or 0), False  # nine digits are past each limit
                right(keyword not in ONCE[1:] or block <= 1, "syntax")
                right(keyword != "PRESOLVED" or block == 0, "presolved")
                right(keyword not in NAMING or 1 <= block <= given["NBLOCKS"], "block-number")
                right(keyword != "NBLOCKS" or block <= BLOCKS[is_large], "limit")
                given[keyword] = block
            else:
                right(keyword and keyword not in ONCE, "syntax")
                if not keyword.endswith("VARS"):
                    right(token in model.row_names, "unknown-row")
                    right(model.row_names[token] not in block_of, "row-twice")
                    block_of[model.row_names[token]] = block
    right(not wants, "syntax")
    right("NBLOCKS" in given, "no-nblocks")
    right(given.get("CONSDEFAULTMASTER", 1) or len(block_of) == len(model.rows), "unassigned")
    return [block_of.get(i, 0) for i in range(len(model.rows))], given["NBLOCKS"]


def form_blocks(model, block_of, count):
    """Each row's block, -1 for link rows; the blocks, at last the variables that are in none; the link rows, by variable and block of a further copy."""
    blocks, links, home = [Block([], []) for _ in range(count)], [], {}
    for k, row in ((k - 1, row) for k, row in zip(block_of, model.rows) if k):
        blocks[k].rows.append(row)
        for j in (j for j, a in row.terms.items() if a):
            home.setdefault(j, set()).add(k)
    for j in range(len(model.names)):
        blocks += [Block([], [])] * (j not in home)
        for k in sorted(home.get(j, [-1])):
            blocks[k].variables.append(j)
        links += [(j, k) for k in sorted(home.get(j, []))[1:]]
    return block_of + [-1] * len(links), blocks, links


class Certificate:
    """A claim, its point if it has one, its cuts, and the tree's nodes, which are read one by one in the order of their lines."""
    def __init__(self, text, variables, block_of, blocks, is_large=False):
        self.text, self.at, self.line, self.block_of, self.cuts, self.deepest = text, 0, 1, block_of + [0] * CUTS, [], DEPTH[is_large]
        self.version = int(self.take(b"bpcert 1\n", b"bpcert 2\n", b"bpcert 3\n")[7:8])
        begin, self.word = self.at + len(self.take(b"claim ")), self.take(b"optimal ", b"infeasible", b"bound ")
        self.bound = self.number(LARGEST) if self.word == b"bound " else None
        self.value = self.number(LARGEST) if self.word == b"optimal " or self.word == b"bound " and self.take(b" value ", b"") else None
        self.claim = text[begin:self.at].decode()
        self.take(b"\n")
        self.point = None if self.value is None else self.read_point(variables)
        while self.version == 3 and (not self.cuts or text.startswith(b"cut ", self.at)):
            divisor = self.take(b"cut ") and self.number(SCALE, 1, first_kind=len(self.cuts) == CUTS and "limit")
            self.cuts.append((self.line, divisor, self.take(b" rows ") and self.read_rows({}, SCALE, 0)))
            self.take(b"\n")
        self.nodes = self.read_nodes(variables, blocks)

    def take(self, *words):
        need((word := next((word for word in words if self.text.startswith(word, self.at)), None)) is not None, "refused cert", self.line, "syntax")
        self.at, self.line = self.at + len(word), self.line + word.count(b"\n")
        return word

    def number(self, largest, least=-INFINITE, most=INFINITE, first_kind=None):
        found = INTEGER.match(self.text, self.at)
        is_right = found and not first_kind and SPELLED.fullmatch(found[0]) and (least < 0 or found[0][:1] != b"-")
        need(is_right, "refused cert", self.line, found and first_kind or "syntax")
        self.at, value = found.end(), int(found[0][:30])  # thirty digits are past each limit, and no text has so many numbers
        need(abs(value) <= largest, "refused cert", self.line, "too-large")
        need(least <= value <= most, "refused cert", self.line, "number")
        return value

    def ascending(self, most):
        """A count, and so many numbers of rows or blocks, each above the one before it. Here they count from 0."""
        last = 0
        for _ in range(self.number(INFINITE, 0)):
            last = self.take(b" ") and self.number(INFINITE, last + 1, most)
            yield last - 1

    def read_point(self, variables):
        point = []
        self.take(b"point")
        while self.take(b" ", b"\n") == b" ":
            point.append(self.number(LARGEST))
            need(len(point) <= variables, "refused cert 3 length")
        need(len(point) == variables, "refused cert 3 length")
        return point

    def read_rows(self, had, largest, least_block):
        """A multiplier for each row that is named, another one than it had: all at once where all are right, else one by one, to tell the first fault."""
        many, rows = len(self.block_of) - CUTS + len(self.cuts), {}
        if found := PAIRS.match(self.text, self.at):
            count, *numbers = map(int, found[0].split())
            given = dict(zip([row - 1 for row in numbers[::2]], numbers[1::2]))
            if 2 * count == len(numbers) == 2 * len(given) and all(map(operator.lt, [-1, *given], [*given, many])) \
                    and all([least_block <= self.block_of[row] <= 0 for row in given]) and max(map(abs, given.values()), default=0) <= largest \
                    and not any(map(operator.eq, given.values(), [had.get(row, 0) for row in given])):
                self.at = found.end()
                return given
        for row in self.ascending(many):
            need(least_block <= self.block_of[row] <= 0, "refused cert", self.line, "number")
            rows[row] = self.take(b" ") and self.number(largest)
            need(rows[row] != had.get(row, 0), "refused cert", self.line, "number")
        return rows

    def read_nodes(self, variables, blocks):
        """The nodes. In each version a leaf has what it changes of the multipliers of the leaf before, with 0 for a row that has none any more."""
        depths, had = [0], {}
        while depths:
            line, word, depth = self.line, self.take(b"split ", b"leaf ", b"open "), depths.pop()
            if word == b"split ":
                number = self.number(INFINITE, 1, variables, depth > self.deepest and "depth") - 1
                node = Node(line, word, number, self.take(b" ") and self.number(LARGEST), None, None)
                depths += [depth + 1] * 2
            else:
                scale = self.number(SCALE, 0, first_kind=depth > self.deepest and "depth")
                is_whole = self.take(b" rows " if self.version == 1 else b" change ") == b" rows "
                rows = dict.fromkeys(had if is_whole else (), 0) | self.read_rows({} if is_whole else had, MULTIPLIER, -1)
                is_all = self.take(b" priced ") and self.take(b"all", b"")
                node = Node(line, word, scale, None, rows, range(blocks) if is_all else set(self.ascending(blocks)))
                had.update(rows)
            self.take(b"\n")
            yield node
        need(self.take(b"end\n") and self.at == len(self.text), "refused cert", self.line, "syntax")


class Judge:
    """Judges one certificate. From leaf to leaf it changes the zone, the multipliers by row, and the rows' sum by these: its side, and by variable."""
    def __init__(self, model, blocks, links, most_states):
        self.model, self.most_states, self.line, self.least = model, most_states, 0, functools.lru_cache(10_000)(self.least)
        self.rows = model.rows + [Row({j: 1}, [0, 0]) for j, _ in links]  # of a link row the term of the first copy; the cuts come behind
        self.zone, self.multipliers, self.side, self.sums = list(map(tuple, model.spans)), {}, 0, [0] * len(model.costs)
        link_row = {link: i for i, link in enumerate(links, len(model.rows))}
        self.alone = [block.variables[0] for block in blocks if block.variables and not block.rows]
        self.copies = {k: [(j, link_row.get((j, k))) for j in block.variables] for k, block in enumerate(blocks) if block.rows}
        self.forms = {k: tuple((tuple((c, row.terms[j]) for c, (j, _) in enumerate(copies) if row.terms[j]), tuple(row.sides)) for row in blocks[k].rows)
                      for k, copies in self.copies.items()}  # the rows of blocks, each with its coefficients by copy

    def judge(self, cert):
        """Tells the first line that is not valid, where all lines can be read."""
        try:
            model, point, claimed = self.model, cert.point, cert.value if cert.bound is None else cert.bound
            if point is not None:
                need(all(low <= x <= high for x, (low, high) in zip(point, model.spans)), "rejected 3 point-bound")
                need(all(row.sides[0] <= sum(a * point[j] for j, a in row.terms.items()) <= row.sides[1] for row in model.rows), "rejected 3 point-row")
                need(cert.value == model.constant + model.sign * sum(c * x for c, x in zip(model.costs, point)), "rejected 3 value")
            self.add_cuts(cert.cuts)
            for node, bound in self.bounds(cert.nodes):
                if bound is not None:
                    is_empty = bound > INFINITE // 2 or node.number == 0 and bound > 0
                    need(is_empty if claimed is None else bound > node.number * (model.sign * claimed - 1), "rejected", node.line, "weak")
                    need(node.word == b"leaf " or cert.word == b"bound ", "rejected", node.line, "open")
        except Stop:
            deque(cert.nodes, 0)
            raise

    def add_cuts(self, cuts):
        """The rows of cuts, each divided and rounded up from a sum of rows before it."""
        for line, divisor, rows in cuts:
            spans, sums = self.model.spans, Counter()
            side = sum(self.add(sums, i, 0, p, line) for i, p in rows.items())
            terms = {j: -(-a // divisor) for j, a in sums.items()}
            low = sum(g * spans[j][0] for j, g in terms.items()) - (sum(a * spans[j][0] for j, a in sums.items()) - side) // divisor
            need(abs(low) + sum(abs(g) * max(1, *map(abs, spans[j])) for j, g in terms.items()) <= LARGEST, "rejected", line, "cut")
            self.rows.append(Row(terms, [low, INFINITE]))

    def add(self, sums, i, had, p, line):
        """Has row i count p times in sums by variable where it counted `had` times: what that adds to the sum's side."""
        (terms, sides), more = self.rows[i], p - had
        need(not p or abs(sides[p < 0]) != INFINITE, "rejected", line, "sign")
        for j, a in terms.items():
            sums[j] += more * a
        return p * sides[p < 0] - had * sides[had < 0]

    def bounds(self, nodes):
        """Each node with its bound; a split has none."""
        to_come = []  # spans of variables that will hold, and between them None for each node that will be read; the last comes first
        for node in nodes:
            yield node, None if node.word == b"split " else self.bound(node)
            if node.word == b"split ":
                j, (low, high) = node.number, self.zone[node.number]
                need(low <= node.at < high, "rejected", node.line, "split")
                to_come += [(j, (low, high)), None, (j, (node.at + 1, high)), None, (j, (low, node.at))]
            while to_come and (one := to_come.pop()):
                self.zone[one[0]] = one[1]

    def bound(self, leaf):
        """The bound of the next leaf, in the zone that the splits above it leave."""
        self.line = leaf.line
        for i, p in leaf.rows.items():
            self.side, self.multipliers[i] = self.side + self.add(self.sums, i, self.multipliers.get(i, 0), p, leaf.line), p
        prices = [leaf.number * cost - weighed for cost, weighed in zip(self.model.costs, self.sums)]
        ends = [price * (low if price > 0 else high) for price, (low, high) in zip(prices, self.zone)]
        bound = self.side + leaf.number * self.model.sign * self.model.constant + sum(map(ends.__getitem__, self.alone))
        return bound + sum(self.least(self.forms[k] if k in leaf.priced else (), tuple([
            (prices[j] if row is None else self.multipliers.get(row, 0), *self.zone[j]) for j, row in copies])) for k, copies in self.copies.items())

    def least(self, rows, copies):
        """The least sum of price times number over the numbers in the copies' spans that meet the rows. First copies are fixed at the end of their span that
        their price asks for where no row can be missed by that: any numbers that meet the rows do so then too, at no greater sum."""
        prices, spans, fixed = [price for price, *_ in copies], [span for _, *span in copies], True
        while fixed:
            reach = [[sum(a * spans[c][(a > 0) == up] for c, a in terms) for up in (False, True)] for terms, _ in rows]
            if any(most < sides[0] or sides[1] < least for (least, most), (_, sides) in zip(reach, rows)):
                return INFINITE
            rows = [row for row, (least, most) in zip(rows, reach) if least < row[1][0] or row[1][1] < most]
            kept = [{c for terms, sides in rows for c, a in terms if abs(sides[(a > 0) == up]) != INFINITE} for up in (False, True)]
            fixed = [(c, up) for c, price in enumerate(prices) for up in (0, 1) if spans[c][0] < spans[c][1] and price * (1, -1)[up] >= 0 and c not in kept[up]]
            for c, up in fixed:
                spans[c] = [spans[c][up]] * 2
        return self.by_states(rows, prices, spans) if rows else sum(price * low for price, (low, _) in zip(prices, spans))

    def by_states(self, rows, prices, spans):
        """The same, copy by copy, the fixed ones first: for each state, the rows' sums so far, None of one that can't be missed any more, the least cost."""
        def settle(total, sides, rest):
            return None if total is None or sides[0] <= total + rest[0] and total + rest[1] <= sides[1] else total
        sides, coefficients = [own for _, own in rows], [dict(terms) for terms, _ in rows]
        columns = [[own.get(c, 0) for own in coefficients] for c in range(len(prices))]
        order, rests, states = sorted(range(len(prices)), key=lambda c: spans[c][0] < spans[c][1]), [[(0, 0)] * len(rows)], 0
        for c in reversed(order):  # what the copies behind each place can add to each row
            rests.append([(low + a * spans[c][a < 0], high + a * spans[c][a > 0]) for (low, high), a in zip(rests[-1], columns[c])])
        least_of = {tuple(map(settle, [0] * len(rows), sides, rests.pop())): 0}
        for c in order:
            following, rest, column, price = {}, rests.pop(), columns[c], prices[c]
            for state, cost in least_of.items():
                (low, high), weighed = spans[c], [part for part in zip(state, column, sides, rest) if part[0] is not None and part[1]]
                for total, a, own, (least, most) in weighed:
                    first, last = ((side - total) * (a // abs(a)) for side in (own[0] - most, own[1] - least)[::a // abs(a)])
                    low, high = max(low, -(-first // abs(a))), min(high, last // abs(a))
                picks = range(low, high + 1)  # where no row or no other copy is left the cheapest will do
                picks = picks if weighed and rests else picks[:1] if price >= 0 else picks[-1:]
                need((states := states + max(0, picks.stop - picks.start)) <= self.most_states, "unknown", self.line)
                for x in picks:
                    after = tuple(map(settle, [None if total is None else total + a * x for total, a in zip(state, column)], sides, rest))
                    following[after] = min(following.get(after, INFINITE), cost + price * x)
            least_of = following
        return min(least_of.values(), default=INFINITE)


def check(lp, cert, dec=None, most_states=5_000_000, is_large=False):
    """The report for the texts of a model, a certificate and perhaps a decomposition."""
    try:
        model = Model(lp)
        block_of, blocks, links = form_blocks(model, *read_dec(b"NBLOCKS 0" if dec is None else dec, model, is_large))
        Judge(model, blocks, links, most_states).judge(cert := Certificate(cert, len(model.names), block_of, len(blocks), is_large))
    except Stop as stop:
        return str(stop)
    return f"accepted {cert.claim}"


def main():
    parser = argparse.ArgumentParser(description=__doc__.split("\n\n", 1)[0])
    parser.add_argument("lp"), parser.add_argument("cert"), parser.add_argument("--dec"), parser.add_argument("--states", type=int, default=5_000_000)
    parser.add_argument("--seconds", type=float), parser.add_argument("--large", action="store_true")
    words = parser.parse_args()
    words.seconds is None or 0 < words.seconds < INFINITE or parser.error("--seconds: a number above 0")
    try:
        signal.signal(signal.SIGALRM, signal.default_int_handler)
        signal.setitimer(signal.ITIMER_REAL, words.seconds or 0)  # 0 is no limit
        report = check(*(open(name, "rb").read() for name in (words.lp, words.cert, words.dec) if name), most_states=words.states, is_large=words.large)
    except KeyboardInterrupt:
        report = "not judged"
    except OSError as fault:
        print(f"check_certificate.py: {fault}", file=sys.stderr)
        return 11 if isinstance(fault, FileNotFoundError) else 7
    print(report)
    return {"accepted": 0, "refused": 3, "rejected": 6, "unknown": 10, "not": 12}[report.split(" ", 1)[0]]


if __name__ == "__main__":
    sys.exit(main())
