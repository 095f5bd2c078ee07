"""Reads LP texts: the whole-number profile of the CPLEX LP format that docs/FORMATS.md tells. A text is refused where bprice refuses it,
with the same line and kind, but that limits on a model's size and its sums are left to the program."""
import re

from bprice.exact import Refused

LARGEST, INFINITE, LONGEST = 2**62 - 1, 10**20, 2**24
SECTIONS = {word: section for section, words in {
    "objective": "maximize,maximum,max,minimize,minimum,min", "rows": "subject to,such that,st,s.t.,st.", "bounds": "bounds,bound",
    "generals": "general,generals,gen,integer,integers,int", "binaries": "binary,binaries,bin", "end": "end",
    "feature": "semi,semis,sos,sos1,sos2,pwlobj,lazy constraints,user cuts"}.items() for word in words.split(",")}
LETTER = r"""A-Za-z!"#$%&(),;?@_`'{}~/|"""
WORD = rf"[{LETTER}][{LETTER}0-9.]*"
TOKEN = re.compile(rf"(?P<blank>[ \t\r]+|\\[^\n]*)|(?P<line>\n)|(?P<number>(?:[0-9]+(?:\.[0-9]*)?|\.[0-9]+)(?:[eE][+-]?[0-9]+)?)"
                   rf"|(?P<name>{WORD})|(?P<feature>->|[\[\]^*])|(?P<compare><=|=<|>=|=>|<|>|=)|(?P<sign>[+-])|(?P<colon>:)")
SECTION_WORD = re.compile(rf"(?:(?:subject|such|lazy|user)[ \t\r]+)?{WORD}(?![{LETTER}0-9.]|[ \t]*:)", re.IGNORECASE)
STARTS = ("name", "number", "sign")  # of expressions, rows and bounds


class Token:
    """A piece of the text: its kind and value, its line, and where in the text it begins. A number that is none has its fault as `fault`."""

    def __init__(self, kind, value, line, at):
        self.kind, self.value, self.line, self.at, self.fault = kind, value, line, at, None


def whole(text, in_bounds):
    """The whole number that a text spells and None, or None and the kind of its fault. No power of ten is made that is past all limits."""
    digits, _, power = text.lower().partition("e")
    before, _, behind = digits.partition(".")
    figures, size = (before + behind).rstrip("0"), power.lstrip("+-").lstrip("0")
    shift = int(size or 0) if len(size) < 12 else 10**12
    zeros = (-shift if power.startswith("-") else shift) + len(before) - len(figures)
    figures = figures.lstrip("0")
    if not figures:
        return 0, None
    if zeros < 0:
        return None, "not-whole"
    value = int(figures) * 10**zeros if len(figures) + zeros <= 20 else INFINITE
    if value <= LARGEST:
        return value, None
    return (INFINITE, None) if in_bounds and value >= INFINITE else (None, "too-large")


def section_word(text, found, tokens, line):
    """The section that begins with this name and where its word ends, or None."""
    if tokens and tokens[-1].line == line:
        return None
    word = SECTION_WORD.match(text, found.start())
    section = word and SECTIONS.get(" ".join(word[0].lower().split()))
    return (section, word.end()) if section else None


def cut(text):
    """The tokens of a text. A section word is a token of its section's kind."""
    tokens, at, line, section = [], 0, 1, None
    while at < len(text) and section != "end":
        found = TOKEN.match(text, at)
        if not found:
            raise Refused(f"lp {line} bad-byte")
        kind, value, begin, at = found.lastgroup, found[0], at, found.end()
        if kind in ("blank", "line"):
            line += kind == "line"
            continue
        fault = None
        if kind == "name":
            if len(value) > 255:
                raise Refused(f"lp {line} long-name")
            if word := section_word(text, found, tokens, line):
                (kind, at), section = word, word[0]
            elif section == "bounds" and value.lower() in ("inf", "infinity"):
                kind, value = "number", INFINITE
        elif kind == "number":
            value, fault = whole(value, section == "bounds")
        elif kind == "sign":
            value = 1 if value == "+" else -1
        elif kind == "compare":
            value = value.strip("=") or "="
        tokens.append(Token(kind, value, line, begin))
        tokens[-1].fault = fault
    return tokens + [Token("none", None, line, len(text))] * 2


class Parser:
    """What a text says. `rows` has (terms, low, high) by name and `spans` (low, high) by variable, None where a row is open.
    `rows_end` and `end` are where in the text the token behind the rows and the word `end` begin."""

    def __init__(self, text):
        self.tokens, self.place = cut(text), 0
        self.costs, self.constant, self.spans, self.born, self.listed, self.rows = {}, 0, {}, {}, {}, {}
        self.sense = self.take("objective").lower()[:3]
        self.read_objective()
        self.take("rows")
        while self.next.kind in STARTS:
            self.read_row()
        self.rows_end = self.next.at
        self.read_sections()
        self.end = self.next.at
        self.finish()

    @property
    def next(self):
        return self.tokens[self.place]

    def need(self, is_right, kind="syntax"):
        """Where the next token is wrong, its own fault comes before that of its place."""
        if not is_right:
            token = self.next
            raise Refused(f"lp {token.line} {token.fault or {'none': 'no-end', 'feature': 'feature'}.get(token.kind, kind)}")

    def take(self, kind):
        self.need(self.next.kind == kind and self.next.fault is None)
        self.place += 1
        return self.tokens[self.place - 1].value

    def is_labelled(self):
        return self.next.kind == "name" and self.tokens[self.place + 1].kind == "colon"

    def take_signs(self):
        sign = 1
        while self.next.kind == "sign":
            sign *= self.take("sign")
        return sign

    def take_value(self):
        return self.take_signs() * self.take("number")

    def variable(self):
        token = self.next
        name = self.take("name")
        if name not in self.spans:
            self.spans[name], self.born[name], self.listed[name] = (0, INFINITE), token.line, set()
        return name

    def read_expression(self, terms, has_constants=False):
        """Adds the terms of an expression to {variable: coefficient}, constants under None."""
        is_first = True
        while is_first or self.next.kind == "sign":
            is_first, factor, is_number = False, self.take_signs(), self.next.kind == "number"
            factor *= self.take("number") if is_number else 1
            name = None if has_constants and is_number and self.next.kind != "name" else self.variable()
            terms[name] = terms.get(name, 0) + factor

    def read_objective(self):
        self.place += 2 * self.is_labelled()
        if self.next.kind in STARTS:
            self.read_expression(self.costs, has_constants=True)
        self.constant = self.costs.pop(None, 0)

    def begins_with_side(self):
        """Whether behind its signs a number and a comparison come."""
        ahead = self.place
        while self.tokens[ahead].kind == "sign":
            ahead += 1
        return self.tokens[ahead].kind == "number" and self.tokens[ahead + 1].kind == "compare"

    def read_row(self):
        name = self.next.value if self.is_labelled() else f"c{len(self.rows) + 1}"
        self.need(name not in self.rows, "row-twice")
        self.place += 2 * self.is_labelled()
        terms, sides = {}, (None, None)
        self.rows[name] = None
        if self.begins_with_side():
            value, mark = self.take_value(), self.take("compare")
            self.read_expression(terms)
            sides = self.second_side(mark, with_side(sides, turned(mark), value))
        else:
            self.read_expression(terms)
            mark = self.take("compare")
            sides = with_side(sides, mark, self.take_value())
        self.rows[name] = terms, *sides

    def second_side(self, mark, sides):
        """A second comparison of the direction of the first, where there is one."""
        if self.next.kind != "compare":
            return sides
        self.need(mark == self.next.value != "=")
        self.take("compare")
        return with_side(sides, mark, self.take_value())

    def read_bound(self):
        if self.next.kind == "name":
            name = self.variable()
            if self.next.kind == "name" and self.next.value.lower() == "free":
                self.place, self.spans[name] = self.place + 1, (-INFINITE, INFINITE)
            else:
                mark = self.take("compare")
                self.spans[name] = with_side(self.spans[name], mark, self.take_value())
            return
        value, mark = self.take_value(), self.take("compare")
        name = self.variable()
        self.spans[name] = self.second_side(mark, with_side(self.spans[name], turned(mark), value))

    def read_sections(self):
        while self.next.kind != "end":
            section = self.next.kind
            self.take(section if section in ("bounds", "generals", "binaries") else "end")
            while section == "bounds" and self.next.kind in STARTS:
                self.read_bound()
            while section != "bounds" and self.next.kind == "name":
                self.listed[self.variable()].add(section)

    def finish(self):
        """Binary bounds, and what is asked of each variable in the end."""
        for name, (low, high) in self.spans.items():
            if "binaries" in self.listed[name]:
                self.spans[name] = low, high = max(low, 0), min(high, 1)
            kind = "crossed" if low > high else "unbounded" if INFINITE in (abs(low), abs(high)) \
                else "continuous" if low < high and not self.listed[name] else None
            if kind:
                raise Refused(f"lp {self.born[name]} {kind}")


def turned(mark):
    return {"<": ">", ">": "<", "=": "="}[mark]


def with_side(sides, mark, value):
    """Least and greatest with the side that a comparison gives."""
    return value if mark in ">=" else sides[0], value if mark in "<=" else sides[1]


def parse(text):
    """What an LP text says, given as str or bytes. Raises Refused (`lp LINE KIND`) with its first fault."""
    text = text.decode("latin-1") if isinstance(text, bytes) else text.encode().decode("latin-1")
    if len(text) > LONGEST:
        raise Refused("lp 0 limit")
    return Parser(text)
