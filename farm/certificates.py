"""What the driver knows of certificates: the tree, the part of it that a process begins with, and how what it brings back is put into the tree.
It reads versions 1 and 2 of the text, and judges nothing but whether a text has their form: then whatever it says can be put into a tree and written
again, and `check` tells whether it is valid. What is done with is kept as it was written, in version 2, where a leaf's line says what
it changes of the multipliers of the leaf before; the rest, line by line, as version 1 has it, where each line stands by itself."""
import heapq
import re
from typing import NamedTuple

TRIVIAL = b"open 1 rows 0 priced 0\n"  # an open leaf with no multipliers
DEEPEST = 8_256  # splits above a node, as docs/FORMATS.md has it
COUNT, NUMBER = rb"(?:0|[1-9][0-9]{0,9})", rb"(?:0|-?[1-9][0-9]{0,18})"
CLAIM = re.compile(rb"claim (?:optimal (?P<optimal>N)|infeasible|bound N(?: value (?P<value>N))?)\n".replace(b"N", NUMBER))
POINT = re.compile(rb"point(?: N)*\n".replace(b"N", NUMBER))
NODE = re.compile(rb"split C N\n|(?:leaf|open) C (?:rows|change) C(?: C N)* priced (?:all|C(?: C)*)\n".replace(b"N", NUMBER).replace(b"C", COUNT))


def given(line):
    """What a leaf's line gives or changes, by row, and where its multipliers end among its words. ValueError: it has more or fewer than it counts."""
    words = line.split(b" ")
    behind = 4 + 2 * int(words[3])
    if behind >= len(words) or words[behind] != b"priced":
        raise ValueError("a count is wrong")
    return zip(words[4:behind:2], words[5:behind:2]), words, behind


def behind(line, had):
    """The multipliers by row, without zeros, of a leaf whose line of version 2 comes behind these."""
    return changed(had, given(line)[0])


def changed(had, changes):
    """Multipliers by row, without zeros, once some of these are changed."""
    rows = dict(had)
    for row, p in changes:
        if p == b"0":
            rows.pop(row, None)
        else:
            rows[row] = p
    return rows


def spelled(words, kind, rows, end):
    """A leaf's line with these multipliers."""
    return b" ".join([*words[:2], kind, b"%d" % len(rows), *(word for row in sorted(rows, key=int) for word in (row, rows[row])), *words[end:]])


def standing(line, had):
    """A leaf's line of version 2 as version 1 has it, behind a leaf with these multipliers, and its own multipliers."""
    changes, words, end = given(line)
    rows = changed(had, changes)
    return spelled(words, b"rows", rows, end), rows


def changing(line, rows, had):
    """A leaf's line of either version as version 2 has it, where it has these multipliers and comes behind others."""
    _, words, end = given(line)
    changes = {row: p for row, p in rows.items() if had.get(row) != p} | {row: b"0" for row in had if row not in rows}
    return spelled(words, b"change", changes, end)


class Done(NamedTuple):
    """A part of the tree in which nothing is open: its lines of version 2, the place of its first leaf among them, the multipliers of that and
    of the last leaf, and the steps."""

    lines: list
    first: int
    first_rows: dict
    last_rows: dict
    steps: int


class Head(NamedTuple):
    """The lines of a certificate in front of its tree, all lines, and where the tree begins."""

    version: bytes
    claim: str
    point: bytes
    lines: list
    begin: int


def read_head(name):
    """The same of a file. ValueError: it is none."""
    with open(name, "rb") as text:
        return parse_head(text.read())


def parse_head(text):
    """The certificate of a text. ValueError: it has not the form of one."""
    lines = text.splitlines(keepends=True)
    claim = CLAIM.fullmatch(lines[1]) if len(lines) > 3 and lines[0] in (b"bpcert 1\n", b"bpcert 2\n") else None
    if claim is None or lines[-1] != b"end\n":
        raise ValueError("no certificate")
    has_point = claim["optimal"] is not None or claim["value"] is not None
    begin = 3 if has_point else 2
    if has_point and not POINT.fullmatch(lines[2]) or not all(map(NODE.fullmatch, lines[begin:-1])):
        raise ValueError("no certificate")
    return Head(lines[0], lines[1][6:-1].decode("ascii"), lines[2] if has_point else b"", lines, begin)


def head_steps(head):
    """The steps that a certificate tells, with those of the way to it."""
    return sum(not line.startswith(b"open ") for line in head.lines[head.begin:-1])


def value_in(claim):
    found = re.search(r"(?:value|optimal) (-?\d+)$", claim)
    return int(found[1]) if found else None


def shows(claim, bound):
    """Whether a claim says by itself that no point is past this bound, which lies beyond all values."""
    word, number = claim.split(" ")[:2] if " " in claim else (claim, "0")
    value = value_in(claim)
    return word != "bound" or int(number) == bound or value is not None and (int(number) - bound) * (value - bound) > 0


class Tree:
    """A certificate: its claim, the line of its point, empty where there is none, the lines of its nodes by their ways, the ways of its open
    leaves, and the parts that are done with, by the ways to them. A way is a 1, and then a binary digit for each split, 0 for its low part and 1
    for its high part."""

    def __init__(self, name):
        head = read_head(name)
        self.claim, self.point, self.lines, self.open, self.done = head.claim, head.point, {}, set(), {}
        ways, had = [1], {}
        for line in head.lines[head.begin:-1]:
            way = ways.pop()
            if line.startswith(b"split "):
                ways += [2 * way + 1, 2 * way]
            elif head.version == b"bpcert 2\n":
                line, had = standing(line, had)
            if line.startswith(b"open "):
                self.open.add(way)
            self.lines[way] = line

    @property
    def value(self):
        """The value of the best point, None where no point is known."""
        return value_in(self.claim)

    @property
    def steps(self):
        return len(self.lines) - len(self.open) + sum(part.steps for part in self.done.values())

    @property
    def answer(self):
        """The claim of a tree in which nothing is open."""
        return "infeasible" if self.value is None else f"optimal {self.value}"

    def claim_of(self, bound):
        """The claim of a bound, with the value that is known."""
        return f"bound {bound}{'' if self.value is None else f' value {self.value}'}"

    def text(self, claim):
        """The certificate, in version 2, under a claim."""
        lines, had, stack = [b"bpcert 2\n", f"claim {claim}\n".encode(), self.point], {}, [1]
        while stack:
            way = stack.pop()
            if part := self.done.get(way):
                lines += part.lines
                lines[part.first - len(part.lines)] = changing(part.lines[part.first], part.first_rows, had)
                had = part.last_rows
                continue
            line = self.lines[way]
            if line.startswith(b"split "):
                lines.append(line)
                stack += [2 * way + 1, 2 * way]
            else:
                rows = dict(given(line)[0])
                lines.append(changing(line, rows, had))
                had = rows
        return b"".join([*lines, b"end\n"])

    def outline(self, bound, ways, above=None):
        """A certificate, in version 1, where the ends of these ways are open leaves without multipliers, and so is what is done with. Where `above`
        is given, so is all that is not there."""
        lines, stack = [b"bpcert 1\n", f"claim {self.claim_of(bound)}\n".encode(), self.point], [1]
        while stack:
            way = stack.pop()
            line = TRIVIAL if way in ways or way in self.done or above is not None and way not in above else self.lines[way]
            lines.append(line)
            if line.startswith(b"split "):
                stack += [2 * way + 1, 2 * way]
        return b"".join([*lines, b"end\n"])

    def start(self, bound, way):
        """What a process begins with that works below the end of a way: that way, where all that stands beside it, and what is below it, is one open
        leaf without multipliers; and the number of its leaf."""
        above = {way >> up for up in range(1, way.bit_length())}
        return self.outline(bound, {way}, above), 1 + bin(way)[3:].count("1")

    def below(self, head, top):
        """What a certificate has at the end of a way, where it splits as this tree does above that and nowhere else: its lines, and the multipliers
        that come before them; None where it does not."""
        at, had = head.begin, {}
        for up in range(top.bit_length() - 1, 0, -1):
            if head.lines[at] != self.lines.get(top >> up):
                return None
            at += 1
            if top >> (up - 1) & 1:
                if head.lines[at].startswith(b"split "):
                    return None
                had = behind(head.lines[at], had)
                at += 1
        return head.lines[at:len(head.lines) - 1 - bin(top)[3:].count("0")], had

    def clear(self, top):
        """Forgets what stands at the end of a way."""
        stack = [top]
        while stack:
            way = stack.pop()
            self.open.discard(way)
            if self.done.pop(way, None) is None and self.lines.pop(way, b"").startswith(b"split "):
                stack += [2 * way, 2 * way + 1]

    def put(self, head, top, bound, is_whole=False):
        """Puts what a certificate has at the end of a way in place of what stands there, perhaps only if nothing is open in it, and takes its point
        where that is better. The steps that it has there; None where it is no tree that can stand there."""
        try:
            found = self.below(head, top)
            part = read_part(*found, top) if found is not None and head.version == b"bpcert 2\n" else None
        except (IndexError, ValueError):
            return None
        if part is None or is_whole and not isinstance(part, Done):
            return None
        self.clear(top)
        if isinstance(part, Done):
            self.done[top], steps = part, part.steps
        else:
            self.lines.update(part)
            opened = [way for way, line in part.items() if line.startswith(b"open ")]
            self.open.update(opened)
            steps = len(part) - len(opened)
        self.take_point(head, bound)
        return steps

    def shut(self, other, ways):
        """Shuts the open leaves that another tree has shut, but not those at the ends of these ways."""
        for way in self.open - ways:
            if other.lines.get(way, b"").startswith(b"leaf "):
                self.lines[way] = other.lines[way]
                self.open.remove(way)

    def take_point(self, head, bound):
        if self.is_better(head, bound):
            self.claim, self.point = f"bound {bound} value {value_in(head.claim)}", head.point

    def is_better(self, head, bound):
        """Whether a certificate has a point that is nearer to the model's bound."""
        value = value_in(head.claim)
        return value is not None and (self.value is None or abs(value - bound) < abs(self.value - bound))


def read_part(lines, had, top):
    """The tree of lines of version 2 that come behind these multipliers: done, or, where something is open, the lines of version 1 by their ways.
    None where the lines are no tree, or one that is too deep."""
    wanted, first, first_rows, rows = 1, None, {}, dict(had)
    for place, line in enumerate(lines):
        if wanted == 0:
            return None
        if line.startswith(b"split "):
            wanted += 1
            continue
        wanted -= 1
        rows.update(given(line)[0])
        if first is None:
            first, first_rows = place, {row: p for row, p in rows.items() if p != b"0"}
    if wanted != 0:
        return None
    if not any(line.startswith(b"open ") for line in lines):
        return Done(lines, first, first_rows, {row: p for row, p in rows.items() if p != b"0"}, len(lines))
    found, ways = {}, [top]
    for line in lines:
        way = ways.pop()
        if line.startswith(b"split "):
            ways += [2 * way + 1, 2 * way]
        else:
            line, had = standing(line, had)
        if way.bit_length() > DEEPEST + 1:
            return None
        found[way] = line
    return found


def count_open(tree):
    """How many open leaves are at the end of each way or below it."""
    counts = {}
    for way in tree.open:
        while way:
            counts[way] = counts.get(way, 0) + 1
            way >>= 1
    return counts


def free_pieces(counts, taken):
    """The greatest pieces with open leaves that have nothing at or below the ends of these ways."""
    above, pieces, stack = {way >> up for way in taken for up in range(1, way.bit_length())}, [], [1]
    while stack:
        way = stack.pop()
        if way in above:
            stack += [2 * way, 2 * way + 1]
        elif way not in taken and counts.get(way):
            pieces.append((counts[way], way))
    return pieces


def cut(pieces, counts, many):
    """Cuts the pieces with the most open leaves until there are so many pieces, or none can be cut. A piece is the number of its open leaves and
    the way to the least node that has them all at it or below; those with the most come first."""
    heap = [(-leaves, least(way, counts)) for leaves, way in pieces]
    heapq.heapify(heap)
    while heap and len(heap) < many and heap[0][0] < -1:
        way = heapq.heappop(heap)[1]
        for part in (2 * way, 2 * way + 1):
            heapq.heappush(heap, (-counts[part], least(part, counts)))
    return sorted((-leaves, way) for leaves, way in heap)[::-1]


def least(way, counts):
    """The way to the least node that has all the open leaves of a node at it or below."""
    while counts.get(2 * way) == counts[way] or counts.get(2 * way + 1) == counts[way]:
        way = 2 * way + (counts.get(2 * way) != counts[way])
    return way
