"""check --visits: the first leaf that asks for more than is left is unknown, unless what is told without a number comes first. The visits are
counted here anew, as docs/FORMATS.md says."""
import random
import re

import pytest

from conftest import knows, run
from test_check_certificate import EXAMPLES, Room, checker, mutated, random_model, solved, text_of

pytestmark = pytest.mark.skipif(not knows("check", "none.lp", "none", "--visits", 0), reason="the program has no `check --visits`")
MOST = 2**64 - 1


@pytest.fixture(name="room")
def room_fixture(tmp_path):
    return Room(tmp_path)


class Count:
    """The visits of the leaves of a certificate, by their lines, as far as splits are sound."""

    def __init__(self, lp, cert, dec=None):
        self.model = checker.Model(lp)
        self.block_of, self.blocks, self.links = checker.form_blocks(self.model, *checker.read_dec(b"NBLOCKS 0" if dec is None else dec, self.model))
        self.leaves, zones = [], [list(map(tuple, self.model.spans))]
        for node in checker.Certificate(cert, len(self.model.names), self.block_of, len(self.blocks)).nodes:
            zone = zones.pop()
            if node.word != b"split ":
                self.leaves.append((node.line, self.visits(node.priced, zone)))
                continue
            low, high = zone[node.number]
            if not low <= node.at < high:
                break
            zones += [zone[:node.number] + [part] + zone[node.number + 1:] for part in ((node.at + 1, high), (low, node.at))]

    def visits(self, priced, zone):
        first = {}
        for k in sorted(priced):
            first.setdefault(self.likeness(k, zone), k)
        return sum(self.prefixes(self.blocks[k], zone) for k in first.values())

    def likeness(self, k, zone):
        """What two blocks of one class have in common."""
        block, masters = self.blocks[k], [row for row, place in zip(self.model.rows, self.block_of) if place == 0]

        def copy(j):
            is_first = (j, k) not in self.links
            links = tuple((var == j and is_first) - ((var, home) == (j, k)) for var, home in self.links)
            return is_first * self.model.costs[j], zone[j], tuple(is_first * row.terms.get(j, 0) for row in masters), links
        return (tuple(map(copy, block.variables)),
                tuple((tuple(row.terms.get(j, 0) for j in block.variables), tuple(row.sides)) for row in block.rows))

    def prefixes(self, block, zone):
        if len(block.rows) == 1:
            reach = sum(abs(block.rows[0].terms.get(j, 0)) * (self.model.spans[j][1] - self.model.spans[j][0]) for j in block.variables)
            if (len(block.variables) + 1) * (reach + 1) <= 2**20:
                return 0
        total = 1
        for j in reversed(block.variables):
            total = 1 + (zone[j][1] - zone[j][0] + 1) * total
        return total

    def numbers(self):
        """Numbers of visits that tell: just enough for the first leaves, and one less."""
        sums = [0]
        for _, visits in self.leaves:
            sums.append(sums[-1] + visits)
        return sorted({most for total in sums for most in (total - 1, total) if 0 <= most <= MOST})

    def told(self, report, most):
        """What is told within so many visits, where this is the report without a number of them."""
        _, line, kind = (*report.split(" "), "", "")[:3]
        for at, visits in self.leaves:
            if report.startswith("rejected ") and (int(line) < at or int(line) == at and kind == "sign"):
                break
            if visits > most:
                return f"unknown {at}"
            most -= visits
        return report


def agree(room, lp, cert, dec=None, limit=12):
    """Which words the reports begin with, once they are those that are counted here."""
    report = room.told(lp, cert, dec)[0].rstrip("\n")
    words = ["check", "lp", "cert", *(["--dec", "dec"] if dec else [])]
    if report.startswith("refused "):
        assert run(*words, "--visits", 0, cwd=room.path) == (report + "\n", 3)
        return {"refused"}
    count, found = Count(lp, cert, dec), set()
    for most in [*count.numbers()[:limit], MOST]:
        told = count.told(report, most)
        found.add(told.split(" ")[0])
        assert run(*words, "--visits", most, cwd=room.path) == (told + "\n", {"accepted": 0, "rejected": 6, "unknown": 10}[told.split(" ")[0]])
    return found


@pytest.mark.parametrize("lp, cert, dec", EXAMPLES)
def test_examples(room, lp, cert, dec):
    assert "accepted" in agree(room, *map(text_of, (lp, cert, dec)))


def test_random_models(room):
    draw, found = random.Random(12), set()
    for _ in range(60):
        lp, dec = random_model(draw)
        if room.told(lp, b"", dec)[0].startswith(("refused blocks", "refused lp", "refused dec")):
            continue
        cert = solved(room, lp, dec, draw.choice([None, None, 0, 1, 5]))
        every = re.sub(rb"priced .*", b"priced all", cert)
        for text in (cert, every, mutated(draw, every)):
            found |= agree(room, lp, text, dec)
    assert found == {"accepted", "rejected", "refused", "unknown"}


@pytest.mark.parametrize("seed, example", enumerate(EXAMPLES))
def test_mutated_certificates(room, seed, example):
    lp, cert, dec = map(text_of, example)
    draw = random.Random(1200 + seed)
    for _ in range(15):
        agree(room, lp, mutated(draw, cert), dec, 4)


def test_a_block_that_no_search_ends(room):
    """Sums of forty numbers of which none adds up: whatever a stranger lists, it is answered at once."""
    draw = random.Random(5)
    names = [f"x{j}" for j in range(40)]
    rows = [" + ".join(f"{2 * draw.randint(10**5, 10**6)} {name}" for name in names) for _ in range(2)]
    lp = "\n".join(["Minimize", " obj: x0", "Subject To", *(f" r{i}: {row} = {10**7 + 1}" for i, row in enumerate(rows)),
                    "Binaries", " " + " ".join(names), "End", ""]).encode()
    dec = b"NBLOCKS 1\nBLOCK 1\nr0 r1\n"
    (room.path / "lp").write_bytes(lp), (room.path / "dec").write_bytes(dec)
    (room.path / "cert").write_bytes(b"bpcert 1\nclaim infeasible\nleaf 0 rows 0 priced all\nend\n")
    most = 2**41 - 1
    assert run("check", "lp", "cert", "--dec", "dec", "--visits", most - 1, cwd=room.path) == ("unknown 3\n", 10)
    assert run("check", "lp", "cert", "--dec", "dec", "--visits", 10**6, cwd=room.path) == ("unknown 3\n", 10)
