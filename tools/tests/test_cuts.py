"""solve --cuts: with any number of cuts the answer is that of a search without them, and the certificate, which both checkers accept, is of
version 3 exactly where it has cuts. What is added comes behind the cuts of the certificate that a search goes on from, no more than was
asked for and 256 in all, and the plain cuts, which are worked out here anew from the model, come first."""
import math
import random
import re
import subprocess

import pytest

from conftest import TOP, knows, load_tool, run
from test_check_certificate import BOTH, ODD, Room, checker, random_model, text_of

models = load_tool(TOP / "bench" / "models.py")

pytestmark = pytest.mark.skipif(not knows("solve", "none.lp", "--cuts", 0), reason="the program has no `solve --cuts`")
MOST, GREATEST = 256, 2**20


def made(name, has_dec=False):
    """The texts of a model of bench/models.py."""
    lp, dec = models.make(name)
    return lp.encode(), dec.encode() if has_dec else None


def example(folder, has_dec=False, lp="model.lp"):
    return text_of(f"{folder}/{lp}"), text_of(f"{folder}/model.dec") if has_dec else None


MODELS = {
    "assignment": (example("assignment"), "optimal 92"),
    "assignment, blocks": (example("assignment", True), "optimal 92"),
    "shared machine": (example("shared-machine"), "optimal 18"),
    "shared machine, blocks": (example("shared-machine", True), "optimal 18"),
    "four agents, twelve jobs": (made("assignment-gen-12"), None),
    "four agents, twelve jobs, blocks": (made("assignment-gen-12", True), None),
    "four agents, twenty jobs": (made("assignment-gen-20"), None),
    "class C": (made("assignment-C-3-12"), None),
    "class D": (made("assignment-D-3-8"), None),
    "no number is five halves": ((ODD, None), "infeasible"),
}


class Search(Room):
    """A folder with a model in which searches are made."""

    def __init__(self, path, texts):
        super().__init__(path)
        self.lp, self.dec = texts
        (self.path / "lp").write_bytes(self.lp)
        if self.dec:
            (self.path / "dec").write_bytes(self.dec)

    def solve(self, *words):
        """The first line of what is printed, and the certificate that was written, which both checkers accept."""
        report, status = run("solve", "lp", *(["--dec", "dec"] if self.dec else []), *words, "--cert", "cert", cwd=self.path)
        cert = (self.path / "cert").read_bytes()
        told, first = self.agree(self.lp, cert, self.dec), report.split("\n", 1)[0]
        assert told.startswith("accepted bound ") if status == 5 else told == f"accepted {first}"
        assert cert.startswith(b"bpcert 3\n" if cuts(cert) else b"bpcert 2\n")
        return first, cert

    def plain(self):
        """The lines of all plain cuts: a master row divided by the greatest common divisor of its coefficients where that divides not both of
        its sides, once as it stands and once turned round, as far as it has a side there."""
        model, lines = checker.Model(self.lp), []
        block_of = checker.form_blocks(model, *checker.read_dec(self.dec or b"NBLOCKS 0", model))[0]
        for number, (block, row) in enumerate(zip(block_of, model.rows), 1):
            divisor, sides = math.gcd(*row.terms.values()), [abs(side) != checker.INFINITE for side in row.sides]
            if block == 0 and 2 <= divisor <= GREATEST and any(side % divisor for side, is_there in zip(row.sides, sides) if is_there):
                lines += [f"cut {divisor} rows 1 {number} {sign}".encode() for sign, is_there in zip((1, -1), sides) if is_there]
        return lines


def cuts(cert):
    """The lines of the cuts of a certificate."""
    return re.findall(rb"^cut .*", cert, re.MULTILINE)


@pytest.mark.parametrize("name", MODELS)
def test_with_so_many_cuts(tmp_path, name):
    texts, wanted = MODELS[name]
    room = Search(tmp_path, texts)
    first, cert = room.solve()
    assert not cuts(cert) and wanted in (None, first)
    assert room.solve("--cuts", 0) == (first, cert)
    for most in (1, 32, MOST):
        told, cert = room.solve("--cuts", most)
        assert told == first
        assert len(cuts(cert)) <= most and cuts(cert)[:len(room.plain())] == room.plain()[:most]


@pytest.mark.parametrize("lp, wanted, plain", [("model.lp", "infeasible", 2), ("at-least.lp", "optimal 33", 1)])
def test_odd_order(tmp_path, lp, wanted, plain):
    """One leaf with the plain cuts, where a search without cuts ends after hundreds of thousands."""
    room = Search(tmp_path, example("odd-order", lp=lp))
    assert room.solve("--steps", 100)[0] == room.solve("--steps", 100, "--cuts", 0)[0] == "budget 100"
    for most in (plain, 32, MOST):
        told, cert = room.solve("--steps", 100, "--cuts", most)
        assert told == wanted and cuts(cert)[:plain] == room.plain()
        assert len(re.findall(rb"^leaf ", cert, re.MULTILINE)) == 1
    assert room.solve("--cuts", plain)[1].count(b"\ncut ") == plain


def ring(many):
    """As many of a ring as can be taken where no two neighbours are, and each of which has a block with something cheap beside it."""
    places = range(many)
    lines = ["Maximize", " obj: " + " + ".join(f"5 x{i} + y{i}" for i in places), "Subject To"]
    lines += [f" c{i}: x{i} + x{(i + 1) % many} <= 1" for i in places] + [f" b{i}: 2 x{i} + 3 y{i} <= 4" for i in places]
    lines += ["Binaries", " " + " ".join(f"x{i} y{i}" for i in places), "End", ""]
    blocks = [f"NBLOCKS {many}", *(f"BLOCK {i + 1}\nb{i}" for i in places), ""]
    return "\n".join(lines).encode(), "\n".join(blocks).encode()


@pytest.mark.parametrize("many", [3, 5, 7, 9, 11])
def test_columns(tmp_path, many):
    """Where blocks have rows, the columns of the root lack the half of an odd ring's rows: by one cut there is one leaf."""
    room = Search(tmp_path, ring(many))
    wanted = f"optimal {many // 2 * 5 + (many + 1) // 2}"
    told, cert = room.solve()
    assert told == wanted and len(re.findall(rb"^leaf ", cert, re.MULTILINE)) > 1
    for most in (1, 2, MOST):
        told, cert = room.solve("--cuts", most)
        rows = b" ".join(b"%d -1" % (i + 1) for i in range(many))
        assert told == wanted and cuts(cert) == [b"cut 2 rows %d %s" % (many, rows)]
        assert len(re.findall(rb"^leaf ", cert, re.MULTILINE)) == 1


def shared(draw):
    """Crews within their hours that cover duties by pairings of several, or links between what two crews do."""
    many, duties = draw.randint(2, 3), draw.randint(4, 6)
    cover, costs, blocks, names = [[] for _ in range(duties)], [], [], []
    for k in range(many):
        own = []
        for i in range(5):
            names.append(f"x{k}_{i}")
            costs.append(f"{draw.randint(4, 15)} x{k}_{i}")
            own.append(f"{draw.randint(2, 6)} x{k}_{i}")
            for duty in draw.sample(range(duties), draw.randint(1, 3)):
                cover[duty].append(f"{draw.choice((1, 1, 1, 2))} x{k}_{i}")
        blocks.append(f" b{k}: {' + '.join(own)} <= {draw.randint(6, 14)}")
    names += [f"u{duty}" for duty in range(duties)]
    costs += [f"{draw.randint(15, 30)} u{duty}" for duty in range(duties)]
    master = [f" c{duty}: {' + '.join([*row, f'u{duty}'])} {draw.choice(('=', '>='))} 1" for duty, row in enumerate(cover)]
    lines = ["Minimize", " obj: " + " + ".join(costs), "Subject To", *master, *blocks, "Binaries", " " + " ".join(names), "End", ""]
    dec = [f"NBLOCKS {many}", *(f"BLOCK {k + 1}\nb{k}" for k in range(many)), ""]
    return "\n".join(lines).encode(), "\n".join(dec).encode()


def test_shared_rows(tmp_path):
    """With blocks whose variables share master rows: cuts are found for some of these models, and the answers stay."""
    draw, found = random.Random(23), 0
    for number in range(30):
        path = tmp_path / str(number)
        path.mkdir()
        room = Search(path, shared(draw))
        first = room.solve()[0]
        for most in (1, 6, MOST):
            told, cert = room.solve("--cuts", most)
            assert told == first and len(cuts(cert)) <= most
            found += len(cuts(cert)) > 0
    assert found > 5


def test_random_models(tmp_path):
    """Of all kinds of rows, with blocks and without."""
    draw, versions, behind = random.Random(41), set(), set()
    for _ in range(50):
        lp, dec = random_model(draw)
        path = tmp_path / str(len(list(tmp_path.iterdir())))
        path.mkdir()
        room = Search(path, (lp, dec))
        if room.agree(lp, b"", dec).startswith("refused blocks"):
            continue
        first, plain = room.solve()[0], room.plain()
        for most in (1, draw.randint(2, 8), MOST):
            told, cert = room.solve("--cuts", most)
            found = cuts(cert)
            assert told == first and len(found) <= most and found[:len(plain)] == plain[:most]
            versions.add(cert[:8])
            behind.add(len(found) > len(plain))
    assert versions == {b"bpcert 2", b"bpcert 3"} and behind == {False, True}


def rows_of(draw):
    """A model of which each row is even and has an odd side or two."""
    names = [f"v{j}" for j in range(4)]
    lines = ["Minimize", " obj: " + " + ".join(f"{draw.randint(1, 9)} {name}" for name in names), "Subject To"]
    for i in range(6):
        total, side = " + ".join(f"{2 * draw.randint(1, 3)} {name}" for name in names), 2 * draw.randint(4, 9) + 1
        lines.append(f" r{i}: " + draw.choice([f"{total} >= {side}", f"{total} <= {side + 60}", f"{side} <= {total} <= {side + 41}", f"{side} >= - {total}"]))
    lines += ["Bounds", *(f" {name} <= 5" for name in names), "Generals", " " + " ".join(names), "End", ""]
    return "\n".join(lines).encode()


@pytest.mark.parametrize("has_dec", [False, True])
def test_plain_cuts(tmp_path, has_dec):
    """They come by rows, those of master rows alone, and none is left out while there is room."""
    draw = random.Random(8)
    for number in range(5):
        path = tmp_path / str(number)
        path.mkdir()
        room = Search(path, (rows_of(draw), b"NBLOCKS 1\nBLOCK 1\n r1 r4\n" if has_dec else None))
        plain, first = room.plain(), room.solve()[0]
        assert len(plain) >= 4 if has_dec else len(plain) >= 6
        for most in range(len(plain) + 2):
            told, cert = room.solve("--cuts", most)
            assert told == first and cuts(cert)[:len(plain)] == plain[:most] and len(cuts(cert)) <= most


def test_going_on(tmp_path):
    """A search goes on with the cuts of its certificate, and adds others behind them, the plain ones first also where they are there."""
    room = Search(tmp_path, (rows_of(random.Random(5)), None))
    first, plain = room.solve()[0], room.plain()
    for own in (0, 3, 20):
        _, start = room.solve("--steps", 2, "--cuts", own)
        (tmp_path / "from").write_bytes(start)
        for words in (["--from", "from"], ["--from", "from", "--cuts", 0], ["--from", "from", "--workers", 3]):
            told, cert = room.solve(*words)
            assert told == first and cuts(cert) == cuts(start)
        for more in (1, 5, MOST):
            told, cert = room.solve("--from", "from", "--cuts", more)
            added = cuts(cert)[len(cuts(start)):]
            assert told == first and cuts(cert)[:len(cuts(start))] == cuts(start)
            assert len(added) <= more and len(cuts(cert)) <= MOST and added[:len(plain)] == plain[:more]


@pytest.mark.parametrize("own", [254, 255, 256])
def test_no_more_than_fit(tmp_path, own):
    """However many are asked for, there are 256 at most with those that a certificate brings."""
    room = Search(tmp_path, (ODD, None))
    lines = (BOTH * 128).split("\n")[:own]
    (tmp_path / "from").write_text("\n".join(["bpcert 3", "claim bound 0", *lines, "open 1 change 0 priced all", "end", ""]))
    for most in (0, 1, 2, 3, MOST):
        told, cert = room.solve("--from", "from", "--cuts", most)
        found = cuts(cert)
        assert told == "infeasible" and found[:own] == "\n".join(lines).encode().split(b"\n")
        assert found[own:] == room.plain()[:min(most, MOST - own)]


def test_before_the_first_step(tmp_path):
    """They are in the certificate of a search of no steps, and a search that goes on from it comes to the answer with these alone."""
    room = Search(tmp_path, example("odd-order"))
    told, cert = room.solve("--steps", 0, "--cuts", 2)
    assert told == "budget 0" and cuts(cert) == room.plain()
    (tmp_path / "from").write_bytes(cert)
    assert room.solve("--from", "from", "--steps", 1) == room.solve("--steps", 1, "--cuts", 2)
    ran = subprocess.run([TOP / "tools" / "bprice-run", "lp", "--cert", "from"], capture_output=True, check=False, cwd=tmp_path, timeout=60)
    after = (tmp_path / "from").read_bytes()
    assert (ran.stdout, ran.returncode) == (b"infeasible\n", 4) and cuts(after) == cuts(cert)
    assert room.agree(room.lp, after) == "accepted infeasible"


def test_crews(tmp_path):
    """A crew has the cuts that one search has."""
    room = Search(tmp_path, made("assignment-gen-12"))
    first, cert = room.solve("--cuts", 6)
    for workers in (1, 2, 5):
        told, other = room.solve("--cuts", 6, "--workers", workers, "--order", 7)
        assert told == first and cuts(other) == cuts(cert) != []
        assert room.solve("--cuts", 0, "--workers", workers, "--order", 7)[0] == first


def test_below_a_leaf(tmp_path):
    """The leaf is that of the certificate, and the cuts are those of the whole tree."""
    room = Search(tmp_path, made("assignment-gen-12"))
    first = room.solve()[0]
    _, cert = room.solve("--steps", 3)
    (tmp_path / "part").write_bytes(cert)
    for most in (0, 8):
        (tmp_path / "part").write_bytes(cert)
        while b"\nopen " in (tmp_path / "part").read_bytes():
            told, after = room.solve("--from", "part", "--leaf", 1, "--cuts", most)
            assert bool(cuts(after)) == bool(most)
            (tmp_path / "part").write_bytes(after)
        assert told == first


def test_written_anew_and_merged(tmp_path):
    """A certificate with cuts has one text, and goes together with one of the same search and with one that has none."""
    room = Search(tmp_path, made("assignment-gen-20"))
    for name, words in (("one", ["--steps", 4, "--cuts", 3]), ("two", ["--steps", 9, "--cuts", 3]), ("none", ["--steps", 6])):
        (tmp_path / name).write_bytes(room.solve(*words)[1])
    one = (tmp_path / "one").read_bytes()
    assert cuts(one) and run("migrate", "lp", "one", "new", cwd=tmp_path)[1] == 0
    assert (tmp_path / "new").read_bytes() == one
    for first, second in (("one", "two"), ("two", "one"), ("one", "none"), ("none", "two")):
        report, status = run("merge", "lp", first, second, "new", cwd=tmp_path)
        new = (tmp_path / "new").read_bytes()
        assert status == 0 and cuts(new) == cuts(one)
        assert report.split("\n")[1] == room.agree(room.lp, new)


@pytest.mark.parametrize("words", [["257"], ["-1"], ["1.5"], [""], ["4294967296"], ["x"], ["1", "--cuts", "1"], []])
def test_words(tmp_path, words):
    """A number past 256, what is none, two of them, and none: refused, with the file of the certificate as it was."""
    (tmp_path / "lp").write_bytes(ODD)
    (tmp_path / "cert").write_bytes(b"what stood here")
    assert run("solve", "lp", "--cert", "cert", "--cuts", *words, cwd=tmp_path) == ("refused words\n", 2)
    assert (tmp_path / "cert").read_bytes() == b"what stood here"
    assert run("check", "lp", "cert", "--cuts", "1", cwd=tmp_path) == ("refused words\n", 2)
