"""The checker for strangers says of each certificate what `bprice check` says: of those that stand in the repository, of those that
`solve` writes, and of mutated ones. So it does of mutated LP and DEC texts."""
import pathlib
import random
import re
import subprocess
import sys

import pytest

from conftest import TOP, load_tool, run

TOOL = TOP / "tools" / "check_certificate.py"
checker = load_tool(TOOL)
CERTIFICATES = load_tool(TOP / "farm" / "certificates.py")
STATUS = {"accepted": 0, "refused": 3, "rejected": 6}
PROGRAM_ALONE = re.compile(r"refused (lp [0-9]+ (limit|activity)|dec 0 limit|dec [0-9]+ unknown-var|blocks (var-place \S+|links))\n")
EXAMPLES = [
    ("cutting-stock/model.lp", "cutting-stock/model.cert", "cutting-stock/model.dec"),
    ("cutting-stock/harder.lp", "cutting-stock/harder.cert", "cutting-stock/harder.dec"),
    ("rostering/three.lp", "rostering/three.cert", "rostering/three.dec"),
    ("routing/model.lp", "routing/model.cert", None),
    ("assignment/model.lp", "assignment/model.cert", None),
    ("odd-order/at-least.lp", "odd-order/at-least.cert", None),
]


class Room:
    """A folder in which both checkers see the same texts."""

    def __init__(self, path):
        self.path = pathlib.Path(path)

    def told(self, lp, cert, dec=None):
        names = []
        for name, text in (("lp", lp), ("cert", cert), ("dec", dec)):
            if text is not None:
                (self.path / name).write_bytes(text)
                names += ["--dec", name] if name == "dec" else [name]
        return run("check", *names, cwd=self.path)

    def agree(self, lp, cert, dec=None):
        """What both say, once it is the same, or what the program alone looks at."""
        report, status = self.told(lp, cert, dec)
        own = checker.check(lp, cert, dec)
        if PROGRAM_ALONE.fullmatch(report):
            return report.rstrip("\n")
        assert (own + "\n", STATUS[own.split(" ", 1)[0]]) == (report, status)
        return own


@pytest.fixture(name="room")
def room_fixture(tmp_path):
    return Room(tmp_path)


def text_of(name):
    return None if name is None else (TOP / "examples" / name).read_bytes()


def worked():
    """The texts of each `check`, `solve` or `show` of the worked scripts, as (script, LP, certificate or None, DEC or None)."""
    for script in sorted((TOP / "crates/test_scripts/data").glob("*.txt")):
        files, lines = {}, iter(script.read_text(encoding="latin-1").split("\n"))
        for line in lines:
            if line.startswith("file "):
                text = []
                for row in lines:
                    if row == ".":
                        break
                    text.append(row + "\n")
                files[line[5:]] = "".join(text).encode("latin-1")
            found = re.fullmatch(r"(?:run|first) (?:check (\S+) (\S+)|(?:solve|show) (\S+))(?: --dec (\S+))?.*", line)
            if found:
                lp, cert, other, dec = found.groups()
                if (lp or other) in files and (cert is None or cert in files) and (dec is None or dec in files):
                    yield script.name, files[lp or other], files.get(cert), files.get(dec)


def test_worked_texts(room):
    """A text that is refused is so whatever the certificate is; one that is accepted is judged with a certificate of its own."""
    count = 0
    for _, lp, cert, dec in worked():
        room.agree(lp, b"bpcert 1\n" if cert is None else cert, dec)
        count += 1
    assert count > 150


@pytest.mark.parametrize("lp, cert, dec", EXAMPLES)
def test_examples(room, lp, cert, dec):
    assert room.agree(text_of(lp), text_of(cert), text_of(dec)).startswith("accepted optimal ")


def solved(room, lp, dec=None, steps=None, cuts=None):
    """The certificate that `solve` writes."""
    (room.path / "lp").write_bytes(lp)
    words = ["solve", "lp", "--cert", "written"]
    if dec is not None:
        (room.path / "dec").write_bytes(dec)
        words += ["--dec", "dec"]
    if steps is not None:
        words += ["--steps", steps]
    if cuts is not None:
        words += ["--cuts", cuts]
    run(*words, cwd=room.path)
    return (room.path / "written").read_bytes()


@pytest.mark.parametrize("seed", range(4))
def test_generated_models(room, seed):
    run("gen", seed, 5 + 4 * seed, "lp", "dec", cwd=room.path)
    lp, dec = (room.path / "lp").read_bytes(), (room.path / "dec").read_bytes()
    for steps in (0, 3, None):
        assert room.agree(lp, solved(room, lp, dec, steps), dec).startswith("accepted ")
        assert room.agree(lp, solved(room, lp, None, 20 if steps is None else steps)).startswith("accepted ")


def random_model(draw):
    """A small model with all kinds of rows and bounds, and a decomposition or None."""
    many, rows = draw.randint(1, 5), draw.randint(0, 4)
    names = [f"v{j}" for j in range(many)]

    def sum_of(some):
        return " ".join(f"{draw.choice('+-')} {draw.randint(0, 6)} {name}" for name in some)
    lines = [draw.choice(["Maximize", "Minimize"]), f" obj: {sum_of(names)} + {draw.randint(0, 9)}", "Subject To"]
    for i in range(rows):
        some, side = draw.sample(names, draw.randint(1, many)), draw.randint(-8, 12)
        lines.append(f" r{i}: " + draw.choice([
            f"{sum_of(some)} <= {side}", f"{sum_of(some)} >= {side - 10}", f"{sum_of(some)} = {side}", f"{side} >= {sum_of(some)}",
            f"{side - 7} <= {sum_of(some)} <= {side}", f"{side} >= {sum_of(some)} >= {side - 5}"]))
    lines += ["Bounds", *(f" {low} <= {name} <= {low + draw.randint(0, 6)}" for name in names for low in [draw.randint(-3, 2)])]
    lines += ["Generals", " " + " ".join(names), "End", ""]
    dec = None
    if draw.random() < 0.7:
        blocks = draw.randint(1, 2)
        places = [draw.randint(0, blocks) for _ in range(rows)]
        dec = "\n".join([f"NBLOCKS {blocks}", *(row for k in range(1, blocks + 1) for row in
                         [f"BLOCK {k}", *(f"r{i}" for i in range(rows) if places[i] == k)])]) + "\n"
    return "\n".join(lines).encode(), dec and dec.encode()


def test_random_models(room):
    draw, claims = random.Random(26), set()
    for _ in range(90):
        lp, dec = random_model(draw)
        if room.agree(lp, b"", dec).startswith("refused blocks"):
            continue
        cert = solved(room, lp, dec, draw.choice([None, None, 0, 1, 5]))
        report = room.agree(lp, cert, dec)
        assert report.startswith("accepted ")
        claims.add(report.split(" ")[1])
        every = re.sub(rb"priced .*", b"priced all", cert)
        room.agree(lp, every, dec)
        room.agree(lp, mutated(draw, every), dec)
    assert claims == {"optimal", "infeasible", "bound"}


def mutated(draw, text):
    """A text with one to three changes: of a number, a word, a byte, or of lines."""
    for _ in range(draw.choice([1, 1, 1, 2, 3])):
        kind = draw.randrange(9)
        numbers, lines = list(re.finditer(rb"-?[0-9]+", text)), text.split(b"\n")
        if kind <= 3 and numbers:
            found = draw.choice(numbers)
            old = int(found[0])
            new = draw.choice([old + 1, old - 1, -old, 0, old * 10, old + draw.randint(-5, 5), 2**40, 2**62, 2**20 + 1])
            text = text[:found.start()] + str(new).encode() + text[found.end():]
        elif kind == 4 and text:
            place = draw.randrange(len(text))
            text = text[:place] + text[place + 1:]
        elif kind == 5:
            place = draw.randrange(len(text) + 1)
            text = text[:place] + bytes([draw.choice(b" \n-01x9<=:\\.e\xff\r")]) + text[place:]
        elif kind == 6:
            del lines[draw.randrange(len(lines))]
            text = b"\n".join(lines)
        elif kind == 7:
            lines.insert(draw.randrange(len(lines)), draw.choice(lines))
            text = b"\n".join(lines)
        else:
            one, other = draw.choice(WORDS), draw.choice(WORDS)
            text = text.replace(one, other, 1)
    return text


WORDS = [b"leaf", b"open", b"cut", b"bpcert 2", b"bpcert 3", b"split", b"optimal", b"infeasible", b"bound", b"value", b"rows", b"change", b"priced all", b"priced 0", b" ", b"<=", b">=", b"=",
         b"Bounds", b"Generals", b"Binaries", b"+", b"-", b"BLOCK", b"MASTERCONSS", b"NBLOCKS", b"free", b"inf"]


LINKED = (b"Maximize\n obj: 3 x + 2 y + 2 z\nSubject To\n c1: x + y <= 1\n c2: x + z <= 1\nBinaries\n x y z\nEnd\n",
          b"NBLOCKS 2\nBLOCK 1\n c1\nBLOCK 2\n c2\nLINKINGVARS\n x\n")


@pytest.mark.parametrize("leaf, answer", [
    ("leaf 1 change 1 3 -1 priced all", "accepted optimal 4"),
    ("leaf 2 change 1 3 -4 priced all", "accepted optimal 4"),
    ("leaf 1 change 0 priced all", "rejected 4 weak"),
    ("leaf 1 change 1 3 1 priced all", "rejected 4 weak"),
    ("leaf 1 change 1 3 -1 priced 1 1", "rejected 4 weak"),
    ("leaf 1 change 1 3 -1 priced 2 1 2", "accepted optimal 4"),
    ("leaf 1 change 1 2 -1 priced all", "refused cert 4 number"),
    ("leaf 1 change 1 4 -1 priced all", "refused cert 4 number"),
    ("split 1 0\nleaf 1 change 1 3 1 priced all\nleaf 1 change 1 3 0 priced all", "accepted optimal 4"),
    ("split 1 0\nleaf 1 change 1 3 1 priced all\nleaf 1 change 1 3 1 priced all", "refused cert 6 number"),
])
def test_link_rows(room, leaf, answer):
    """Row 3 says that the copies of x in both blocks are one number."""
    lp, dec = LINKED
    assert room.agree(lp, f"bpcert 2\nclaim optimal 4\npoint 0 1 1\n{leaf}\nend\n".encode(), dec) == answer
    assert room.agree(lp, b"bpcert 1\nclaim optimal 4\npoint 0 1 1\nleaf 1 rows 1 3 -1 priced all\nend\n") == "refused cert 4 number"


def test_further_copies(room):
    """Two link rows of one variable in three blocks, and one of another between them, in the order of variables and blocks."""
    lp = b"min\n x + y\nst\n a: x + y >= 1\n b: x - y >= 0\n c: x >= 0\n m: x + y <= 2\nbin\n x y\nend\n"
    dec = b"NBLOCKS 3\nBLOCK 3\n a\nBLOCK 1\n b\nBLOCK 2\n c\n"
    for rows, answer in (("0", "rejected 4 weak"), ("1 7 1", "rejected 4 weak"), ("2 5 1 6 1", "rejected 4 weak"), ("2 5 1 7 1", "rejected 4 weak"),
                         ("2 6 1 7 1", "accepted optimal 1"), ("1 8 1", "refused cert 4 number"), ("1 4 1", "rejected 4 sign")):
        cert = f"bpcert 1\nclaim optimal 1\npoint 1 0\nleaf 1 rows {rows} priced all\nend\n".encode()
        assert room.agree(lp, cert, dec) == answer


ODD = b"Minimize\n obj: x + y\nSubject To\n c1: 2 x + 2 y = 5\nBounds\n x <= 3\n y <= 3\nGenerals\n x y\nEnd\n"
BOTH = "cut 2 rows 1 1 1\ncut 2 rows 1 1 -1\n"


@pytest.mark.parametrize("lines, answer", [
    (BOTH + "leaf 0 change 2 2 1 3 1 priced 0", "accepted infeasible"),
    (BOTH + "split 1 1\nleaf 0 change 2 2 1 3 1 priced 0\nleaf 0 change 0 priced all", "accepted infeasible"),
    ("cut 2 rows 1 1 1\ncut 2 rows 1 1 1\nleaf 0 change 2 2 1 3 1 priced 0", "rejected 5 weak"),
    ("cut 2 rows 1 1 1\ncut 1 rows 2 1 -1 2 2\nleaf 0 change 1 3 1 priced 0", "accepted infeasible"),
    ("cut 2 rows 1 1 1\ncut 1 rows 1 2 -1\nleaf 0 change 1 3 1 priced 0", "rejected 4 sign"),
    (BOTH + "leaf 0 change 1 2 -1 priced 0", "rejected 5 sign"),
    (BOTH + "leaf 0 change 1 4 1 priced 0", "refused cert 5 number"),
    ("cut 0 rows 1 1 1\nleaf 0 change 0 priced 0", "refused cert 3 number"),
    ("cut 1048577 rows 1 1 1\nleaf 0 change 0 priced 0", "refused cert 3 too-large"),
    ("cut 2 rows 1 1 -1048577\nleaf 0 change 0 priced 0", "refused cert 3 too-large"),
    ("cut 2 rows 1 1 0\nleaf 0 change 0 priced 0", "refused cert 3 number"),
    ("cut 2 rows 1 2 1\nleaf 0 change 0 priced 0", "refused cert 3 number"),
    ("cut -2 rows 1 1 1\nleaf 0 change 0 priced 0", "refused cert 3 syntax"),
    ("leaf 0 change 0 priced 0", "refused cert 3 syntax"),
    (BOTH * 128 + "leaf 0 change 2 2 1 257 1 priced 0", "accepted infeasible"),
    (BOTH * 128 + "cut 02 rows 1 1 1\nleaf 0 change 2 2 1 3 1 priced 0", "refused cert 259 limit"),
    (BOTH * 128 + "cut rows\nleaf 0 change 2 2 1 3 1 priced 0", "refused cert 259 syntax"),
])
def test_cuts(room, lines, answer):
    """No even number is 5: by the first cut x + y is at least 3, and by the second at most 2."""
    assert room.agree(ODD, f"bpcert 3\nclaim infeasible\n{lines}\nend\n".encode()) == answer


def test_cuts_of_versions_1_and_2(room):
    for version, word in ((1, "rows"), (2, "change")):
        cert = f"bpcert {version}\nclaim infeasible\ncut 2 rows 1 1 1\nleaf 0 {word} 1 2 1 priced 0\nend\n"
        assert room.agree(ODD, cert.encode()) == "refused cert 3 syntax"


def test_large_cuts(room):
    """The sums of a cut's row may be as large as those of a model's row: 2^61 x >= 1 once, and not twice."""
    lp = b"min\n x\nst\n 2305843009213693952 x >= 1\nbin\n x\nend\n"
    for line, answer in (("cut 1 rows 1 1 1", "rejected 5 weak"), ("cut 1 rows 1 1 2", "rejected 4 cut"), ("cut 3 rows 1 1 2", "rejected 5 weak")):
        assert room.agree(lp, f"bpcert 3\nclaim optimal 1\npoint 1\n{line}\nleaf 1 change 0 priced 0\nend\n".encode()) == answer


def test_rows_of_cuts():
    """3 x >= 1 from -1 on: 2 x >= 0 in halves, and x >= 1 in thirds."""
    model = checker.Model(b"min\n x\nst\n 3 x >= 1\nbounds\n -1 <= x <= 5\ngen\n x\nend\n")
    for divisor, row in ((2, ({0: 2}, [0, checker.INFINITE])), (3, ({0: 1}, [1, checker.INFINITE]))):
        judge = checker.Judge(model, [checker.Block([0], [])], [], 1)
        judge.add_cuts([(3, divisor, {0: 1})])
        assert judge.rows[1:] == [row]


def with_cuts(draw, cert, model, block_of):
    """A certificate of version 2 with one to four cuts, of which each multiplier mostly fits, and one of them at its first leaf or not."""
    sides = {i: row.sides for i, (k, row) in enumerate(zip(block_of, model.rows), 1) if k == 0}
    lines = []
    for number in range(len(block_of) + 1, len(block_of) + draw.randint(2, 5)):
        pairs = ""
        for row in sorted(draw.sample([*sides], draw.randint(0, min(3, len(sides))))):
            fits = [sign for sign, side in zip((1, -1), sides[row]) if abs(side) != checker.INFINITE]
            pairs += f" {row} {draw.choice([1, 1, 2, 7]) * draw.choice(fits if draw.random() < 0.95 else [1, -1])}"
        lines.append(f"cut {draw.randint(1, 7)} rows {len(pairs.split()) // 2}{pairs}\n")
        sides[number] = (0, checker.INFINITE)
    if draw.random() < 0.5:
        cert = re.sub(r"change ([0-9]+)((?: -?[0-9]+)*)", lambda found: f"change {int(found[1]) + 1}{found[2]} {number} {draw.randint(1, 3)}", cert, count=1)
    place = re.search(r"^(?:leaf|open|split)", cert, re.MULTILINE).start()
    return cert[:place].replace("bpcert 2", "bpcert 3") + "".join(lines) + cert[place:]


def test_random_cuts(room):
    """Cuts at whose rows no leaf looks change nothing, where they are right."""
    draw, kinds = random.Random(18), set()
    for _ in range(60):
        lp, dec = random_model(draw)
        if room.agree(lp, b"", dec).startswith("refused blocks"):
            continue
        model = checker.Model(lp)
        block_of = checker.form_blocks(model, *checker.read_dec(dec or b"NBLOCKS 0", model))[0]
        cert = solved(room, lp, dec, draw.choice([None, 0, 1, 5]))
        for _ in range(3):
            cut = with_cuts(draw, cert.decode(), model, block_of).encode()
            kinds.add(room.agree(lp, cut, dec).split(" ")[0])
            kinds.add(room.agree(lp, mutated(draw, cut), dec).split(" ")[0])
    assert kinds == {"accepted", "rejected", "refused"}


def test_search_with_cuts(room):
    """What `solve --cuts` writes is accepted, of the three kinds of claims; and some of it has cuts."""
    draw, claims, versions = random.Random(19), set(), set()
    for _ in range(60):
        lp, dec = random_model(draw)
        if room.agree(lp, b"", dec).startswith("refused blocks"):
            continue
        cert = solved(room, lp, dec, draw.choice([None, None, 0, 1]), draw.choice([1, 3, 256]))
        report = room.agree(lp, cert, dec)
        assert report.startswith("accepted ")
        claims.add(report.split(" ")[1])
        versions.add(cert[:8])
    assert claims == {"optimal", "infeasible", "bound"} and versions == {b"bpcert 2", b"bpcert 3"}
    cert = solved(room, text_of("odd-order/model.lp"), cuts=2)
    assert cert.startswith(b"bpcert 3\nclaim infeasible\ncut 2 rows 1 1 1\ncut 2 rows 1 1 -1\nleaf ") and cert.count(b"\n") == 6
    assert room.agree(text_of("odd-order/model.lp"), cert) == "accepted infeasible"
    assert room.agree(text_of("odd-order/model.lp"), text_of("odd-order/model.cert")) == "accepted infeasible"


@pytest.mark.parametrize("seed, example", enumerate(EXAMPLES))
def test_mutated_certificates(room, seed, example):
    lp, cert, dec = map(text_of, example)
    draw, kinds = random.Random(seed), set()
    written = [cert, solved(room, lp, dec, 2), solved(room, lp, None, 5)]
    for _ in range(70):
        base = draw.choice(written)
        own_dec = dec if base is not written[2] else None
        report = room.agree(lp, mutated(draw, base), own_dec)
        kinds.add(report.split(" ")[0])
    assert kinds == {"accepted", "rejected", "refused"}


def in_version_1(cert):
    """The same certificate of version 2 in version 1, where each leaf has all its multipliers."""
    lines, had = cert.splitlines(keepends=True), {}
    for place, line in enumerate(lines):
        if line.startswith((b"leaf ", b"open ")):
            lines[place], had = CERTIFICATES.standing(line, had)
    return b"".join([b"bpcert 1\n", *lines[1:]])


@pytest.mark.parametrize("is_plain", [True, False])
def test_mutated_searches(room, is_plain):
    """Trees of some dozens of nodes, with many multipliers that change from leaf to leaf."""
    draw, kinds = random.Random(52), set()
    run("gen", 2, 14, "lp", "dec", cwd=room.path)
    lp, dec = (room.path / "lp").read_bytes(), None if is_plain else (room.path / "dec").read_bytes()
    written = [solved(room, lp, dec, steps) for steps in (9, 40)]
    for cert in [*written, *map(in_version_1, written)]:
        assert room.agree(lp, cert, dec).startswith("accepted ")
        for _ in range(25):
            kinds.add(room.agree(lp, mutated(draw, cert), dec).split(" ")[0])
    assert kinds == {"accepted", "rejected", "refused"}


@pytest.mark.parametrize("seed, example", enumerate(EXAMPLES))
def test_mutated_models(room, seed, example):
    lp, cert, dec = map(text_of, example)
    draw = random.Random(100 + seed)
    for _ in range(25):
        room.agree(mutated(draw, lp), cert, dec)
        if dec is not None:
            room.agree(lp, cert, mutated(draw, dec))


def test_command(tmp_path):
    """The tool as a command: its report, statuses, and its limit of states."""
    def told(*words):
        ran = subprocess.run([sys.executable, TOOL, *words], capture_output=True, text=True, check=False, cwd=TOP / "examples/cutting-stock")
        return ran.stdout, ran.returncode
    assert told("model.lp", "model.cert", "--dec", "model.dec") == ("accepted optimal 2\n", 0)
    assert told("model.lp", "model.cert") == ("rejected 4 weak\n", 6)
    assert told("model.lp", "model.dec") == ("refused cert 1 syntax\n", 3)
    assert told("model.lp", "none.cert") == ("", 11)
    assert told("model.lp", ".") == ("", 7)
    assert told("model.lp", "model.cert", "--dec", "model.dec", "--states", "2") == ("unknown 4\n", 10)
    assert told("model.lp", "model.cert", "--dec", "model.dec", "--seconds", "60") == ("accepted optimal 2\n", 0)
    assert told("model.lp", "model.cert", "--dec", "model.dec", "--seconds", "0.000001") == ("not judged\n", 12)
    for wrong in ("0", "-1", "nan", "inf", "1e300", "soon"):
        assert told("model.lp", "model.cert", "--seconds", wrong) == ("", 2)
    assert len(TOOL.read_text(encoding="ascii").splitlines()) <= 450


def test_large_limits(tmp_path):
    """Blocks and splits past the usual limits are those of a larger model's certificate, up to the large ones."""
    def told(blocks, splits, *words):
        (tmp_path / "lp").write_text("Minimize\n obj: x\nSubject To\n c: x >= 0\nBounds\n x <= 1000000000\nGenerals\n x\nEnd\n", encoding="ascii")
        (tmp_path / "dec").write_text(f"NBLOCKS {blocks}\n", encoding="ascii")
        lines = ["bpcert 2", "claim bound 0", *(f"split 1 {at}" for at in range(splits, 0, -1)), *["open 1 change 0 priced 0"] * (splits + 1), "end", ""]
        (tmp_path / "cert").write_text("\n".join(lines), encoding="ascii")
        ran = subprocess.run([sys.executable, TOOL, "lp", "cert", "--dec", "dec", *words], capture_output=True, text=True, check=False, cwd=tmp_path)
        return ran.stdout, ran.returncode
    assert told(4096, 8256) == ("accepted bound 0\n", 0)
    assert told(4097, 1) == ("refused dec 1 limit\n", 3)
    assert told(4097, 1, "--large") == ("accepted bound 0\n", 0)
    assert told(131_072, 1, "--large") == ("accepted bound 0\n", 0)
    assert told(131_073, 1, "--large") == ("refused dec 1 limit\n", 3)
    assert told(1, 8257) == ("refused cert 8260 depth\n", 3)
    assert told(1, 8257, "--large") == ("accepted bound 0\n", 0)
    assert told(1, 1_048_641, "--large") == ("refused cert 1048644 depth\n", 3)
