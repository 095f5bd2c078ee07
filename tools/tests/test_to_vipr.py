"""tools/to_vipr.py: a checker that was written from the format's description alone (vipr.py) proves of each file what the certificate claims, with cuts,
splits, scales 0 and priced blocks; what can't be written is refused with a sentence; and no file that was changed so that it proves no more is accepted."""
import random
import re
import subprocess
import sys

import pytest

import vipr
from conftest import TOP, load_tool, run
from test_check_certificate import BOTH, EXAMPLES, ODD, checker, random_model, text_of

TOOL = TOP / "tools" / "to_vipr.py"
models = load_tool(TOP / "bench" / "models.py")
LINES, STATES = 100_000, 100_000
NAMES = ["assignment-gen-12", "assignment-gen-20", "assignment-C-3-12", "assignment-D-3-8", "bins-small-18-s7", "rolls-small-6-s7", "general-5-8", "lots-4-6",
         "plants-2-25", "pairings-5-20", "conflicts-4-20"]
MUTANTS = 1_000
BY_HAND = """% A split on y shows that 2 x + y is at least 1.
VER 1.1
VAR 2 x y
INT 2 0 1
OBJ min 2 0 2 1 1
CON 3 2
C1 G 1 2 0 2 1 3
C2 G 0 1 0 1
C3 G 0 1 1 1
RTP range 1 1
SOL 1
best 1 1 1
DER 7
A1 L 0 1 1 1 { asm } 9
A2 G 1 1 1 1 { asm } 9
D1 G 1 1 0 2 { lin 2 0 1 3 -3 } 6
D2 G 1 1 0 1 { rnd 1 5 1/2 } 7
D3 G 2 OBJ { lin 2 6 2 2 1 } 9
D4 G 1 OBJ { lin 2 1 2 4 1 } 9
D5 G 1 OBJ { uns 7 3 8 4 } -1
"""
WRONG = [  # in the file above: what stands there, what is put in its place, and why that proves nothing
    ("VER 1.1", "VER 2.0", "2.0 stands where"),
    ("INT 2 0 1", "INT 1 1", "what is rounded is not whole"),
    ("INT 2 0 1", "INT 2 0 2", "no index or count"),
    ("OBJ min 2 0 2", "OBJ min 2 1 2", "an index twice"),
    ("range 1 1", "range 2 2", "the last constraint does not imply"),
    ("range 1 1", "range 2 1", "an empty range"),
    ("range 1 1", "range 0 0", "no point reaches"),
    ("RTP range 1 1", "RTP infeas", "a point of what is infeasible"),
    ("best 1 1 1", "best 1 1 1/2", "best is not whole"),
    ("best 1 1 1", "best 1 0 -1", "best breaks a constraint"),
    ("A1 L 0 1 1 1", "A1 L -1 1 1 1", "a split leaves a gap"),
    ("A2 G 1 1 1 1", "A2 G 2 1 1 1", "a split leaves a gap"),
    ("A2 G 1", "A2 L 1", "inequalities of both senses"),
    ("{ asm } 9\nA2", "{ asm } 8\nA2", "is used behind its last use"),
    ("3 -3", "3 3", "inequalities of both senses"),
    ("{ rnd 1 5 1/2 }", "{ lin 1 5 1/2 }", "the sum does not imply"),
    ("D2 G 1", "D2 G 2", "the rounded sum does not imply"),
    ("1/2 }", "1/0 }", "no number"),
    ("{ lin 2 1", "{ lin incomplete 2 1", "no index or count"),
    ("7 3 8 4", "7 3 8 3", "a split is not at most and at least"),
    ("7 3 8 4", "7 3 8 0", "no assumption is discharged"),
    ("7 3 8 4", "6 3 8 4", "a part does not imply"),
    ("uns 7 3 8 4", "lin 1 8 1", "the last constraint rests on assumptions"),
    ("{ uns 7", "{ sol 7", "sol stands where"),
    ("} -1\n", "} -1\nmore", "words behind"),
    ("} -1\n", "}\n", "the file ends too early"),
    ("} -1\n", "} -2\n", "no last use"),
    ("D5 G 1", "D5 G 2", "a part does not imply"),
    ("{ lin 2 0 1 3 -3 }", "{ lin 2 0 1 8 -3 }", "no index or count"),
    ("{ rnd 1 5 1/2 }", "{ rnd 0 }", "an equation is rounded"),
    ("D1 G 1", "D1 G 2", "the sum does not imply"),
]


def translated(lp, cert, dec=None, lines=LINES):
    """The text of the file, once the certificate is a valid one."""
    assert checker.check(lp, cert, dec).startswith("accepted")
    pieces = []

    class Sink:
        write = staticmethod(pieces.append)
    tool.Translation(lp, cert, dec, lines, STATES).write(Sink)
    return "".join(pieces)


tool = load_tool(TOOL)


def claimed(lp, cert):
    """What a file has to prove, as vipr.py says it: values without the objective's constant."""
    model, words = checker.Model(lp), cert.split(b"\n", 2)[1].decode().split()[1:]
    if words[0] == "infeasible":
        return "infeasible"
    proved, reached = words[1], words[1] if words[0] == "optimal" else words[3] if len(words) > 2 else None
    ends = ["none" if end is None else str(int(end) - model.constant) for end in (proved, reached)]
    return "range " + " ".join(ends if model.sign > 0 else ends[::-1])


def solved(folder, lp, dec=None, *words):
    (folder / "lp").write_bytes(lp)
    if dec is not None:
        (folder / "dec").write_bytes(dec)
    run("solve", "lp", *(["--dec", "dec"] if dec is not None else []), *words, "--cert", "cert", cwd=folder)
    return (folder / "cert").read_bytes()


def agreed(folder, lp, dec=None, *words):
    cert = solved(folder, lp, dec, *words)
    text = translated(lp, cert, dec)
    assert vipr.prove(text) == claimed(lp, cert)
    return text


@pytest.mark.parametrize("name", NAMES)
def test_bench(tmp_path, name):
    """Certificates without blocks, with cuts and without, of whole searches and of stopped ones."""
    lp = models.make(name)[0].encode()
    for words in (["--steps", 0], ["--steps", 40], ["--steps", 40, "--cuts", 8]):
        agreed(tmp_path, lp, None, *words)


@pytest.mark.parametrize("lp, cert, dec", EXAMPLES)
def test_examples(lp, cert, dec):
    lp, cert, dec = map(text_of, (lp, cert, dec))
    text = translated(lp, cert, dec)
    assert vipr.prove(text) == claimed(lp, cert)
    assert ("block:" in text) == (dec is not None)


def test_random_models(tmp_path):
    """All kinds of rows and bounds, constants, linking variables; each block priced in each leaf."""
    draw, seen = random.Random(3), set()
    for _ in range(60):
        lp, dec = random_model(draw)
        cert = solved(tmp_path, lp, dec, "--steps", draw.choice([0, 1, 5, 100]))
        for every in (cert, re.sub(rb"priced .*", b"priced all", cert)):
            if checker.check(lp, every, dec).startswith("accepted"):
                text = translated(lp, every, dec)
                assert vipr.prove(text) == claimed(lp, every)
                seen |= set(claimed(lp, every).split()[:1]) | set(re.findall(r"\{ (?:asm|lin|rnd|uns)|block:|split:", text))
    assert seen >= {"infeasible", "range", "{ asm", "{ lin", "{ rnd", "{ uns", "block:", "split:"}


def test_sums_of_equations():
    """Only inequalities are rounded: a cut from an equation alone begins as an inequality."""
    cert = f"bpcert 3\nclaim infeasible\n{BOTH}leaf 0 change 2 2 1 3 1 priced 0\nend\n".encode()
    text = translated(ODD, cert)
    assert vipr.prove(text) == "infeasible"
    assert "cut:1:exact G 5/2 2 0 1 1 1 { lin 1 0 1/2 }" in text and re.search(r"cut:1 G 3 2 0 1 1 1 \{ rnd 1 \d+ 1 \}", text)


def test_no_point_in_a_block():
    """A priced block without a point: its derivation of 0 >= 1 stands for the leaf."""
    lp = ODD.replace(b"c1: 2 x + 2 y = 5", b"c1: x >= 0\n c2: 2 x + 2 y = 5")
    text = translated(lp, b"bpcert 1\nclaim infeasible\nleaf 1 rows 0 priced 1 1\nend\n", b"NBLOCKS 1\nBLOCK 1\nc2\n")
    assert vipr.prove(text) == "infeasible" and "block:1 G 1 0 { uns " in text


def wide(many):
    """A model with one block of so many variables, of which an odd number is wanted; all are even."""
    lp = "Minimize\n obj: x1\nSubject To\n c1: " + " + ".join(f"2 x{j}" for j in range(1, many + 1)) + " = 1\nBinaries\n"
    return f"{lp} {' '.join(f'x{j}' for j in range(1, many + 1))}\nEnd\n".encode(), b"NBLOCKS 1\nBLOCK 1\nc1\n"


def called(folder, texts, *words):
    names = []
    for name, text in zip(("lp", "cert", "dec"), texts):
        (folder / name).write_bytes(text)
        names += ["--dec", name] if name == "dec" else [name]
    ran = subprocess.run([sys.executable, TOOL, *names, *words], cwd=folder, capture_output=True, text=True, check=False)
    return ran.returncode, ran.stdout, ran.stderr


def test_command(tmp_path):
    leaf = b"bpcert 1\nclaim infeasible\nleaf 1 rows 0 priced 1 1\nend\n"
    lp, cert = text_of("first.lp"), b"bpcert 1\nclaim optimal 8\npoint 2 1\nleaf 5 rows 2 1 -7 2 -1 priced 0\nend\n"
    status, text, told = called(tmp_path, (lp, cert))
    assert (status, told) == (0, "") and vipr.prove(text) == "range 8 8"
    assert called(tmp_path, (lp, cert), "file") == (0, "", "") and (tmp_path / "file").read_text() == text
    assert called(tmp_path, (lp, cert.replace(b"leaf 5", b"leaf 6"))) == (6, "", "rejected 4 weak\n")
    assert called(tmp_path, (lp, cert.replace(b"leaf 5", b"leaf 05"))) == (3, "", "refused cert 4 syntax\n")
    assert called(tmp_path, (lp, cert), "--lines", "0") == (1, "", "to_vipr.py: more than 0 lines would be derived; --lines sets this limit\n")
    many, dec = wide(21)
    told = "to_vipr.py: block:1 is priced and has 21 variables; a block of at most 20 can be written\n"
    assert called(tmp_path, (many, leaf, dec)) == (1, "", told)
    few, dec = wide(20)
    status, text, told = called(tmp_path, (few, leaf, dec))
    assert (status, told) == (0, "") and vipr.prove(text) == "infeasible"
    (tmp_path / "lp").unlink()
    ran = subprocess.run([sys.executable, TOOL, "lp", "cert"], cwd=tmp_path, capture_output=True, text=True, check=False)
    assert ran.returncode == 11 and ran.stdout == "" and ran.stderr.startswith("to_vipr.py: ")


def test_by_hand():
    """The checker judges a file that no tool has written."""
    assert vipr.prove(BY_HAND) == "range 1 1"
    assert vipr.prove(BY_HAND.replace("range 1 1", "range -inf 1")) == "range none 1"
    assert vipr.prove(BY_HAND.replace("range 1 1", "range 1/2 inf")) == "range 1/2 none"


@pytest.mark.parametrize("old, new, why", WRONG)
def test_one_thing_wrong(old, new, why):
    assert BY_HAND.count(old) == 1
    with pytest.raises(vipr.Wrong, match=re.escape(why)):
        vipr.prove(BY_HAND.replace(old, new))


def changed(draw, lines, place, kind):
    """A line of DER, in words, so that the file proves its claim no more; None where that kind of change can't be made there."""
    line, reason = list(lines[place]), lines[place].index("{") + 1
    word, weights = line[reason], list(range(reason + 3, len(line) - 2, 2))
    if kind == "weight" and word in ("lin", "rnd") and len(weights) > 1:
        at = draw.choice(weights)
        line[at] = str(draw.choice([-1, 2]) * vipr.fractions.Fraction(line[at]))
    elif kind == "side" and word == "rnd":
        line[2] = str(int(line[2]) + (1 if line[1] == "G" else -1))
    elif kind == "side" and word == "asm":
        line[2] = str(int(line[2]) + draw.choice([-1, 1]))
    elif kind == "sense" and word == "asm":
        line[1] = "GL"[line[1] == "G"]
    elif kind == "terms" and line[3] not in ("OBJ", "0") and word != "uns":
        line[5] = str(vipr.fractions.Fraction(line[5]) + 1)
    elif kind == "use" and int(line[-1]) > 0:
        line[-1] = str(int(line[-1]) - 1)
    else:
        return None
    return line


def mutants(draw, text):
    """Files without end, each with one change that no proof stands."""
    head, _, body = text.partition("\nDER ")
    count, *lines = body.rstrip("\n").split("\n")
    lines, words = [line.split() for line in lines], text.split(" ")
    while True:
        kind = draw.choice(["weight", "side", "sense", "terms", "use", "claim", "point", "lost", "short"])
        if kind == "claim" and "RTP range" in text:
            ends = re.search(r"RTP range (\S+) (\S+)", text).groups()
            if ends[0] == ends[1]:  # an optimum
                other = int(ends[0]) + draw.choice([-1, 1])
                yield kind, text.replace("RTP range {} {}".format(*ends), f"RTP range {other} {other}")
        elif kind == "point" and "\npoint " in text:
            yield kind, re.sub(r"\npoint 0", "\npoint 1 0 1/2", re.sub(r"\n(point \d+ \d+ \S+)", r"\n\1/2000003", text))
        elif kind == "lost" and len(lines) > 1:
            at = draw.randrange(len(lines) - 1)
            yield kind, f"{head}\nDER {int(count) - 1}\n" + "\n".join(" ".join(line) for line in lines[:at] + lines[at + 1:]) + "\n"
        elif kind == "short":
            yield kind, " ".join(words[:draw.randrange(len(words))])
        else:
            at = draw.randrange(len(lines))
            if (line := changed(draw, lines, at, kind)) is not None:
                yield kind, f"{head}\nDER {count}\n" + "\n".join(" ".join(line if place == at else one) for place, one in enumerate(lines)) + "\n"


def test_mutants(tmp_path):
    """A thousand wrong files, from six right ones, are refused."""
    draw, texts, seen = random.Random(53), [], set()
    for lp, cert, dec in (EXAMPLES[0], EXAMPLES[4], EXAMPLES[5]):
        texts.append(translated(*map(text_of, (lp, cert, dec))))
    texts.append(agreed(tmp_path, models.make("assignment-C-3-12")[0].encode(), None, "--cuts", 8))
    texts.append(agreed(tmp_path, models.make("rolls-small-6-s7")[0].encode(), None, "--steps", 40))
    texts.append(translated(ODD, f"bpcert 3\nclaim infeasible\n{BOTH}leaf 0 change 2 2 1 3 1 priced 0\nend\n".encode()))
    streams = [mutants(draw, text) for text in texts]
    for place in range(MUTANTS):
        kind, text = next(streams[place % len(streams)])
        seen.add(kind)
        try:
            proved = vipr.prove(text)
        except vipr.Wrong:
            continue
        pytest.fail(f"a file with another {kind} proves {proved}:\n{text}")
    assert len(seen) == 9
