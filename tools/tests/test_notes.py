"""The notes on standard error: what each says of a refusal, and that the standard output is what it is without."""
import subprocess
from pathlib import Path

import pytest

from conftest import PROGRAM

FIRST = """Maximize
 obj: 3 x + 2 y
Subject To
 c1: 2 x + y <= 5
Bounds
 x <= 3
 y <= 3
Generals
 x y
End
"""

# A change of the first model, the line of the refusal and the note behind the file's name.
TEXTS = [
    ("2 y", "2.5 y", "2 not-whole", ":2:13: not-whole: the number '2.5' is not whole; "),
    ("<= 5", "<= 5 x", "5 syntax", ":5:1: syntax: 'Bounds' can't stand here: it begins its line, so it is read as the word of a section"),
    ("<= 5", "<= x", "4 syntax", ":4:17: syntax: 'x' can't stand here: one number stands behind the comparison; "),
    (" y <= 3\n", "", "2 unbounded", ":2:15: unbounded: 'y' has no upper bound; add one under Bounds"),
    (" x y\n", " x\n", "2 continuous", ":2:15: continuous: 'y' is under neither Generals nor Binaries"),
    ("x <= 3", "x <= -3", "2 crossed", ":2:9: crossed: the lower bound of 'x' is above its upper bound; "),
    ("End\n", "", "10 no-end", ":10: no-end: the text ends without the word End; "),
    ("3 x", "3 x^2", "2 feature", ":2:10: feature: '^' belongs to what is not supported: "),
    ("2 x + y", "4611686018427387904 x + y", "4 too-large", ":4:6: too-large: the number '4611686018427387904' is past "),
    ("Maximize\n", "", "1 syntax", ":1:2: syntax: 'obj' can't stand here: a text begins with Maximize or Minimize"),
    ("obj", "ob\u00e9", "2 bad-byte", ":2:4: bad-byte: '\\xc3' begins no number, name or mark; "),
]

USAGE = "usage: bprice COMMAND .., and `help COMMAND` tells of one; `--` ends the options\n"
WORDS = [
    ([], USAGE),
    (["--help"], USAGE),
    (["help", "prove"], "bprice: 'prove' is no command; the first word is one of solve check show "),
    (["help", "detect", "m.lp"], "usage: bprice detect LP ROWS DEC [--large]\n"),
    (["version", "1"], "bprice: 'version' is no command; the first word is one of solve check show "),
    (["Help"], "bprice: 'Help' is no command; the first word is one of solve check show "),
    (["--version"], "bprice, proved with rattle-kit-"),
    (["prove"], "bprice: 'prove' is no command; the first word is one of solve check show "),
    (["check", "m.lp"], "bprice: check wants a further word: CERT\nusage: bprice check LP CERT [--dec DEC] [--visits M] [--large]\n"),
    (["solve", "m.lp", "--cert"], "bprice: --cert wants a value behind it: CERT\nusage: bprice solve LP "),
    (["gen", "1", "0", "a", "b"], "bprice: SIZE is a whole number from 1 to 1024, and not '0'\nusage: bprice gen SEED SIZE LP DEC\n"),
    ([b"solve", b"\xff"], "bprice: the words are no text in UTF-8\n" + USAGE),
]


COMMANDS = ["solve", "check", "show", "propose", "detect", "merge", "migrate", "gen", "demo"]

MPS = """* a plan

NAME          PLAN
ROWS
 N  COST
 L  LIM
COLUMNS
    X         COST         1.0   LIM          1.0
RHS
    RHS       LIM          4.0
BOUNDS
 UP BND       X            4.0
ENDATA
"""
IS_MPS = "this is MPS: `glpsol --freemps model.mps --wlp model.lp`, or PuLP, writes LP\n"

# A change of the first model, the line of the refusal, how many digits the sums come to, and the exponent of the power of ten.
SUMS = [
    ("2 x + y <= 5", "2 x + 3000000000000000000 y <= 5", "4", 19, 1),  # 9000000000000000011
    ("2 x + y <= 5", "2 x - 4000000000000000000 y >= -5", "4", 20, 1),  # 12000000000000000011
    ("<= 5\n", "<= 4611686018427387903\n", "4", 19, 1),  # 4611686018427387912
    ("3 x + 2 y", "4000000000000000000 x + 4000000000000000000 y", "1", 20, 1),  # 24000000000000000000
    ("<= 5\nBounds\n x <= 3", "<= 5\nBounds\n -4000000000000000000 <= x <= 3", "1", 20, 1),  # 12000000000000000006 in the objective
]


def told(*words, room=None, out=subprocess.PIPE):
    ran = subprocess.run([PROGRAM, *words], stdout=out, stderr=subprocess.PIPE, check=False, timeout=60, cwd=room)
    return ran.returncode, (ran.stdout or b"").decode(), ran.stderr.decode()


@pytest.fixture(name="room")
def room_fixture(tmp_path):
    (tmp_path / "m.lp").write_text(FIRST)
    return tmp_path


@pytest.mark.parametrize("old, new, refusal, note", TEXTS)
def test_texts(room, old, new, refusal, note):
    assert FIRST.count(old) >= 1
    (room / "m.lp").write_bytes(FIRST.replace(old, new, 1).encode())
    status, out, err = told("solve", "m.lp", room=room)
    assert (status, out) == (3, f"refused lp {refusal}\n")
    assert err.startswith("m.lp" + note) and err.count("\n") == 1 and err.endswith("\n")


@pytest.mark.parametrize("words, note", WORDS)
def test_words(room, words, note):
    status, out, err = told(*words, room=room)
    assert (status, out) == (2, "refused words\n")
    assert err.startswith(note)


def test_pages(room):
    status, out, err = told("help", room=room)
    assert (status, err) == (0, "") and out == told("--help", room=room)[2] and out.startswith(USAGE)
    for command in COMMANDS:
        status, out, err = told("help", command, room=room)
        assert (status, err) == (0, "") and out == told(command, "--help", room=room)[2]
        assert out.startswith(f"usage: bprice {command} ")
    version = (Path(__file__).parents[2] / "release/VERSION").read_text().strip()
    status, out, err = told("version", room=room)
    assert (status, err) == (0, "") and out.startswith(f"bprice {version}, proved with rattle-kit-")
    assert out.split(", ", 1)[1] == told("--version", room=room)[2].split(", ", 1)[1]


def test_pages_that_cannot_be_written(room):
    with open("/dev/full", "wb") as full:
        for words in (["help"], ["help", "solve"], ["version"]):
            assert told(*words, room=room, out=full) == (8, "", "bprice: the standard output could not be written; no space left\n")


def test_a_model_in_mps(room):
    (room / "m.lp").write_text(MPS)
    status, out, err = told("solve", "m.lp", room=room)
    assert (status, out[:11]) == (3, "refused lp ") and err.startswith("m.lp:") and err.endswith(": " + IS_MPS)
    (room / "m.lp").write_text(MPS.split("NAME")[0] + MPS[MPS.index("ROWS"):])
    assert told("show", "m.lp", room=room)[2].endswith(": " + IS_MPS)
    (room / "m.lp").write_text(MPS[MPS.index("NAME"):])
    assert told("solve", "m.lp", room=room)[1:] == ("refused lp 1 syntax\n", "m.lp:1: syntax: " + IS_MPS)
    (room / "m.lp").write_text(FIRST.replace("Maximize", "Names"))
    assert "MPS" not in told("solve", "m.lp", room=room)[2]


def test_a_continuous_variable_in_tenths(room):
    (room / "m.lp").write_text(FIRST.replace(" x y\n", " x\n"))
    err = told("solve", "m.lp", room=room)[2]
    assert "count it in tenths: divide its coefficients in rows and costs by ten, multiply its bounds by ten, and list it under Generals" in err
    # y in tenths: what the note says to change, in rows and costs multiplied by ten.
    tenths = FIRST.replace("3 x + 2 y", "30 x + 2 y").replace("2 x + y <= 5", "20 x + y <= 50").replace(" y <= 3", " y <= 30")
    (room / "m.lp").write_text(tenths)
    assert told("solve", "m.lp", room=room) == (0, "optimal 90\nx 1\ny 30\n", "")


@pytest.mark.parametrize("old, new, line, digits, scale", SUMS)
def test_sums(room, old, new, line, digits, scale):
    assert FIRST.count(old) == 1
    (room / "m.lp").write_text(FIRST.replace(old, new))
    status, out, err = told("solve", "m.lp", room=room)
    assert (status, out) == (3, f"refused lp {line} activity\n")
    assert f" sum to {digits} digits, and 18 are always allowed: scale by 10^{scale}, " in err


def test_limits_name_large(room):
    names = " ".join(f"+ x{at}" for at in range(4097))
    (room / "m.lp").write_text(f"Maximize\n obj: {names}\nSubject To\nBinaries\n {names.replace('+ ', '')}\nEnd\n")
    status, out, err = told("show", "m.lp", room=room)
    assert (status, out) == (3, "refused lp 2 limit\n") and "read the model with --large, which takes 524288" in err
    assert told("show", "m.lp", "--large", room=room)[0] == 0


def test_usage_fits_a_screen(room):
    _, _, err = told("--help", room=room)
    assert err.count("\n") <= 24 and max(map(len, err.splitlines())) <= 88
    assert all(word in err for word in ("solve", "check", "show", "detect", "gen", "demo", "--dec", "--steps", "--cert", "--from", "11 no such file"))


def test_files(room):
    assert told("solve", "none.lp", room=room) == (11, "", "bprice: none.lp: there is no such file\n")
    assert told("solve", "m.lp", "--dec", "none.dec", room=room) == (11, "", "bprice: none.dec: there is no such file\n")
    status, out, err = told("solve", ".", room=room)
    assert (status, out) == (7, "") and err.startswith("bprice: .: it could not be read; ")
    status, out, err = told("gen", "1", "2", "no/a", "b", room=room)
    assert (status, out) == (8, "") and err.startswith("bprice: no/a: it could not be written; ")
    with open("/dev/full", "wb") as full:
        status, _, err = told("solve", "m.lp", room=room, out=full)
    assert status == 8 and err.startswith("bprice: the standard output could not be written; ")


def test_decompositions(room):
    (room / "d").write_text("NBLOCKS 1\nBLOCK 1\n c1 c9\n")
    status, out, err = told("show", "m.lp", "--dec", "d", room=room)
    assert (status, out) == (3, "refused dec 3 unknown-row\n")
    assert err.startswith("d:3:5: unknown-row: no row of the model has the name 'c9' here; ")
    (room / "m.lp").write_text(FIRST.replace("Bounds", " c2: x <= 3\nBounds"))
    for lists in ("BLOCKVARS 2 x\n", "MASTERVARS x\n"):
        (room / "d").write_text("NBLOCKS 2\nBLOCK 1\n c1\nMASTERCONSS\n c2\n" + lists)
        status, out, err = told("show", "m.lp", "--dec", "d", room=room)
        assert (status, out) == (3, "refused blocks var-place x\n")
        assert err.startswith("d: var-place: the variable 'x' stands in a row of a block, and is listed with another block or with the master; ")
    (room / "rows").write_text("c1\nc1\n")
    status, out, err = told("detect", "m.lp", "rows", "new", room=room)
    assert (status, out) == (3, "refused rows 2 row-twice\n")
    assert err.startswith("rows:2:1: row-twice: the row 'c1' is listed a second time; ")


def test_certificates(room):
    assert told("solve", "m.lp", "--cert", "c", room=room) == (0, "optimal 9\nx 1\ny 3\n", "")
    good = (room / "c").read_text()
    assert told("check", "m.lp", "c", room=room) == (0, "accepted optimal 9\n", "")
    (room / "c").write_text(good.replace("point 1 3", "point 1 2"))
    status, out, err = told("check", "m.lp", "c", room=room)
    assert (status, out) == (6, "rejected 3 value\n")
    assert err.startswith("c:3: value: the point's value is not the one that is claimed; ")
    (room / "c").write_text(good.replace("point 1 3", "point 1  3"))
    status, out, err = told("check", "m.lp", "c", room=room)
    assert (status, out) == (3, "refused cert 3 syntax\n")
    assert err.startswith("c:3: syntax: ") and "'point 1  3' is what stands here" in err


def test_nothing_is_said_of_answers(room):
    assert told("solve", "m.lp", room=room)[2] == ""
    (room / "m.lp").write_text(FIRST.replace("<= 5", "<= -5"))
    assert told("solve", "m.lp", room=room) == (4, "infeasible\n", "")


def test_the_version_names_the_kit_of_the_release():
    kit, name, logic, value = (Path(__file__).parents[2] / "release/SOURCES").read_text().splitlines()[0].split()
    assert (kit, logic) == ("kit", "logic")
    assert told("--version")[2] == f"bprice, proved with {name}, logic {value}\n"
