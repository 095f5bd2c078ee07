"""MPS files as models: fixed and free columns, bounds, ranges, markers, senses, and what is refused by its name."""
import fractions
import subprocess
import sys

import pytest

from conftest import TOP, run

PACKAGE = TOP / "integrations" / "python"
sys.path.insert(0, str(PACKAGE))
import bprice  # noqa: E402
from bprice import mps  # noqa: E402

FIXED = """* a comment
NAME          EXAMPLE
ROWS
 N  COST
 L  LIM 1
 G  LIM2
 E  MYEQN
COLUMNS
    MARK0     'MARKER'                 'INTORG'
    X ONE     COST                1.   LIM 1               1.
    X ONE     LIM2                1.
    Y         COST                2.   LIM 1               1.
    Y         MYEQN              -1.
    Z         COST               -1.   MYEQN               1.
    MARK1     'MARKER'                 'INTEND'
RHS
    RHS       COST               -3.   LIM 1               4.
    RHS       LIM2                1.   MYEQN               7.
BOUNDS
 UP BND       X ONE             4.
 LO BND       Y                -1.
 UP BND       Y                 1.
 UP BND       Z                40.
ENDATA
"""


def free(rows="", columns="", rhs="", rest="", head=""):
    """A free text with an objective `cost`, other sections as they are given."""
    return f"NAME t\n{head}ROWS\n N cost\n{rows}COLUMNS\n m1 'MARKER' 'INTORG'\n{columns} m2 'MARKER' 'INTEND'\nRHS\n{rhs}{rest}ENDATA\n"


def read(text, form=None):
    told = []
    return mps.parse(text, form, told.append), told


def test_fixed_columns():
    """Names with spaces are read by fixed columns alone."""
    model, _ = read(FIXED)
    assert list(model.spans) == ["X ONE", "Y", "Z"] and model.spans["Y"] == (-1, 1)
    assert [(row.name, row.terms, row.low, row.high) for row in model.rows.values()] == [
        ("LIM 1", {"X ONE": 1, "Y": 1}, None, 4), ("LIM2", {"X ONE": 1}, 1, None), ("MYEQN", {"Y": -1, "Z": 1}, 7, 7)]
    assert model.constant == 3 and model.solve().value == 1 - 2 - 6 + 3
    assert vars(read(FIXED, "fixed")[0].rows["LIM 1"]) == vars(model.rows["LIM 1"])
    with pytest.raises(bprice.Refused, match="mps 5: no row's type"):
        read(FIXED, "free")


def test_fixed_and_free_agree():
    """Where names have no spaces both readings give the same model."""
    text = FIXED.replace("X ONE", "XONE ").replace("LIM 1", "LIM1 ")
    texts = [read(text, form)[0].text() for form in ("fixed", "free", None)]
    assert texts[0] == texts[1] == texts[2]


@pytest.mark.parametrize("mark, spread, sides", [("E", "3", (5, 8)), ("E", "-3", (2, 5)), ("L", "3", (2, 5)), ("L", "-3", (2, 5)),
                                                 ("G", "3", (5, 8)), ("G", "-3", (5, 8)), ("E", "0", (5, 5))])
def test_ranges(mark, spread, sides):
    text = free(f" {mark} r\n", " x cost 1 r 1\n", " RHS r 5\n", f"RANGES\n RNG r {spread}\nBOUNDS\n UP BND x 99\n")
    row = read(text)[0].rows["r"]
    assert (row.low, row.high) == sides


@pytest.mark.parametrize("lines, span", [
    ("", (0, 1)), (" UP BND x 7\n", (0, 7)), (" UP BND x 7.5\n", (0, 7)), (" UI BND x 7\n", (0, 7)), (" LO BND x 2\n", (2, None)),
    (" LI BND x 2\n UP BND x 5\n", (2, 5)), (" FX BND x 3\n", (3, 3)), (" BV BND x\n", (0, 1)), (" BV BND x 1\n", (0, 1)), (" BV x\n", (0, 1)),
    (" FR BND x\n", (None, None)), (" MI BND x\n", (None, None)), (" MI BND x\n UP BND x 3\n", (None, 3)), (" UP BND x 3\n MI BND x\n", (None, 3)),
    (" PL BND x\n", (0, None)), (" UP BND x 5\n PL BND x\n", (0, None)), (" UP BND x -2\n", (None, -2)), (" LO BND x -9\n UP BND x -2\n", (-9, -2)),
    (" UP BND x 0\n", (0, 0)), (" UP BND x 1e30\n", (0, None)), (" UP BND x Inf\n", (0, None)), (" LO BND x -1e20\n UP BND x 4\n", (None, 4)),
    (" UP x 6\n", (0, 6)), (" UP BND x 6\n UP OTHER x 2\n", (0, 6))])
def test_bounds(lines, span):
    assert read(free(columns=" x cost 1\n", rest=f"BOUNDS\n{lines}"))[0].spans["x"] == span


def test_integers_by_bounds():
    """BV, LI and UI make a variable whole without a marker, and a fixed one may be continuous."""
    text = "NAME t\nROWS\n N cost\nCOLUMNS\n x cost 1\n y cost 1\n z cost 1\n w cost 1\nBOUNDS\n BV b x\n UI b y 4\n LI b z 2\n UP b z 3\n FX b w 2\nENDATA\n"
    assert read(text)[0].spans == {"x": (0, 1), "y": (0, 4), "z": (2, 3), "w": (2, 2)}
    with pytest.raises(bprice.Refused, match="'w' is continuous"):
        read(text.replace("FX b w 2", "FX b w 2.5"))
    with pytest.raises(bprice.Refused, match="'x' is continuous"):
        read(text.replace("BV b x", "UP b x 1"))


def test_what_readers_do_not_agree_on_is_told():
    _, told = read(free(" N other\n", " x cost 1 other 2\n y cost 1\n", " RHS cost 7\n", "BOUNDS\n UP BND x -2\n UP OLD x 3\n"))
    assert [line.split(":", 1)[1] for line in told] == [
        " the row other is a second one without a side, and is left out", " x has a negative upper bound and no lower one: it has none then, as most readers take it",
        " BOUNDS has a second set, OLD, which is left out", " y is an integer without bounds: it is 0 or 1 then, as most readers take it",
        " the right side 7 of the objective is the constant -7, as CPLEX and CBC take it (GLPK takes it as 7)"]


def test_a_bound_from_a_row():
    model, told = read(free(" L r\n", " x cost -1 r 2\n", " RHS r 9\n", "BOUNDS\n PL BND x\n"))
    assert "<= x <= 4" in model.text() and told == ["bprice: x has no upper bound; row r gives 4"]
    with pytest.raises(bprice.Refused, match="'x' has no lower bound, and no row gives one"):
        read(free(" L r\n", " x cost -1 r 2\n", " RHS r 9\n", "BOUNDS\n FR BND x\n"))[0].text()


@pytest.mark.parametrize("head, sense", [("", "min"), ("OBJSENSE\n    MAX\n", "max"), ("OBJSENSE MAXIMIZE\n", "max"), ("OBJSENSE\nMAX\n", "max"), ("OBJSENSE\n MIN\n", "min")])
def test_senses(head, sense):
    model, _ = read(free(columns=" x cost 3\n", head=head))
    assert model.sense == sense and model.solve().value == (3 if sense == "max" else 0)


def test_fractions_are_scaled():
    model, _ = read(free(" L r\n", " x cost 0.1 r .25\n y cost -1.5D0 r 1e-1\n", " RHS r 1.05\n", "BOUNDS\n UP BND x 9\n UP BND y 9\n"))
    assert vars(model.rows["r"]) == {"name": "r", "terms": {"x": 5, "y": 2}, "low": None, "high": 21}
    assert model.scale == 10 and model.costs == {"x": 1, "y": -15} and model.solve().value == fractions.Fraction(-27, 2)


def test_lines_in_short_forms():
    """Right sides and bounds without a set's name, columns that go on without their name, and comments behind `$`."""
    model, _ = read(free(" L r $ room\n G s\n", " x cost 1 r 1\n s 2 $ more\n y cost 1 r 1\n s 1\n", " r 5 s 4\n", "BOUNDS\n UP x 6\n UP y 6\n"))
    assert [(row.terms, row.low, row.high) for row in model.rows.values()] == [({"x": 1, "y": 1}, None, 5), ({"x": 2, "y": 1}, 4, None)]


@pytest.mark.parametrize("text, words", [
    (free(columns=" x cost 1\n", rest="QUADOBJ\n x x 1\n"), "mps 9: the section 'QUADOBJ'"), (free(columns=" x cost 1\n", rest="SOS\n S1 a\n"), "the section 'SOS'"),
    (free(columns=" x cost 1\n", rest="BOUNDS\n SC BND x 9\n"), "a bound SC of 'x'"), (free(columns=" x cost 1\n", rest="BOUNDS\n UP BND y 9\n"), "the column 'y'"),
    (free(columns=" x none 1\n"), "mps 6: the row 'none'"), (free(rhs=" RHS none 1\n"), "the row 'none'"), (free(columns=" x cost one\n"), "'one', which is no number"),
    (free(columns=" x cost 1\n x cost 2\n"), "a second number of 'x' in the row 'cost'"), (free(" L r\n L r\n"), "a second row 'r'"),
    (free(" L r\n", " x cost 1\n", " RHS r 1\n RHS r 2\n"), "a second number of the row 'r'"), (free(head="OBJSENSE BEST\n"), "an objective's sense"),
    (free(" L r\n", " x cost 1\n", " RHS r inf\n"), "an infinite number of the row 'r'"), (free(columns=" x cost inf\n"), "'x' in the row 'cost' is infinite"),
    (free(columns=" m3 'MARKER' 'SOSORG'\n"), "the marker 'SOSORG'"), (free(" X r\n"), "no row's type"), (free(columns=" x\n"), "no column's name"),
    (free(columns=" x cost 1\n", rest="BOUNDS\n UP BND x\n"), "no bound|the column"), (free(columns=" x cost 1\n", rest="BOUNDS\n UP\n"), "no bound"),
    ("NAME t\nROWS\n N cost\n", "without ENDATA"), (" x\n", "before the first section"), ("NAME t\nROWS\n N c\nCOLUMNS\n c 1\nENDATA\n", "no column's name"),
    (free(rhs=" a b c d e f\n"), "no row's name and number")])
def test_refused(text, words):
    with pytest.raises(bprice.Refused, match=words):
        read(text)


def told_by(*words):
    ran = subprocess.run([sys.executable, "-m", "bprice.mps", *map(str, words)], capture_output=True, text=True, check=False, cwd=PACKAGE)
    return ran.stdout, ran.stderr, ran.returncode


def test_command(tmp_path):
    (tmp_path / "a.mps").write_text(FIXED)
    assert told_by(tmp_path / "a.mps", tmp_path / "a.lp")[::2] == ("", 0)
    assert run("solve", tmp_path / "a.lp")[0].split("\n")[0] == "optimal -4"
    out, err, status = told_by(tmp_path / "a.mps", "--fixed")
    assert out.startswith("\\ v1 is the variable X ONE\n\\ r1 is the row LIM 1\nMinimize\n") and (out, status) == ((tmp_path / "a.lp").read_text(), 0)
    assert "the right side -3 of the objective is the constant 3" in err
    assert told_by(tmp_path / "a.mps", "--free") == ("", f"{tmp_path}/a.mps: mps 5: no row's type and name\n", 3)
    (tmp_path / "b.mps").write_text(free(columns=" x cost 0.5\n"))
    assert told_by(tmp_path / "b.mps")[0].startswith("\\ the objective is 2 times that of the MPS file\n")
    assert told_by(tmp_path / "none.mps")[2] == 11 and told_by(tmp_path)[2] == 7 and told_by()[2] == 2 and told_by("a", "--both")[2] == 2
    assert told_by("--help")[2] == 0
