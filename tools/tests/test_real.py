"""The problems of the literature in examples/real: their data, and that bprice reaches the known values with certificates."""
import itertools
import subprocess
import sys

import pytest

from conftest import TOP, load_tool, run

REAL = TOP / "examples" / "real"
sys.path.insert(0, str(REAL))
make = load_tool(REAL / "make.py")
draw = load_tool(REAL / "draw.py")
facts, bprice = make.facts, make.bprice
SLOW = {"queen8_8"}  # some seconds


@pytest.mark.parametrize("name", [name for name in make.PROBLEMS if name not in SLOW])
def test_known_values(name, tmp_path, capsys):
    assert make.solve(tmp_path, name)
    assert capsys.readouterr().out.startswith(f"{name}: accepted ")
    assert (tmp_path / f"{name}.dec").exists() == (make.PROBLEMS[name]().blocks is not None)


def test_sizes():
    """How many rows and variables problems have that are made by a rule."""
    sizes = {name: (len(problem.model.spans), len(problem.model.rows)) for name in ("steiner27", "myciel3", "queen8_8", "golfers9", "five_queens")
             for problem in [make.PROBLEMS[name]()]}
    assert sizes == {"steiner27": (27, 117), "myciel3": (60, 111), "queen8_8": (650, 484), "golfers9": (336, 72), "five_queens": (64, 64)}
    steiner = [set(row.terms) for row in make.PROBLEMS["steiner27"]().model.rows.values()]
    assert all(sum({one, other} <= line for line in steiner) == 1 for one, other in itertools.combinations(sorted(set().union(*steiner)), 2))
    edges, vertices = make.mycielski(*make.mycielski([(1, 2)], 2))
    assert (vertices, len(edges)) == (11, 20)
    assert not any({(a, b), (b, c), (a, c)} <= set(edges) for a, b, c in itertools.combinations(range(1, 12), 3))


def test_facts():
    """Sums that the sources tell: the waste of 73 rolls, and vehicles that the demands need."""
    cut = sum(width * many for width, many in facts.ROLLS.items())
    assert cut > 72 * facts.MACHINE and round(1 - cut / (73 * facts.MACHINE), 5) == 0.00401
    assert 7 * facts.ROUTING_HOLDS < sum(demand for _, demand in facts.ROUTING) <= 8 * facts.ROUTING_HOLDS
    assert sum(map(sum, facts.NONOGRAM_ROWS)) == sum(map(sum, facts.NONOGRAM_COLUMNS))


def test_a_tour(tmp_path):
    """The best plan of ulysses16 is one round trip, so that the rows for groups that are not there can't be missed."""
    answer = bprice.solve(make.write(tmp_path, "ulysses16")[1])
    links = [tuple(map(int, name[1:].split("_"))) for name, value in answer.point.items() if value]
    seen, left = {1}, links
    while any(set(link) & seen and not set(link) <= seen for link in left):
        seen |= set().union(*(link for link in left if set(link) & seen))
    assert len(links) == 16 and seen == set(range(1, 17))


def test_one_solution(tmp_path):
    """The nonogram has one solution: the search for a second plan is infeasible."""
    make.write(tmp_path, "nonogram")
    ran = subprocess.run([sys.executable, TOP / "tools" / "bprice-run", "nonogram.lp", "--cert", "cert", "--plans", "2"], cwd=tmp_path, capture_output=True,
                         text=True, check=True)
    assert ran.stdout.endswith("no further plan: infeasible, certificate cert.2 of cert.2.lp\n")
    assert run("check", "cert.2.lp", "cert.2", cwd=tmp_path) == ("accepted infeasible\n", 0)


def test_command(tmp_path):
    script = [sys.executable, REAL / "make.py"]
    subprocess.run([*script, tmp_path / "a", "cars10", "golfers9"], check=True)
    assert sorted(path.name for path in (tmp_path / "a").iterdir()) == ["cars10.lp", "golfers9.dec", "golfers9.lp"]
    ran = subprocess.run([*script, "--solve", tmp_path / "b", "cars10"], capture_output=True, text=True, check=True)
    assert ran.stdout.startswith("cars10: accepted optimal 0, known optimal 0, ")
    assert subprocess.run([*script, "--none"], capture_output=True, check=False).returncode == 2


def test_a_wrong_value(tmp_path, monkeypatch):
    """A known value that bprice does not reach is told by the status."""
    monkeypatch.setitem(make.PROBLEMS, "cars10", lambda: make.Problem(make.cars10().model, 1))
    monkeypatch.setattr(sys, "argv", ["make.py", "--solve", str(tmp_path), "cars10"])
    assert make.main() == 1


def test_pictures(tmp_path):
    """The pictures that stand beside the texts show these problems."""
    for name in draw.DRAWN:
        assert (REAL / "pictures" / f"{name}.svg").read_text().startswith("<svg ")
    answer = bprice.solve(make.write(tmp_path, "five_queens")[1])
    assert draw.five_queens(answer.point).count(f'fill="{draw.INK}"') == 5
    puzzle = bprice.solve(make.write(tmp_path, "nonogram")[1])
    assert draw.nonogram(puzzle.point).count(f'fill="{draw.INK}"') == sum(map(sum, facts.NONOGRAM_ROWS))
    assert draw.nonogram(puzzle.point) == (REAL / "pictures" / "nonogram.svg").read_text()
