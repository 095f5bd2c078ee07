"""bprice-explain: conflicts that are conflicts and minimal, tight rows and what sides are worth, and parts of a gap that add up to it."""
import fractions
import itertools
import pathlib
import random
import re
import subprocess
import sys

import pytest

from conftest import TOP, load_tool, run

TOOL = TOP / "tools" / "bprice-explain"
explain = load_tool(TOOL)
bprice, texts = explain.bprice, explain.texts


def told(*words, **options):
    ran = subprocess.run([sys.executable, TOOL, *map(str, words)], capture_output=True, text=True, check=False, timeout=60, **options)
    return ran.stdout, ran.stderr, ran.returncode


def points(spans):
    return (dict(zip(spans, values)) for values in itertools.product(*(range(low, high + 1) for low, high in spans.values())))


def has_point(rows, spans):
    return any(all(row.admits(point) for row in rows) for point in points(spans))


CLASH = """Minimize
 obj: x + y + z
Subject To
 a: x + y <= 3
 b: 2 x + 3 z >= 4
 c: x + y + z <= 9
 d: x - y >= 4
Bounds
 x <= 10
 y <= 10
 z <= 10
Generals
 x y z
End
"""


def test_conflict(tmp_path):
    (tmp_path / "lp").write_text(CLASH)
    out, err, status = told("lp", "--cert", "small", cwd=tmp_path)
    assert (out, err, status) == ("infeasible\nconflict: 2 rows (none can be left out), 1 bound (none can be left out)\nrow a: x + y <= 3\n"
                                  "row d: x - y >= 4\nbound y >= 0\ncertificate small of small.lp: accepted infeasible\n", "", 4)
    assert run("check", "small.lp", "small", cwd=tmp_path) == ("accepted infeasible\n", 0)
    assert list(bprice.Model.read(tmp_path / "small.lp").rows) == ["a", "d"]


def test_conflict_with_blocks(tmp_path):
    """The proofs price blocks, and the smaller model has its own decomposition."""
    assert run("gen", 2, 6, "lp", "dec", cwd=tmp_path)[1] == 0
    out, _, status = told("lp", "--dec", "dec", "--cert", "small", cwd=tmp_path)
    assert status == 4 and "conflict: 9 rows (none can be left out)" in out and "row job1:" not in out and out.count("row cap") == 4
    assert run("check", "small.lp", "small", "--dec", "small.dec", cwd=tmp_path) == ("accepted infeasible\n", 0)


def test_conflict_through_cuts(tmp_path):
    """A certificate whose proof names cuts alone: the rows behind them are the conflict."""
    folder = TOP / "examples" / "odd-order"
    out, _, status = told(folder / "model.lp", "--steps", 300)
    assert status in (4, 5)
    problem = explain.Problem.read(folder / "model.lp", None)
    answer = bprice.solve(problem.model, cuts=2)
    rows, _ = explain.Proof(problem, answer).used()
    small = problem.part(rows)
    assert answer.status == "infeasible" and rows and small.model.solve(cuts=2).status == "infeasible"
    assert out.startswith("infeasible\n" if status == 4 else "budget 300\n")


def random_clash(draw):
    model = bprice.Model("min")
    names = ["x", "y", "z"][:draw.randint(2, 3)]
    for name in names:
        model.add_variable(name, draw.randint(-1, 0), draw.randint(1, 2))
    model.set_objective({name: draw.randint(-2, 2) for name in names})
    for place in range(draw.randint(2, 5)):
        low = draw.randint(-4, 5)
        sides = draw.choice([(low, None), (None, low), (low, low), (low, low + 1)])
        model.add_row(f"r{place}", {name: draw.randint(-3, 3) for name in names}, *sides)
    return model


def test_conflicts_by_enumeration(tmp_path):
    """No point meets a conflict's rows and bounds, however wide the other bounds are; without a row, or a bound that is decided, there is one."""
    draw, tried = random.Random(3), 0
    while tried < 14:
        model = random_clash(draw)
        if has_point(model.rows.values(), model.spans):
            continue
        tried += 1
        model.write(tmp_path / "lp")
        out, _, status = told("lp", cwd=tmp_path)
        lines = out.split("\n")
        assert status == 4 and lines[0] == "infeasible"
        rows = {re.match(r"row (\w+):", line)[1] for line in lines if line.startswith("row ")}
        bounds = [re.fullmatch(r"bound (\w+) ([<>])= (-?\d+)( \(undecided\))?", line).groups() for line in lines if line.startswith("bound ")]

        def spans_with(ends):
            wide = {name: [-9, 10] for name in model.spans}
            for name, mark, end, _ in ends:
                wide[name][mark == "<"] = int(end)
                assert int(end) == model.spans[name][mark == "<"]
            return wide
        kept = [model.rows[name] for name in rows]
        assert rows and not has_point(kept, spans_with(bounds))
        for row in kept:
            assert has_point([other for other in kept if other is not row], model.spans)
        for bound in bounds:
            if bound[3] is None:
                assert has_point(kept, spans_with([other for other in bounds if other is not bound]))


def test_undecided(tmp_path):
    """Rows that the steps don't decide stay, and are told."""
    side = 2**20
    (tmp_path / "lp").write_text(f"Minimize\n obj:\nSubject To\n a: 2 x + 2 y = {side + 1}\n b: x - y >= 1\n c: x >= 3\nBounds\n x <= {side}\n y <= {side}\n"
                                 "Generals\n x y\nEnd\n")
    out, _, status = told("lp", "--steps", 5, cwd=tmp_path)
    assert status == 5 and out.startswith("budget 5\nbound 0\nleaves ") and out.endswith("no point is known, so there is no gap that could stand anywhere\n")
    problem = explain.Problem.read(tmp_path / "lp", None)
    answer = problem.model.solve(cuts=2)
    rows, undecided = explain.fewer_rows(problem, answer, 0)
    assert answer.status == "infeasible" and rows == undecided == {"a"}
    assert explain.counted(1, "row", 1) == "1 row (1 undecided)" and explain.counted(2, "bound", 0) == "2 bounds (none can be left out)"


def test_optimal(tmp_path):
    (tmp_path / "lp").write_text("Maximize\n obj: 3 end + 2 y\nSubject To\n c1: 2 end + y <= 5\n c2: end + 3 y <= 7\n same: end - 2 y = 0\n low: end + y >= 1\n"
                                 "Bounds\n 0 <= end <= 3\n y <= 3\nGenerals\n y end\nEnd\n")
    out, err, status = told("lp", "--row", "c1", "--row", "same", "--row", "low", cwd=tmp_path)
    assert (err, status) == ("", 0)
    assert out == ("optimal 8\nrows 4 equalities 1 tight 1\ntight c1: <= 5\n"
                   "row c1: side 5, sum 5\n  side +1: optimal 8 (+0)\n  side -1: infeasible\n"
                   "row same: side 0, sum 0\n  side +1: optimal 3 (-5)\n  side -1: optimal 5 (-3)\n"
                   "row low: side 1, sum 3\n  side +1: optimal 8 (+0)\n  side -1: optimal 8 (+0)\n")


def test_sides_by_enumeration(tmp_path):
    draw, seen = random.Random(4), 0
    while seen < 7:
        model = random_clash(draw)
        if not has_point(model.rows.values(), model.spans):
            continue
        seen += 1
        model.write(tmp_path / "lp")
        name = draw.choice(list(model.rows))
        out, _, status = told("lp", "--row", name, cwd=tmp_path)
        assert status == 0
        for step in (1, -1):
            row = model.rows[name]
            low, high = (None if side is None else side + step for side in (row.low, row.high))
            others = [other for other in model.rows.values() if other.name != name] + [bprice.Row(name, row.terms, low, high)]
            values = [model.value(point) for point in points(model.spans) if all(other.admits(point) for other in others)]
            assert f"  side {step:+d}: {f'optimal {min(values)} (' if values else 'infeasible'}" in out


@pytest.mark.parametrize("with_blocks", [False, True])
def test_parts_of_a_gap(tmp_path, with_blocks):
    """They are at least 0, and the root's bound is what the checker works out from the multipliers."""
    run("gen", 3, 12, "lp", "dec", cwd=tmp_path)
    problem = explain.Problem.read(tmp_path / "lp", tmp_path / "dec" if with_blocks else None)
    answer = problem.solve(2 if with_blocks else 40)
    assert answer.value is not None
    root, parts = explain.gap_parts(problem, answer)
    assert all(part.size >= 0 for part in parts) and answer.value - root == sum(part.size for part in parts) > 0
    first = problem.solve(1)
    proof = explain.Proof(problem, first)
    leaf, _ = next(proof.leaves())
    judge = texts.Judge(proof.read, proof.blocks, proof.links, 5_000_000)
    assert root == fractions.Fraction(judge.bound(leaf), leaf.number)
    assert first.bound - 1 < root <= answer.value


def test_gap_report(tmp_path):
    run("gen", 3, 20, "lp", "dec", cwd=tmp_path)
    out, _, status = told("lp", "--dec", "dec", "--steps", 2, "--most", 1, cwd=tmp_path)
    assert status == 5
    assert re.fullmatch(r"budget 2\nbound 441\nvalue 444\nleaves 3 open 3\nroot bound 440\.\d+, 3\.\d+ from the value: of these stand\n"
                        r"  [\d.]+ \(\d+%\) in .+\n  [\d.]+ \(\d+%\) in \d+ others\n", out), out


def test_a_maximum(tmp_path):
    """The parts of a gap of a model that maximises, whose objective has a constant."""
    (tmp_path / "lp").write_text("Maximize\n obj: 5 x + 4 y + 3 z + 100\nSubject To\n a: 2 x + 3 y + z <= 5\n b: 4 x + y + 2 z <= 11\n c: 3 x + 4 y + 2 z <= 8\n"
                                 "Bounds\n x <= 4\n y <= 4\n z <= 4\nGenerals\n x y z\nEnd\n")
    problem = explain.Problem.read(tmp_path / "lp", None)
    best = problem.solve()
    root, parts = explain.gap_parts(problem, best)
    assert root is None and not parts or root - best.value == sum(part.size for part in parts) >= 0


def test_refused(tmp_path):
    (tmp_path / "lp").write_text(CLASH)
    out, err, status = told("lp", "--row", "none", cwd=tmp_path)
    assert (out, err, status) == ("", "bprice-explain: the model has no row 'none'\n", 2)
    assert told("none", cwd=tmp_path)[2] == 11 and told(".", cwd=tmp_path)[2] == 7
    pathlib.Path(tmp_path / "bad").write_text("Minimize\n x\nEnd\n")
    assert told("bad", cwd=tmp_path) == ("", "bprice-explain: lp 3 syntax\n", 3)
    (tmp_path / "dec").write_text("NBLOCKS two\n")
    assert told("lp", "--dec", "dec", cwd=tmp_path) == ("", "bprice-explain: refused dec 1 syntax\n", 3)
