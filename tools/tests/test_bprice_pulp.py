"""bprice as a solver of PuLP: models written exactly, names and bounds, statuses, and errors that name what is at fault."""
import os
import random
import sys

import pytest

from conftest import PROGRAM, TOP, knows, load_tool

pulp = pytest.importorskip("pulp")
bprice_pulp = load_tool(TOP / "integrations" / "pulp" / "bprice_pulp.py")
checker = load_tool(TOP / "tools" / "check_certificate.py")
FROM = knows("solve", "none.lp", "--from", "none.cert")


@pytest.fixture(autouse=True)
def room_fixture(tmp_path, monkeypatch):
    monkeypatch.chdir(tmp_path)
    monkeypatch.setenv("BPRICE", PROGRAM)


def solver(**options):
    return bprice_pulp.BPRICE_CMD(msg=False, **options)


def knapsack(sense=pulp.LpMaximize):
    model = pulp.LpProblem("bag", sense)
    x = [pulp.LpVariable(f"x{j}", 0, 3, "Integer") for j in range(4)]
    model += 2.5 * x[0] + 3 * x[1] + 0.75 * x[2] + 4 * x[3] + 10
    model += 2 * x[0] + 2.25 * x[1] + x[2] + 3 * x[3] <= 11.5, "room"
    return model, x


def test_optimal():
    model, x = knapsack()
    assert model.solve(solver()) == pulp.LpStatusOptimal == model.status
    assert model.sol_status == pulp.LpSolutionOptimal
    assert pulp.value(model.objective) == 25 and all(value == int(value) for value in (v.varValue for v in x))
    assert sum(a * v.varValue for a, v in zip((2, 2.25, 1, 3), x)) <= 11.5


def test_agrees_with_enumeration():
    draw = random.Random(5)
    for _ in range(15):
        many = draw.randint(1, 3)
        model = pulp.LpProblem("random", draw.choice([pulp.LpMaximize, pulp.LpMinimize]))
        x = [pulp.LpVariable(f"x {j}", draw.randint(-2, 0), draw.randint(1, 3), "Integer") for j in range(many)]
        model += pulp.lpSum(draw.choice([1, -2, 0.5, 1.2, -0.35]) * v for v in x) + 0.25
        for _ in range(2):
            left, side = pulp.lpSum(draw.choice([1, 2, -1, 0.5, 0.3]) * v for v in x), draw.choice([1, 2.5, 0, -1])
            model += draw.choice([left <= side, left >= side - 2, left == side])
        best = None
        points = [[]]
        for v in x:
            points = [point + [value] for point in points for value in range(v.lowBound, v.upBound + 1)]
        for point in points:
            for v, value in zip(x, point):
                v.varValue = value
            if all(row.valid(1e-9) for row in model.constraints.values()):
                value = pulp.value(model.objective)
                best = value if best is None else (max if model.sense == pulp.LpMaximize else min)(best, value)
        status = model.solve(solver())
        assert status == (pulp.LpStatusInfeasible if best is None else pulp.LpStatusOptimal)
        assert best is None or abs(pulp.value(model.objective) - best) < 1e-9


def test_exact():
    """A difference that no floating point sees; and one tenth that is one tenth."""
    model = pulp.LpProblem("exact", pulp.LpMaximize)
    x = pulp.LpVariable("x", cat="Binary")
    model += x
    model += 2305843009213693951 * x <= 2305843009213693950
    model.solve(solver())
    assert x.varValue == 0
    tenths = pulp.LpProblem("tenths", pulp.LpMaximize)
    y = pulp.LpVariable("y", 0, 9, "Integer")
    tenths += y
    tenths += 0.1 * y <= 0.3
    tenths.solve(solver())
    assert y.varValue == 3


def test_infeasible():
    model, x = knapsack()
    model += 2 * x[0] + 2 * x[1] == 5
    assert model.solve(solver()) == pulp.LpStatusInfeasible and model.sol_status == pulp.LpSolutionInfeasible
    crossed = pulp.LpProblem("crossed", pulp.LpMinimize)
    crossed += pulp.LpVariable("x", 0.2, 0.8, "Integer")
    assert crossed.solve(solver()) == pulp.LpStatusInfeasible


def test_bounds_from_rows(capsys):
    model = pulp.LpProblem("bounds", pulp.LpMaximize)
    x, y = pulp.LpVariable("x", 0, None, "Integer"), pulp.LpVariable("y", None, 4, "Integer")
    model += x - y
    model += 2 * x + y <= 7.5, "cap"
    model += y >= -3, "floor"
    assert model.solve(bprice_pulp.BPRICE_CMD(msg=True)) == pulp.LpStatusOptimal
    assert (x.varValue, y.varValue) == (5, -3)
    told = capsys.readouterr().out
    assert "y has no lower bound; row floor gives -3" in told and "x has no upper bound; row cap gives 5" in told


@pytest.mark.parametrize("name", ["value", "bound", "optimal", "end", "st", "a b", "3x", "free", "inf", "café", "x" * 300, "x[1]", "a^2", "e2", "v1", "subject", "\\x", "a:b"])
def test_names(name):
    model = pulp.LpProblem("names", pulp.LpMaximize)
    x, other = pulp.LpVariable("plain", 0, 5, "Integer"), pulp.LpVariable("v1", 0, 1, "Integer")
    x.name = name
    model += 3 * x + (2 * other if name != "v1" else 0)
    model.addConstraint(pulp.LpConstraint({x: 2}, pulp.LpConstraintLE, rhs=7), name)
    assert model.solve(solver(blocks={name: "all"})) == pulp.LpStatusOptimal
    assert x.varValue == 3 and (name == "v1" or other.varValue == 1)


def test_empty_rows_and_objectives():
    model = pulp.LpProblem("empty", pulp.LpMinimize)
    x = pulp.LpVariable("x", 1, 3, "Integer")
    model += x >= 2
    model.addConstraint(pulp.LpConstraint(pulp.LpAffineExpression(), pulp.LpConstraintLE, rhs=4), "true")
    assert model.solve(solver()) == pulp.LpStatusOptimal and x.varValue >= 2
    model.addConstraint(pulp.LpConstraint(pulp.LpAffineExpression(), pulp.LpConstraintGE, rhs=4), "false")
    assert model.solve(solver()) == pulp.LpStatusInfeasible


def refused(model, **options):
    with pytest.raises(pulp.PulpSolverError) as told:
        model.solve(solver(**options))
    return str(told.value)


def test_errors():
    model, x = knapsack()
    x[2].cat = "Continuous"
    assert "'x2' is continuous" in refused(model)
    model, x = knapsack()
    x[1].upBound = None
    model.constraints.clear()
    assert "'x1' has no upper bound" in refused(model)
    model, x = knapsack()
    model += x[0] * (1 / 3) + x[1] * 1e-14 <= 1000, "thirds"
    assert "refused lp" in refused(model) and "fewer digits" in refused(model)
    model, x = knapsack()
    assert "'none'" in refused(model, blocks={"none": 1})
    assert "mip=False" in refused(model, mip=False)
    assert "SOS" in refused(with_sos(model, x))
    with pytest.raises(pulp.PulpSolverError):
        solver(blocks={}, dec="auto")
    assert "cannot execute" in refused(model, path="/none/bprice")
    assert not solver(path="/none/bprice").available() and solver().available()


def with_sos(model, x):
    model.sos1["s"] = {x[0]: 1, x[1]: 2}
    return model


def test_kept_files():
    model, _ = knapsack()
    model.solve(solver(keepFiles=True, blocks={"room": 1}))
    texts = {name: open(f"bag-pulp.{name}", "rb").read() for name in ("lp", "dec", "cert")}
    assert checker.check(texts["lp"], texts["cert"], texts["dec"]).startswith("accepted optimal ")
    assert texts["dec"] == b"NBLOCKS 1\nBLOCK 1 room\n"
    model.solve(solver())
    assert sorted(os.listdir(".")) == [f"bag-pulp.{name}" for name in ("cert", "dec", "lp", "txt")]


def test_steps():
    """Stopped without a point, and with one."""
    model, _ = knapsack()
    assert model.solve(solver(options=["--steps", "0"])) == pulp.LpStatusNotSolved
    assert model.sol_status == pulp.LpSolutionNoSolutionFound


def assignment(jobs):
    draw, model = random.Random(3), pulp.LpProblem("jobs", pulp.LpMinimize)
    x = {(i, j): pulp.LpVariable(f"x_{i}_{j}", cat="Binary") for i in range(3) for j in range(jobs)}
    model += pulp.lpSum(draw.randint(1, 30) * v for v in x.values())
    for j in range(jobs):
        model += pulp.lpSum(x[i, j] for i in range(3)) == 1, f"job_{j}"
    for i in range(3):
        model += pulp.lpSum(draw.randint(3, 20) * x[i, j] for j in range(jobs)) <= 4 * jobs, f"cap_{i}"
    return model, x


def test_blocks():
    model, _ = assignment(12)
    plain = bprice_pulp.BPRICE_CMD(msg=False, blocks={f"cap_{i}": i for i in range(3)})
    assert model.solve(plain) == pulp.LpStatusOptimal
    assert plain.bound == pulp.value(model.objective)
    told = "dec='auto' needs the command `propose`"
    if knows("propose", "none.lp", "none.dec"):
        best = pulp.value(model.objective)
        assert model.solve(solver(dec="auto")) == pulp.LpStatusOptimal and pulp.value(model.objective) == best
    else:
        assert told in refused(model, dec="auto")


def test_time_and_warm_start(capsys):
    """A start from the variables' values; the time's end gives the best point so far, or none."""
    model, x = assignment(30)
    for (i, j), v in x.items():
        v.setInitialValue(int(i == j % 3))
    started = bprice_pulp.Model(model, print).start_by_values()
    assert started is None or started.startswith("bpcert 1\nclaim bound ")
    status = model.solve(bprice_pulp.BPRICE_CMD(msg=False, timeLimit=2, gapRel=0.0, warmStart=True))
    assert status in (pulp.LpStatusOptimal, pulp.LpStatusNotSolved)
    if status == pulp.LpStatusOptimal:
        assert all(row.valid() for row in model.constraints.values())


def test_start_is_a_certificate():
    """What a warm start hands over is accepted by the checker for the text that is solved."""
    for sense in (pulp.LpMaximize, pulp.LpMinimize):
        model, x = knapsack(sense)
        for v in x:
            v.setInitialValue(1)
        own = bprice_pulp.Model(model, print)
        assert checker.check(own.text().encode(), own.start_by_values().encode()).startswith("accepted bound ")
        x[3].setInitialValue(3)
        x[0].setInitialValue(3)
        assert bprice_pulp.Model(model, print).start_by_values() is None


def test_time_without_going_on():
    """Where the program can't go on from a certificate the time's end leaves nothing, and it is told."""
    slow = os.path.abspath("slow")
    with open(slow, "w", encoding="ascii") as file:
        file.write('#!/bin/sh\nfor word; do [ "$word" = --from ] && exit 2; done\nexec sleep 5\n')
    os.chmod(slow, 0o755)
    model, _ = knapsack()
    assert model.solve(solver(path=slow, timeLimit=0.2)) == pulp.LpStatusNotSolved


def test_register():
    assert "BPRICE_CMD" in pulp.listSolvers() and pulp.getSolver("BPRICE_CMD", timeLimit=3).timeLimit == 3
    assert sys.modules["pulp"].apis._all_solvers.count(bprice_pulp.BPRICE_CMD) == 1
