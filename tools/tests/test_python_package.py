"""The Python package: solving, models as LP texts, what is refused, where the program is found, and the wheel that pip installs."""
import fractions
import itertools
import os
import pathlib
import random
import subprocess
import sys
import zipfile

import pytest

from conftest import PROGRAM, TOP, load_tool, run

PACKAGE = TOP / "integrations" / "python"
VERSION = (TOP / "release" / "VERSION").read_text().strip()
sys.path.insert(0, str(PACKAGE))
import bprice  # noqa: E402

FIRST = TOP / "examples" / "first.lp"
CUTTING = TOP / "examples" / "cutting-stock"
EXAMPLES = sorted(path for path in (TOP / "examples").rglob("*.lp") if "real" not in path.parts)


def test_optimal(tmp_path):
    answer = bprice.solve(FIRST)
    assert (answer.status, answer.value, answer.bound, answer.point) == ("optimal", 8, 8, {"x": 2, "y": 1})
    assert answer.check() == "accepted optimal 8" and answer.report == "optimal 8\nx 2\ny 1\n"
    kept = bprice.solve(str(FIRST), cert=tmp_path / "cert")
    assert kept.certificate == str(tmp_path / "cert") and run("check", FIRST, tmp_path / "cert")[0] == "accepted optimal 8\n"
    room = pathlib.Path(answer.certificate).parent
    assert room.exists()
    del answer
    assert not room.exists()


def test_infeasible_and_budget():
    model = bprice.Model("min")
    model.add_variable("x", 0, 9)
    model.add_row("odd", {"x": 2}, 5, 5)
    answer = model.solve()
    assert (answer.status, answer.value, answer.bound, answer.point) == ("infeasible", None, None, None)
    assert answer.check() == "accepted infeasible"
    stopped = bprice.solve(CUTTING / "model.lp", steps=0)
    assert (stopped.status, stopped.value, stopped.point) == ("budget", None, None) and stopped.bound <= 2


def test_time_and_decomposition(tmp_path):
    answer = bprice.solve(CUTTING / "model.lp", dec="auto", time=5, cert=tmp_path / "cert")
    assert (answer.status, answer.value, answer.dec) == ("optimal", 2, str(tmp_path / "cert.dec"))
    assert answer.check() == "accepted optimal 2"
    answer = bprice.solve(CUTTING / "model.lp", dec=CUTTING / "model.dec", gap=0.5, cuts=2)
    assert answer.value in (2, 3) and answer.check().startswith("accepted ")


def test_start():
    model = bprice.Model.read(FIRST)
    begun = model.solve(start={"x": 2, "y": 1}, steps=0)
    assert begun.value == 8 and begun.check().startswith("accepted ")
    with pytest.raises(bprice.Refused, match="no point of the model"):
        model.solve(start={"x": 3, "y": 3})
    again = bprice.solve(begun.lp, start=begun.certificate)
    assert again.value == 8


def test_fractions():
    """Numbers are exact, and the answer is in the model's own."""
    model = bprice.Model("max")
    model.add_variable("x", 0.5, fractions.Fraction(19, 2))
    model.add_variable("y[1]", 0, 3)
    model.set_objective({"x": 0.1, "y[1]": 0.25}, constant=0.5)
    model.add_row("room", {"x": 0.1, "y[1]": 0.1}, high=0.6)
    answer = model.solve()
    assert answer.value == fractions.Fraction(31, 20) == answer.bound and answer.point == {"x": 3, "y[1]": 3}
    assert model.spans["x"] == (1, 9) and model.scale == 20 and model.value(answer.point) == answer.value
    assert "v1" in model.text() and "+ 1 x + 1 v1 <= 6" in model.text()


def test_refused():
    model = bprice.Model()
    model.add_variable("x")
    for call, words in [(lambda: model.add_variable("x", 0, 1), "two variables"), (lambda: model.add_row("r", {"y": 1}, 1), "'y'"),
                        (lambda: model.add_row("r", {"x": 1}), "neither"), (lambda: model.set_objective({"x": float("nan")}), "no number"),
                        (model.text, "'x' has no upper bound"), (lambda: bprice.Model("best"), "'best'"),
                        (lambda: model.set_objective({"z": 1}), "'z'"), (lambda: bprice.solve(FIRST, dec={"c1": 1}), "go with a bprice.Model"),
                        (lambda: bprice.solve(FIRST, start={"x": 1}), "goes with a bprice.Model"),
                        (lambda: bprice.solve(FIRST, program="/none/bprice"), "cannot execute"),
                        (lambda: bprice.solve("none.lp"), "status 11"), (lambda: bprice.check(FIRST, FIRST), "refused cert")]:
        with pytest.raises(bprice.Refused, match=words):
            call()
    model.add_row("cap", {"x": 2}, high=9)
    model.add_row("twin", {"x": 1}, high=9)
    with pytest.raises(bprice.Refused, match="two rows"):
        model.add_row("cap", {"x": 2}, high=9)
    with pytest.raises(bprice.Refused, match="'none'"):
        model.solve(dec={"none": 1})
    assert model.solve(dec={"cap": 1}).value == 0 and model.spans["x"] == (0, 4)


def test_crossed_bounds():
    model = bprice.Model()
    model.add_variable("x", 0.2, 0.8)
    with pytest.raises(bprice.Refused, match="no whole number"):
        model.solve()


def test_sizes_past_the_limits():
    model = bprice.Model()
    model.add_variable("x", 0, 1)
    model.add_row("huge", {"x": 2**62}, high=1)
    with pytest.raises(bprice.Refused, match="fewer digits") as refused:
        model.solve()
    assert refused.value.status == 3


def program_says(text, path):
    path.write_bytes(text)
    report, status = run("show", path)
    return report.strip() if status else None


def parse_says(text):
    try:
        bprice.Model.parse(text)
    except bprice.Refused as refused:
        return f"refused {refused}"
    return None


def test_reads_what_the_program_reads(tmp_path):
    """Examples, and changed ones, are read or refused as by the program, with the same line and kind."""
    draw, seen = random.Random(1), set()
    texts = [path.read_bytes() for path in EXAMPLES if path.stat().st_size < 3_000]
    pieces = [b" ", b"\n", b"x", b"y", b":", b"<=", b"3", b"-", b"inf", b"free", b"1.5", b"end", b"Bounds\n", b"st\n", b"2e1", b"\xff", b"[", b"=",
              b"Generals\n", b"Binaries\n", b">= 2", b"5 <= ", b"99999999999999999999", b"\\", b"semi\n"]
    for text in texts:
        assert parse_says(text) == program_says(text, tmp_path / "lp")
    for _ in range(250):
        text = draw.choice(texts)
        for _ in range(draw.randint(1, 2)):
            at = draw.randrange(len(text))
            text = text[:at] + draw.choice(pieces) + text[at + draw.choice((0, 0, 1, 4)):]
        says = program_says(text, tmp_path / "lp")
        if says is None or says.split()[-1] not in ("activity", "limit"):
            assert parse_says(text) == says, text
        seen.add((says or "read").split()[-1])
    assert {"read", "syntax", "bad-byte", "not-whole", "feature", "no-end"} <= seen


@pytest.mark.parametrize("path", [path for path in EXAMPLES if path.stat().st_size < 3_000], ids=lambda path: path.name)
def test_written_texts_mean_the_same(path, tmp_path):
    """A model that is written and read again is the same, and so is its value."""
    try:
        model = bprice.Model.read(path)
    except bprice.Refused:
        pytest.skip("refused, as by the program")
    model.write(tmp_path / "again.lp")
    again = bprice.Model.read(tmp_path / "again.lp")
    assert (again.costs, again.constant, again.sense) == (model.costs, model.constant, model.sense)
    assert again.spans == model.spans and [vars(row) for row in again.rows.values()] == [vars(row) for row in model.rows.values()]
    one, other = bprice.solve(path, steps=3_000), bprice.solve(tmp_path / "again.lp", steps=3_000)
    assert (one.status, one.value) == (other.status, other.value)


def test_names_that_begin_sections():
    text = "Max\n obj: 3 end + 2 st\nSubject To\n c1: end + st <= 4\n bounds: st <= 2\nBounds\n 0 <= end <= 3\n 0 <= st <= 3\nGenerals end st\nEnd\n"
    model = bprice.Model.parse(text)
    assert list(model.spans) == ["end", "st"] and list(model.rows) == ["c1", "bounds"]
    assert model.solve().point == {"end": 3, "st": 1}


def brute(model):
    """The best value by trying all points, None where there is none."""
    points = (dict(zip(model.spans, point)) for point in itertools.product(*(range(low, high + 1) for low, high in model.spans.values())))
    values = [model.value(point) for point in points if model.admits(point)]
    return (max if model.sense == "max" else min)(values) if values else None


def test_agrees_with_enumeration():
    draw, ends = random.Random(7), set()
    for _ in range(25):
        model = bprice.Model(draw.choice(["min", "max"]))
        names = [f"x{j}" for j in range(draw.randint(1, 3))]
        for name in names:
            model.add_variable(name, draw.randint(-2, 0), draw.randint(0, 3))
        model.set_objective({name: draw.choice([1, -2, 0.5, 1.2, "-0.35"]) for name in names}, draw.choice([0, 0.25]))
        for row in range(2):
            low = draw.choice([None, -1, 0, 0.5])
            high = draw.choice([None, 2, 2.5]) if low is not None else draw.choice([1, 2.5])
            model.add_row(f"r{row}", {name: draw.choice([1, 2, -1, 0.5, 0.3]) for name in names}, low, high)
        wanted, answer = brute(model), model.solve()
        assert answer.value == wanted and (wanted is None) == (answer.status == "infeasible")
        ends.add(answer.status)
    assert ends == {"optimal", "infeasible"}


def test_where_the_program_is(tmp_path, monkeypatch):
    assert bprice.find_program() == PROGRAM
    monkeypatch.delenv("BPRICE")
    assert bprice.find_program() == str(TOP / "bprice")
    monkeypatch.setattr(bprice.program, "HERE", tmp_path / "a" / "b" / "c")
    monkeypatch.setenv("PATH", str(tmp_path))
    with pytest.raises(bprice.Refused, match="cannot execute"):
        bprice.find_program()
    with pytest.raises(bprice.Refused, match="bprice-run"):
        bprice.solve(FIRST, time=1, program=PROGRAM)
    (tmp_path / "bprice").symlink_to(PROGRAM)
    assert bprice.find_program() == str(tmp_path / "bprice")


def test_one_version():
    """The package has the version of the release, and so have the documents."""
    assert f'version = "{VERSION}"' in (PACKAGE / "pyproject.toml").read_text().splitlines()
    assert f"version {VERSION} (`CHANGELOG.md`)" in (TOP / "README.md").read_text()
    assert f"\n## {VERSION}\n" in (TOP / "CHANGELOG.md").read_text()


def test_wheel(tmp_path):
    """The wheel that pip installs has the modules and finds the repository."""
    backend = load_tool(PACKAGE / "backend.py")
    name = backend.build_wheel(tmp_path)
    with zipfile.ZipFile(tmp_path / name) as wheel:
        wheel.extractall(tmp_path / "site")
        assert "bprice-mps = bprice.mps:main" in wheel.read(f"bprice-{VERSION}.dist-info/entry_points.txt").decode()
    code = f"import bprice; print(bprice.__file__, bprice.find_program()); print(bprice.solve({str(FIRST)!r}, time=5, program={PROGRAM!r}).value)"
    environment = {**os.environ, "PYTHONPATH": str(tmp_path / "site")}
    del environment["BPRICE"]
    ran = subprocess.run([sys.executable, "-c", code], capture_output=True, text=True, env=environment, cwd=tmp_path, check=True)
    assert ran.stdout.split() == [str(tmp_path / "site" / "bprice" / "__init__.py"), str(TOP / "bprice"), "8"]
    editable = backend.build_editable(tmp_path)
    with zipfile.ZipFile(tmp_path / editable) as wheel:
        assert wheel.read("bprice.pth").decode() == f"{PACKAGE}\n"


def test_pip(tmp_path):
    """`pip install` of the folder, in an environment of its own and without a network. It is the pip that Python brings along."""
    ensurepip = pytest.importorskip("ensurepip")
    wheels = [*pathlib.Path(ensurepip.__file__).parent.glob("_bundled/pip-*.whl"), *pathlib.Path("/usr/share/python-wheels").glob("pip-*.whl")]
    if not wheels:
        pytest.skip("this Python brings no pip along (Debian: python3-venv)")
    subprocess.run([sys.executable, "-m", "venv", "--without-pip", tmp_path / "env"], check=True)
    python = tmp_path / "env" / "bin" / "python"
    subprocess.run([python, wheels[0] / "pip", "install", "--quiet", "--no-index", "--disable-pip-version-check", PACKAGE], check=True)
    told = subprocess.run([python, "-c", f"import bprice; print(bprice.solve({str(FIRST)!r}).value)"], capture_output=True, text=True, check=True)
    assert told.stdout == "8\n"
    subprocess.run([tmp_path / "env" / "bin" / "bprice-mps", "--help"], capture_output=True, check=True)
