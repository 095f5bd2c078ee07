"""bprice-run --plans: the best plans in order, each with a text and a certificate of its own, and where the search for them ends."""
import itertools
import random
import re
import signal
import subprocess
import sys

import pytest

from conftest import TOP, load_tool, run

TOOL = TOP / "tools" / "bprice-run"
sys.path.insert(0, str(TOP / "integrations" / "python"))
import bprice  # noqa: E402

plans_module = load_tool(TOP / "tools" / "bprice_plans.py")
HEAD = re.compile(r"plan (\d+) of (\S+), certificate (\S+)\noptimal (-?\d+)\n((?:(?!plan \d|no further)\S+ -?\d+\n)*)")


def told(*words, **options):
    ran = subprocess.run([sys.executable, TOOL, *map(str, words)], capture_output=True, text=True, check=False, timeout=60, **options)
    return ran.stdout, ran.stderr, ran.returncode


def plans_of(out):
    """The value, the point, the text and the certificate of each plan of a report."""
    return [(int(value), {name: int(number) for name, number in (line.split(" ") for line in lines.splitlines())}, lp, cert)
            for _, lp, cert, value, lines in HEAD.findall(out)]


def test_binaries_and_integers(tmp_path):
    """All plans of random models come in order, each once."""
    draw = random.Random(2)
    for number in range(5):
        model = bprice.Model(draw.choice(["min", "max"]))
        for name in ("x", "y", "z"):
            model.add_variable(name, draw.randint(-2, 0), draw.randint(0, 2))
        model.set_objective({name: draw.randint(-3, 3) for name in model.spans})
        model.add_row("room", {"x": 1, "y": 2, "z": draw.choice([1, -1])}, draw.choice([None, -1]), 2)
        every = [dict(zip(model.spans, point)) for point in itertools.product(*(range(low, high + 1) for low, high in model.spans.values()))]
        every = [point for point in every if model.admits(point)]
        values = sorted((int(model.value(point)) for point in every), reverse=model.sense == "max")
        model.write(tmp_path / "lp")
        out, _, status = told("lp", "--cert", f"cert{number}", "--plans", 4, cwd=tmp_path)
        found = plans_of(out)
        assert status == 0 and [value for value, *_ in found] == values[:4]
        assert all(model.admits(point) and model.value(point) == value for value, point, *_ in found)
        assert len({tuple(point.items()) for _, point, *_ in found}) == len(found)
        assert ("no further plan: infeasible" in out) == (len(values) < 4)
        for value, _, lp, cert in found:
            assert run("check", lp, cert, cwd=tmp_path) == (f"accepted optimal {value}\n", 0)


def test_until_none_is_left(tmp_path):
    (tmp_path / "lp").write_text("Maximize\n obj: 2 a + b\nSubject To\n c1: a + b <= 1\nBinaries\n a b\nEnd\n")
    out, _, status = told("lp", "--cert", "cert", "--plans", 9, cwd=tmp_path)
    assert (out, status) == ("plan 1 of lp, certificate cert\noptimal 2\na 1\nb 0\nplan 2 of cert.2.lp, certificate cert.2\noptimal 1\na 0\nb 1\n"
                             "plan 3 of cert.3.lp, certificate cert.3\noptimal 0\na 0\nb 0\n"
                             "no further plan: infeasible, certificate cert.4 of cert.4.lp\n", 0)
    assert run("check", "cert.4.lp", "cert.4", cwd=tmp_path) == ("accepted infeasible\n", 0)
    assert (tmp_path / "cert.2.lp").read_text() == "Maximize\n obj: 2 a + b\nSubject To\n c1: a + b <= 1\n plan1: - a + b >= 0\nBinaries\n a b\nEnd\n"


def test_within(tmp_path):
    (tmp_path / "lp").write_text("Maximize\n obj: 50 a + 48 b + 20 c\nSubject To\n one: a + b + c = 1\nBinaries\n a b c\nEnd\n")
    out, _, status = told("lp", "--cert", "cert", "--plans", 9, "--within", "5%", cwd=tmp_path)
    assert status == 0 and [value for value, *_ in plans_of(out)] == [50, 48]
    assert out.endswith("\nno further plan within 5%: optimal 20, certificate cert.3 of cert.3.lp\n")
    assert [value for value, *_ in plans_of(told("lp", "--cert", "cert", "--plans", 9, "--within", 0.6, cwd=tmp_path)[0])] == [50, 48, 20]


@pytest.mark.parametrize("dec", ["model.dec", "auto"])
def test_decompositions(tmp_path, dec):
    folder = TOP / "examples" / "routing"
    dec = dec if dec == "auto" else folder / dec
    out, _, status = told(folder / "model.lp", "--cert", tmp_path / "cert", "--dec", dec, "--plans", 3)
    found = plans_of(out)
    assert status == 0 and [value for value, *_ in found] == [37, 37, 44]
    for value, _, lp, cert in found[1:]:
        assert run("check", lp, cert, "--dec", f"{cert}.dec") == (f"accepted optimal {value}\n", 0)


def test_texts():
    """The rows stand behind the model's own, whatever its sections are, and new names are not those that are there."""
    text = "Min\n obj: plan1_above1 + 3 x\nst\n plan1: plan1_above1 - x <= 7\n plan1_above2: x >= -9\n Bounds\n plan1_above1 <= 4 -2 <= x <= 5\nGeneral x plan1_above1\nend of it"
    model = plans_module.texts.parse(text)
    exclusion = plans_module.Exclusion(model, {"plan1_above1": 4, "x": 3}, 1)
    told_text = plans_module.with_exclusions(text, model, [exclusion])
    new = bprice.Model.parse(told_text)
    assert list(new.rows) == ["plan1", "plan1_above2", "plan1__above2", "plan1__below2", "plan1_"] and exclusion.row_names == list(new.rows)[2:]
    assert new.spans["plan1__above2"] == (0, 1) and told_text.endswith("\nBinaries plan1__above2 plan1__below2\nend of it")
    points = itertools.product(range(5), range(-2, 6), (0, 1), (0, 1))
    left = {point[:2] for point in points if new.admits(dict(zip(new.spans, point)))}
    old = bprice.Model.parse(text)
    assert left == {point for point in itertools.product(range(5), range(-2, 6)) if old.admits(dict(zip(old.spans, point)))} - {(4, 3)}


def test_no_choice(tmp_path):
    """Models with one point, and without variables."""
    (tmp_path / "lp").write_text("Minimize\n obj: x\nSubject To\nBounds\n x = 3\nEnd\n")
    out, _, status = told("lp", "--cert", "cert", "--plans", 3, cwd=tmp_path)
    assert status == 0 and out.endswith("optimal 3\nx 3\nno further plan: infeasible, certificate cert.2 of cert.2.lp\n")
    (tmp_path / "lp").write_text("Minimize\n obj: 4\nSubject To\nEnd\n")
    assert told("lp", "--cert", "none", "--plans", 3, cwd=tmp_path)[0].endswith("optimal 4\nno further plan: the model has no variables\n")


def test_ends_without_plans(tmp_path):
    (tmp_path / "lp").write_text("Minimize\n x\nSubject To\n 2 x = 5\nBounds\n x <= 9\nGenerals\n x\nEnd\n")
    assert told("lp", "--cert", "cert", "--plans", 2, cwd=tmp_path)[::2] == ("infeasible\n", 4)
    run("gen", 5, 300, "lp", "dec", cwd=tmp_path)
    out, _, status = told("lp", "--cert", "other", "--plans", 2, "--steps", 1, cwd=tmp_path)
    assert status == 5 and out.startswith("budget 1\n")
    (tmp_path / "lp").write_text("Minimize\nEnd\n")
    assert told("lp", "--cert", "cert", "--plans", 2, cwd=tmp_path)[::2] == ("refused lp 2 syntax\n", 3)


def test_a_certificate_of_another_text(tmp_path):
    """Certificates of plans of an earlier model are in nobody's way; those of the same texts are gone on from."""
    (tmp_path / "lp").write_text("Maximize\n obj: 2 a + b\nSubject To\n c1: a + b <= 1\nBinaries\n a b\nEnd\n")
    (tmp_path / "cert.2").write_text("no certificate\n")
    first = told("lp", "--cert", "cert", "--plans", 2, cwd=tmp_path)
    assert first[2] == 0 and told("lp", "--cert", "cert", "--plans", 2, cwd=tmp_path)[::2] == first[::2]


def test_signal(tmp_path):
    """SIGTERM reaches the search that is under way, which leaves its certificate and its report."""
    run("gen", 5, 300, "lp", "dec", cwd=tmp_path)
    with subprocess.Popen([sys.executable, TOOL, "lp", "--cert", "cert", "--plans", "2"], cwd=tmp_path, stdout=subprocess.PIPE, stderr=subprocess.PIPE,
                          text=True) as ran:
        assert ran.stderr.readline().startswith("steps ")
        ran.send_signal(signal.SIGTERM)
        out, _ = ran.communicate(timeout=30)
    assert ran.returncode == 5 and out.startswith("budget ")
    assert run("check", "lp", "cert", cwd=tmp_path)[0].startswith("accepted bound ")


@pytest.mark.parametrize("words, tells", [(("--plans", "0"), "a number from 1"), (("--plans", "two"), "another value than two"),
                                          (("--within", "5%"), "goes with --plans"), (("--plans", "2", "--gap", "1%"), "certified optima")])
def test_words(tmp_path, words, tells):
    out, err, status = told("lp", "--cert", "cert", *words, cwd=tmp_path)
    assert (out, status) == ("", 2) and tells in err
