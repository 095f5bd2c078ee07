"""bprice-run without --cert: the race of the ways. Scripts stand for programs that are slow on some of them."""
import json
import os
import re
import signal
import sys
import time

import pytest

from conftest import PROGRAM, TOP, knows, run
from test_bprice_run import start, told

sys.path.insert(0, str(TOP / "tools"))

pytestmark = pytest.mark.skipif(not knows("propose", "none.lp", "none.dec"), reason="this bprice has no command `propose`")
LONG = "os.execvp('sleep', ['sleep', '50'])"
# A way of the race is known by the name of its certificate.
SCRIPT = """#!/usr/bin/env -S python3 -S -E
import os, sys
words = sys.argv[1:]
cert = words[words.index("--cert") + 1] if "--cert" in words else ""
steps = int(words[words.index("--steps") + 1]) if "--steps" in words else 1 if "solve" in words else 0
{}
os.execv({!r}, [{!r}, *words])
"""


@pytest.fixture(name="model")
def model_fixture(tmp_path):
    """A model of some steps, whose decomposition `propose` finds."""
    run("gen", 5, 24, "plan.lp", "own.dec", cwd=tmp_path)
    return tmp_path


def program(room, monkeypatch, *lines):
    """A script that stands for the program, and does these lines before it."""
    script = room / "program"
    script.write_text(SCRIPT.format("\n".join(lines), PROGRAM, PROGRAM))
    script.chmod(0o755)
    monkeypatch.setenv("BPRICE", str(script))


def judged(room, err):
    """What the `check` command says that the run named last."""
    words = re.findall(r"^bprice-run: judge it by: (.*)$", err, re.MULTILINE)[-1].split(" ")
    report, status = run(*words[1:], cwd=room)
    assert status == 0 and not list(room.rglob("*.part"))
    return report.removeprefix("accepted ").rstrip("\n")


def way_of(err):
    return re.search(r"^bprice-run: proved by the way (\S+)$", err, re.MULTILINE)[1]


@pytest.mark.parametrize("processors", [1, 4])
def test_first_proof(model, processors):
    """The answer is that of `solve`; a second run finds the proof there."""
    for _ in range(2):
        out, err, status = told("plan.lp", "--processors", processors, cwd=model)
        assert (out.split("\n")[0], status) == ("optimal 454", 0)
        assert judged(model, err) == "optimal 454"
    assert "proposed blocks" not in err and re.search(r"^steps \d+  bound 454  value 454  gap 0.00%  open 0", err, re.MULTILINE)


@pytest.mark.parametrize("processors", [1, 2, 4])
def test_decomposition_wins(model, monkeypatch, processors):
    """The ways without it take long: on few processors their calls wait."""
    program(model, monkeypatch, f"if '--dec' not in words and steps > 0: {LONG}")
    out, err, status = told("plan.lp", "--processors", processors, cwd=model)
    assert out.startswith("optimal 454\n") and status == 0
    assert way_of(err).startswith("dec") and "--dec plan.ways/proposed.dec" in err and judged(model, err) == "optimal 454"


@pytest.mark.parametrize("processors", [1, 4])
def test_decomposition_loses(model, monkeypatch, processors):
    program(model, monkeypatch, f"if '--dec' in words: {LONG}")
    out, err, status = told("plan.lp", "--processors", processors, cwd=model)
    assert out.startswith("optimal 454\n") and status == 0
    assert way_of(err).startswith("plain") and "--dec" not in err and judged(model, err) == "optimal 454"


@pytest.mark.parametrize("words, way", [(("--no-dec", "--cuts", 0), "plain"), (("--no-dec", "--cuts", 9), "plain-cuts-9"), (("--dec", "auto", "--cuts", 0), "dec"),
                                        (("--dec", "own.dec", "--cuts", 0), r"dec-[0-9a-f]{8}")])
def test_ways_that_are_told(model, words, way):
    out, err, status = told("plan.lp", *words, cwd=model)
    assert out.startswith("optimal 454\n") and status == 0 and re.fullmatch(way, way_of(err))
    assert [name.stem for name in (model / "plan.ways").glob("*.cert")] == [way_of(err)]
    assert judged(model, err) == "optimal 454"


# One step of each way: with the decomposition bound 452 and value 456, with cuts bound 453 and value 461. Later calls take long.
ONE_STEP = ("if steps > 0 and ('--from' in words or '/plain.' in cert or 'dec-cuts' in cert): " + LONG, "if steps > 0: words += ['--steps', '1']")


@pytest.mark.parametrize("ending", ["signal", "gap"])
def test_best_bound_and_best_point(model, monkeypatch, ending):
    """What stops short has the bound of one way with the point of another, in one certificate; the same command goes on from it."""
    program(model, monkeypatch, *ONE_STEP)
    words = {"signal": (), "gap": ("--gap", "0.7%")}[ending]
    with start("plan.lp", "--processors", 4, *words, "-o", "a.json", "-o", "a.sol", cwd=model) as ran:
        if ending == "signal":
            lines = iter(ran.stderr.readline, "")
            assert any("bound 453  value 456" in line for line in lines)
            ran.send_signal(signal.SIGINT)
        out, err = ran.communicate(timeout=50)
    assert ran.returncode == 5 and re.match(r"budget \d+\nbound 453\nvalue 456\nx1_1 \d", out)
    assert "bound by the way plain-cuts-64, value by the way dec: both are true of the model" in err
    assert judged(model, err) == "bound 453 value 456"
    known = json.loads((model / "a.json").read_text())
    assert (known["status"], known["bound"], known["value"], known["bound_by"], known["value_by"]) == ("stopped", 453, 456, "plain-cuts-64", "dec")
    assert (model / "a.sol").read_text().startswith("# Status stopped\n# Bound = 453\n# Objective value = 456\nx1_1 ")
    monkeypatch.setenv("BPRICE", PROGRAM)
    assert told("plan.lp", cwd=model)[0].startswith("optimal 454\n")


def test_time(model, monkeypatch):
    """Its end breaks off the calls that run."""
    program(model, monkeypatch, f"if steps > 0: {LONG}")
    begin = time.monotonic()
    out, err, status = told("plan.lp", "--time", 6, "--processors", 2, cwd=model)
    assert status == 5 and 6.0 <= time.monotonic() - begin < 40.0
    if out:
        assert out == "budget 0\nbound 0\n" and "value by the way" not in err and judged(model, err) == "bound 0"
    else:  # on a machine that is busy the first call may take longer
        assert err == "bprice-run: stopped before the first report\n" and not (model / "plan.ways").exists()


def test_bound_meets_value(tmp_path, monkeypatch):
    """The bound of one way meets the value of another: the first closes its tree with this point."""
    run("gen", 3, 20, "plan.lp", "own.dec", cwd=tmp_path)
    program(tmp_path, monkeypatch, f"if steps > 0 and ('/plain.' in cert or 'dec-cuts' in cert or 'plain-cuts' in cert and '--from' in words): {LONG}",
            "if steps > 0 and 'plain-cuts' in cert: words += ['--steps', '1']")
    out, err, status = told("plan.lp", "--processors", 4, cwd=tmp_path)
    assert out.startswith("optimal 443\n") and status == 0 and judged(tmp_path, err) == "optimal 443"


def test_signal_in_the_first_call(model, monkeypatch):
    """The first call of no steps still has a moment to its report; where it takes longer, nothing is left."""
    for number, line in enumerate(("import time; time.sleep(0.5)", LONG)):
        program(model, monkeypatch, "open('begun', 'w').close()", line)
        begin = time.monotonic()
        with start("plan.lp", "--folder", str(number), cwd=model) as ran:
            while not (model / "begun").exists():
                time.sleep(0.01)
            ran.send_signal(signal.SIGINT)
            out, err = ran.communicate(timeout=20)
        (model / "begun").unlink()
        assert ran.returncode == 5 and "Traceback" not in err
        if number == 0:
            assert out == "budget 0\nbound 0\n" and judged(model, err) == "bound 0"
        else:
            assert out == "" and err == "bprice-run: stopped before the first report\n" and time.monotonic() - begin > 2.0
            assert not (model / "1").exists()


def test_nothing_runs_on(model, monkeypatch):
    """Calls that are suspended or run are ended with the race."""
    program(model, monkeypatch, f"if steps > 0: open('pid-' + str(os.getpid()), 'w').close(); {LONG}")
    with start("plan.lp", "--processors", 1, "--no-dec", cwd=model) as ran:
        while len(list(model.glob("pid-*"))) < 2:
            time.sleep(0.05)
        ran.send_signal(signal.SIGTERM)
        out, _ = ran.communicate(timeout=20)
    assert ran.returncode == 5 and out.startswith("budget 0\n")
    for name in model.glob("pid-*"):
        with pytest.raises(ProcessLookupError):
            os.kill(int(name.name.removeprefix("pid-")), 0)


@pytest.mark.parametrize("processors", [1, 2])
def test_nothing_is_lost(tmp_path, processors):
    """A signal has each way write its certificate, and leaves no other file."""
    run("gen", 5, 300, "plan.lp", "own.dec", cwd=tmp_path)
    with start("plan.lp", "--no-dec", "--processors", processors, cwd=tmp_path) as ran:
        told_last = [ran.stderr.readline() for _ in range(4)][-1]
        ran.send_signal(signal.SIGINT)
        out, err = ran.communicate(timeout=40)
    assert ran.returncode == 5 and out.startswith("budget ") and "Traceback" not in err
    bound, told_bound = int(re.search(r"^bound (-?\d+)$", out, re.MULTILINE)[1]), int(re.search(r"bound (-?\d+)", told_last)[1])
    assert bound <= told_bound if (tmp_path / "plan.lp").read_text().lower().startswith("max") else bound >= told_bound
    names = sorted(name.name for name in (tmp_path / "plan.ways").iterdir())
    assert names == ["plain-cuts-64.cert", "plain.cert", "text"] and judged(tmp_path, err).startswith("bound ")


def test_way_that_is_behind(tmp_path):
    """Both bound and own value have to be worse by a margin, in no less time."""
    import bprice_race
    race, ways = object.__new__(bprice_race.Race), [object.__new__(bprice_race.Racer) for _ in range(2)]
    race.point = bprice_race.Standing(5, 1, 1, 0, 1000)
    for sign, bounds in ((1, (950, 990)), (-1, (1050, 1010))):
        race.sign = sign
        for way, bound in zip(ways, bounds):
            way.answer, way.used, way.since, way.own = bprice_race.Standing(5, 1, 1, bound, 1000), 20.0, None, None
        assert not race.is_behind(*ways)  # nobody found a value
        ways[1].own = 1000
        assert race.is_behind(*ways) and not race.is_behind(*reversed(ways))
        ways[0].own = 1000
        assert not race.is_behind(*ways)
        ways[0].own = 1000 + 11 * sign
        assert race.is_behind(*ways)
        ways[1].used = 40.0
        assert not race.is_behind(*ways)
        ways[1].used, ways[0].used = 5.0, 5.0
        assert not race.is_behind(*ways)


def test_way_without_memory(model, monkeypatch):
    """It is left, and the others go on; where there are no others, the report is that of what is known."""
    program(model, monkeypatch, "if '--dec' not in words and steps > 0: sys.exit(9)", "import time", "if '--dec' in words: time.sleep(5)")
    out, err, status = told("plan.lp", "--processors", 4, cwd=model)
    assert out.startswith("optimal 454\n") and status == 0 and re.search(r"way plain\S* is dropped: it ended with status 9$", err, re.MULTILINE)
    program(model, monkeypatch, "if steps > 0: sys.exit(9)")
    out, err, status = told("plan.lp", "--folder", "other", cwd=model)
    assert (out, status) == ("budget 0\nbound 0\n", 5) and err.count("it ended with status 9") == 4 and judged(model, err) == "bound 0"


def test_ways_without_cuts(tmp_path):
    """Where no cut is found, the way with cuts is the one without."""
    (tmp_path / "plan.lp").write_text("Maximize\n 3 x + 2 y\nSubject To\n x + y <= 4\nBounds\n x <= 3\n y <= 3\nGenerals\n x y\nEnd\n")
    out, err, status = told("plan.lp", "--no-dec", "--cuts", 8, cwd=tmp_path)
    assert out == "optimal 11\nx 3\ny 1\n" and status == 0 and judged(tmp_path, err) == "optimal 11"


def test_folder(model):
    """Of another text it begins anew; it is used by one run at a time; a text that is refused leaves none; CERT gets the certificate."""
    assert told("plan.lp", "--cert", "cert", "--processors", 2, cwd=model)[2] == 0
    assert run("check", "plan.lp", "cert", *(["--dec", "cert.ways/proposed.dec"] if "--dec" in told("plan.lp", "--cert", "cert", "--processors", 2, cwd=model)[1]
                                             else []), cwd=model) == ("accepted optimal 454\n", 0)
    (model / "plan.lp").write_text((model / "plan.lp").read_text().replace("x1_1", "one"))
    out, err, status = told("plan.lp", "--cert", "cert", "--processors", 2, cwd=model)
    assert "begins anew" in err and status == 0 and "\none " in out and judged(model, err) == "optimal 454"
    (model / "bad.lp").write_text("Maximize\n 3 x ^ 2\n")
    assert told("bad.lp", cwd=model)[::2] == ("refused lp 2 feature\n", 3)
    assert told("none.lp", cwd=model)[::2] == ("", 11)
    assert not list(model.glob("bad*ways")) and not list(model.glob("none*"))


def test_one_run_in_a_folder(model, monkeypatch):
    program(model, monkeypatch, f"open('begun', 'w').close(); {LONG}")
    with start("plan.lp", cwd=model) as ran:
        while not (model / "begun").exists():
            time.sleep(0.01)
        out, err, status = told("plan.lp", cwd=model)
        ran.send_signal(signal.SIGINT)
        ran.send_signal(signal.SIGINT)
    assert (out, status) == ("", 2) and "plan.ways is used by another run" in err


def test_files_of_an_answer(model):
    """A parameter file, a log file, and both forms of an answer, of a race and of one way."""
    (model / "own.params").write_text("# of a plan\ncuts = 0\nno-dec = yes\ntime = 40  # seconds\no = of-params.sol\n")
    for words in ((), ("--cert", "cert")):
        out, _, status = told("plan.lp", *words, "--params", "own.params", "-o", "answer.json", "-o", "answer.sol", "--log-file", "log", cwd=model)
        assert status == 0
        known = json.loads((model / "answer.json").read_text())
        assert (known["status"], known["value"], known["bound"], known["gap"], known["decomposition"]) == ("optimal", 454, 454, 0, None)
        assert run("check", "plan.lp", known["certificate"], cwd=model) == ("accepted optimal 454\n", 0)
        lines = [f"{name} {value}" for name, value in known["point"].items()]
        assert "\n".join(["optimal 454", *lines, ""]) == out and known["steps"] > 0 and known["seconds"] > 0
        assert (model / "answer.sol").read_text() == "\n".join(["# Status optimal", "# Bound = 454", "# Objective value = 454", *lines, ""])
        assert (model / "of-params.sol").read_text() == (model / "answer.sol").read_text()
        assert re.search(r"^steps \d+  bound 454  value 454", (model / "log").read_text(), re.MULTILINE)
        (model / "log").unlink()
    assert "proved by" not in (model / "answer.json").read_text()


def test_infeasible_answer(tmp_path):
    (tmp_path / "plan.lp").write_bytes((TOP / "examples" / "odd-order" / "model.lp").read_bytes())
    out, err, status = told("plan.lp", "-o", "answer.sol", "-o", "answer.json", cwd=tmp_path)
    assert (out, status) == ("infeasible\n", 4) and judged(tmp_path, err) == "infeasible"
    assert (tmp_path / "answer.sol").read_text() == "# Status infeasible\n"
    known = json.loads((tmp_path / "answer.json").read_text())
    assert (known["status"], known["value"], known["bound"], known["point"]) == ("infeasible", None, None, None)


@pytest.mark.parametrize("text, what", [("time 40\n", "params:1: a line is"), ("\nspeed = 3\n", "params:2: no such parameter: speed"), ("gap = -1\n", "--gap"),
                                        ("no-dec = perhaps\n", "params:1: no such parameter: no-dec = perhaps"), ("params = params\n", "params:1: no such")])
def test_parameters_that_are_refused(model, text, what):
    (model / "params").write_text(text)
    out, err, status = told("plan.lp", "--params", "params", cwd=model)
    assert (out, status) == ("", 2) and what in err


def test_words_behind_the_dashes(model):
    """They go to each `solve`: here one that it refuses."""
    out, _, status = told("plan.lp", "--", "--workers", 3, "--order", 7, cwd=model)
    assert out.startswith("optimal 454\n") and status == 0
    assert told("plan.lp", "--folder", "other", "--", "--no-such-word", cwd=model)[::2] == ("refused words\n", 2)
