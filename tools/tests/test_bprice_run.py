"""bprice-run: the answer of `solve`, time and signals, going on, and what it says where the program refuses."""
import os
import re
import signal
import subprocess
import sys
import time

import pytest

from conftest import PROGRAM, TOP, knows, load_tool, run

TOOL = TOP / "tools" / "bprice-run"
SHORT = 300_000  # bytes of a certificate that the checker for strangers reads in some seconds
checker = load_tool(TOP / "tools" / "check_certificate.py")


def start(*words, **options):
    return subprocess.Popen([sys.executable, TOOL, *map(str, words)], stdout=subprocess.PIPE, stderr=subprocess.PIPE, text=True, **options)


def told(*words, **options):
    with start(*words, **options) as ran:
        out, err = ran.communicate(timeout=60)
    return out, err, ran.returncode


@pytest.fixture(name="large")
def large_fixture(tmp_path):
    """A model that takes many steps without its decomposition."""
    run("gen", 5, 300, "lp", "dec", cwd=tmp_path)
    return tmp_path


@pytest.fixture(name="small")
def small_fixture(tmp_path):
    """A model that its decomposition closes at once."""
    run("gen", 5, 60, "lp", "dec", cwd=tmp_path)
    return tmp_path


def accepted(room, lp, cert, dec=None):
    """What `check` says of a certificate that was left, and the checker for strangers too, where that doesn't take long."""
    names = [lp, cert, *(["--dec", dec] if dec else [])]
    report, _ = run("check", *names, cwd=room)
    texts = [(room / name).read_bytes() for name in (lp, cert, dec) if name]
    if len(texts[1]) < SHORT:
        assert report == checker.check(*texts) + "\n"
    assert report.startswith("accepted ") and not list(room.glob("*.part"))
    return report.split(" ", 1)[1]


def test_answers(tmp_path):
    folder = TOP / "examples" / "assignment"
    out, err, status = told("model.lp", "--cert", tmp_path / "cert", "--dec", "model.dec", cwd=folder)
    assert (out.split("\n")[0], status) == ("optimal 92", 0)
    assert re.search(r"^steps \d+  bound 92  value 92  gap 0.00%  open 0  \d+\.\d s$", err, re.MULTILINE)
    assert run("check", "model.lp", tmp_path / "cert", "--dec", "model.dec", cwd=folder) == ("accepted optimal 92\n", 0)


def test_infeasible(tmp_path):
    (tmp_path / "lp").write_text("Minimize\n x\nSubject To\n 2 x + 2 y = 5\nBounds\n x <= 9\n y <= 9\nGenerals\n x y\nEnd\n")
    out, err, status = told("lp", "--cert", "cert", cwd=tmp_path)
    assert (out, status) == ("infeasible\n", 4)
    assert err.strip().split("\n")[-1].split("  ")[1] == "infeasible"
    assert accepted(tmp_path, "lp", "cert") == "infeasible\n"


def test_names_like_words(tmp_path):
    """Variables that are named as the report's words are."""
    (tmp_path / "lp").write_text("Maximize\n 3 value + 2 bound\nSubject To\n c1: value + bound <= 4\nBounds\n value <= 3\n 0 <= bound <= 3\n"
                                 "Generals\n value bound\nEnd\n")
    out, err, status = told("lp", "--cert", "cert", cwd=tmp_path)
    assert (out, status) == ("optimal 11\nvalue 3\nbound 1\n", 0)
    assert "  bound 11  value 11  gap 0.00%  open 0  " in err


def test_goes_on(large):
    """Stopped after a few steps and started again by the same words, the search goes on; more steps are asked from call to call."""
    steps = []
    for _ in range(3):
        out, _, status = told("lp", "--cert", "cert", "--steps", 7, cwd=large)
        assert status == 5
        steps.append(int(re.match(r"budget (\d+)\n", out)[1]))
        claim = accepted(large, "lp", "cert")
        assert claim.split()[:2] == out.split("\n")[1].split()
    assert steps == sorted(set(steps)) and steps[0] == 7


def test_time(large):
    begin = time.monotonic()
    out, err, status = told("lp", "--cert", "cert", "--time", 2, cwd=large)
    assert status == 5 and time.monotonic() - begin < 4.5
    assert out.startswith("budget ")
    seconds = [float(found) for found in re.findall(r"(\d+\.\d) s$", err, re.MULTILINE)]
    # The first and the last line come always, those between at most once a second.
    assert len(seconds) >= 2 and seconds[-1] <= 2.9
    assert all(later - earlier > 0.9 for earlier, later in zip(seconds, seconds[1:-1]))
    accepted(large, "lp", "cert")


def test_signal_in_the_first_call(large, monkeypatch):
    """It leaves nothing, neither a file nor a process. A script stands for a call that takes long."""
    script = large / "slow"
    script.write_text("#!/bin/sh\necho $$ >pid\nexec sleep 50\n")
    script.chmod(0o755)
    monkeypatch.setenv("BPRICE", str(script))
    with start("lp", "--cert", "cert", cwd=large) as ran:
        while not (large / "pid").exists() or not (large / "pid").read_text():
            time.sleep(0.01)
        ran.send_signal(signal.SIGINT)
        out, err = ran.communicate(timeout=20)
    assert (out, err, ran.returncode) == ("", "bprice-run: stopped before the first report\n", 5)
    with pytest.raises(ProcessLookupError):
        os.kill(int((large / "pid").read_text()), 0)
    assert not list(large.glob("cert*"))


@pytest.mark.parametrize("number", [signal.SIGINT, signal.SIGTERM])
def test_signals(large, number):
    told("lp", "--cert", "cert", "--steps", 7, cwd=large)
    with start("lp", "--cert", "cert", cwd=large) as ran:
        line = ran.stderr.readline()
        ran.send_signal(number)
        out, err = ran.communicate(timeout=20)
    assert line.startswith("steps ")
    assert ran.returncode == 5 and out.startswith("budget ") and "Traceback" not in err
    before = int(re.match(r"budget (\d+)\n", out)[1])
    accepted(large, "lp", "cert")
    out, _, _ = told("lp", "--cert", "cert", "--steps", 2, cwd=large)
    assert int(re.match(r"budget (\d+)\n", out)[1]) >= before + 1


WATCHES = knows("solve", "no.lp", "--time", "1")


def counting(room, monkeypatch, *lines):
    """A script that stands for the program, writes a line for each call, and does these lines before it."""
    script = room / "program"
    script.write_text("\n".join(["#!/bin/sh", 'echo "$@" >>calls', *lines, f'exec {PROGRAM} "$@"', ""]))
    script.chmod(0o755)
    monkeypatch.setenv("BPRICE", str(script))


@pytest.mark.skipif(not WATCHES, reason="the program watches no search")
@pytest.mark.parametrize("words", [(), ("--time", 60)])
def test_nothing_is_lost(large, monkeypatch, words):
    """A search is one call, and a signal leaves what it told, and no file beside the certificate."""
    counting(large, monkeypatch)
    with start("lp", "--cert", "cert", *words, cwd=large) as ran:
        told_last = [ran.stderr.readline() for _ in range(3)][-1]
        ran.send_signal(signal.SIGINT)
        out, _ = ran.communicate(timeout=20)
    steps = int(re.match(r"budget (\d+)\n", out)[1])
    assert ran.returncode == 5 and steps >= int(told_last.split()[1]) > 0
    calls = [line for line in (large / "calls").read_text().splitlines() if "--steps 0" not in line]
    assert len(calls) == 1 and not list(large.glob("cert.*"))
    assert accepted(large, "lp", "cert").split()[:2] == out.split("\n")[1].split()


@pytest.mark.parametrize("ending", ["signal", "time"])
def test_program_that_hangs(large, monkeypatch, ending):
    """It is ended some seconds after the stop, and what stands is the last certificate."""
    told("lp", "--cert", "cert", "--steps", 7, cwd=large)
    before = (large / "cert").read_bytes()
    counting(large, monkeypatch, 'case "$*" in *"--steps 0"*) ;; *) echo $$ >pid; exec sleep 50 ;; esac')
    begin = time.monotonic()
    with start("lp", "--cert", "cert", *(("--time", 3) if ending == "time" else ()), cwd=large) as ran:
        if ending == "signal":
            while not (large / "pid").exists():
                time.sleep(0.01)
            ran.send_signal(signal.SIGTERM)
        out, _ = ran.communicate(timeout=40)
    assert time.monotonic() - begin < 25 and ran.returncode == 5 and out.startswith("budget 7\n")
    assert (large / "cert").read_bytes() == before and not list(large.glob("cert.*"))
    with pytest.raises(ProcessLookupError):
        os.kill(int((large / "pid").read_text()), 0)


@pytest.mark.skipif(not WATCHES, reason="the program watches no search")
def test_goes_on_to_save(large):
    """A search of several calls counts its steps on, and its calls double."""
    search = load_tool(TOP / "tools" / "bprice_search.py")
    way = search.Way("", str(large / "cert"), None, None, share=0.5)
    words = type("Words", (), {"lp": str(large / "lp"), "steps": None, "gap": None, "rest": [], "limits": lambda self: []})()
    steps = []
    for _ in range(2):
        way.begin(PROGRAM, words, way.seconds_of_call())
        while not way.call.read(way.call.reading):
            pass
        assert way.take().status == 5 and not way.notes
        steps.append(way.answer.steps)
    assert way.taken == steps[1] > steps[0] > 0 and way.share == 2.0


def test_rows():
    """Lines of the table are read strictly."""
    search = load_tool(TOP / "tools" / "bprice_search.py")
    assert search.row("      1.6      14068     8037                 2095                -2091    0.1913") == (1.6, 14068, 8037, 2095, -2091)
    assert search.row("      0.0          0        1                 3889                    -         -") == (0.0, 0, 1, 3889, None)
    for line in ("", "  seconds      steps   leaves                bound                value     gap %", "1.0 1 1 - 3 -", "1 2 3 4 5", "nan 1 1 1 1 1",
                 "1.0 1_0 1 1 1 1", "1.0 2 3 4 5 6 7", "bprice: a b c d e"):
        assert search.row(line) is None


def test_notes_of_the_program(large):
    """What the program says of a text that it refuses is passed on."""
    (large / "bad").write_text("Maximize\n 3 x ^ 2\n")
    assert "bad:2" in told("bad", "--cert", "cert", cwd=large)[1]


def test_gap(large):
    """With the decomposition the value is near the bound long before both meet."""
    out, err, status = told("lp", "--dec", "dec", "--cert", "cert", "--gap", "5%", "--time", 40, cwd=large)
    assert status in (0, 5)
    found = dict(re.findall(r"^(optimal|bound|value) (-?\d+)$", out, re.MULTILINE))
    if status == 5:
        assert abs(int(found["value"]) - int(found["bound"])) <= 0.05 * abs(int(found["value"]))
    assert "gap" in err.strip().split("\n")[-1]
    accepted(large, "lp", "cert", "dec")


def test_certificate_of_another_model(large):
    folder = TOP / "examples" / "rostering"
    (large / "cert").write_bytes((folder / "model.cert").read_bytes())
    out, err, status = told("lp", "--cert", "cert", "--steps", 1, cwd=large)
    assert status in (3, 6) and out.startswith(("refused cert ", "rejected "))
    assert "cert is there, and is no certificate to go on from" in err
    assert "Traceback" not in err


def test_refusals(large):
    out, err, status = told("none.lp", "--cert", "cert", cwd=large)
    assert (out, status) == ("", 11) and "Traceback" not in err
    (large / "bad").write_text("Maximize\n 3 x ^ 2\n")
    out, err, status = told("bad", "--cert", "cert", cwd=large)
    assert (out, status) == ("refused lp 2 feature\n", 3)
    assert not (large / "cert").exists()


def test_words(large):
    """A name and its value in one word; what is no word, has no value or a wrong one; a file that would be written and read."""
    assert told("lp", "--cert=cert", "--steps=1", cwd=large)[2] == 5
    (large / "lp.part").write_bytes((large / "lp").read_bytes())
    for words, what in (((), "an LP file"), (("lp", "--plans", 2), "--cert CERT"), (("lp", "dec", "--cert", "cert"), "dec"),
                        (("lp", "--cert", "cert", "--times", 1), "--times"), (("lp", "--cert", "cert", "--gap", "-1"), "--gap"),
                        (("lp", "--cert", "cert", "--steps"), "--steps"), (("lp.part", "--cert", "lp"), "lp.part would be written"),
                        (("lp", "--dec", "dec", "--no-dec"), "--no-dec"), (("lp", "--cert", "cert", "--folder", "ways"), "--folder"),
                        (("lp", "--processors", 0), "--processors"), (("lp", "--cuts", 257), "--cuts"), (("lp", "-o", "answer.txt"), ".json"),
                        (("lp", "--cert", "lp", "--processors", 1), "lp would be written"), (("lp", "--log-file", "lp"), "lp would be written"),
                        (("lp", "--cert", "cert", "--plans", 2, "--cuts", 8), "--plans goes with")):
        out, err, status = told(*words, cwd=large)
        assert (out, status) == ("", 2) and err.startswith("bprice-run: ") and what in err
    assert (large / "lp.part").exists() and not list(large.glob("*.ways"))
    assert told("--help")[0].startswith("Solves a model")


def test_cuts_of_one_way(tmp_path):
    """They are added where the certificate begins, and stand in it from then on."""
    (tmp_path / "lp").write_bytes((TOP / "examples" / "odd-order" / "model.lp").read_bytes())
    out, _, status = told("lp", "--cert", "cert", "--cuts", 2, "--steps", 0, cwd=tmp_path)
    assert out.startswith("budget 0\n") and status == 5 and (tmp_path / "cert").read_text().count("\ncut ") == 2
    assert told("lp", "--cert", "cert", "--cuts", 2, cwd=tmp_path)[::2] == ("infeasible\n", 4)
    assert accepted(tmp_path, "lp", "cert") == "infeasible\n"


def test_auto_decomposition(small):
    out, err, status = told("lp", "--cert", "cert", "--dec", "auto", "--time", 40, cwd=small)
    if knows("propose", "none.lp", "none.dec"):
        assert out.startswith("optimal ") and status == 0 and "proposed blocks" in err
        accepted(small, "lp", "cert", "cert.dec")
    else:
        assert (out, status) == ("refused words\n", 2) and "no command `propose`" in err


def test_proposed_decomposition(small, monkeypatch):
    """What `propose` writes is used, and used again by the same command. A script stands for `propose`, with the model's own blocks."""
    script = small / "proposing"
    script.write_text(f'#!/bin/sh\nif [ "$1" = propose ]; then cp {small}/dec "$3" && echo proposed blocks 4 classes 4 master 40; exit; fi\n'
                      f'exec {os.environ["BPRICE"]} "$@"\n')
    script.chmod(0o755)
    monkeypatch.setenv("BPRICE", str(script))
    out, err, status = told("lp", "--cert", "cert", "--dec", "auto", "--steps", 1, cwd=small)
    assert "proposed blocks 4 classes 4 master 40 in cert.dec" in err and (small / "cert.dec").read_bytes() == (small / "dec").read_bytes()
    out, err, status = told("lp", "--cert", "cert", "--dec", "auto", "--time", 40, cwd=small)
    assert "proposed" not in err and status == 0 and out.startswith("optimal ")
    accepted(small, "lp", "cert", "cert.dec")


def test_program_without_going_on(large, monkeypatch):
    """A program that refuses `--from`: it says so. A script stands for it."""
    script = large / "old"
    script.write_text(f'#!/bin/sh\nfor word; do [ "$word" = --from ] && echo refused words && exit 2; done\nexec {PROGRAM} "$@"\n')
    script.chmod(0o755)
    monkeypatch.setenv("BPRICE", str(script))
    out, err, status = told("lp", "--cert", "cert", "--time", 20, cwd=large, env=os.environ)
    assert (out, status) == ("refused words\n", 2) and "no `solve --from`" in err


def test_program_without_watching(large, monkeypatch):
    """Where the program refuses to watch a search, calls are of steps that double."""
    counting(large, monkeypatch, 'case "$*" in *--log*) echo refused words; exit 2 ;; esac')
    out, err, status = told("lp", "--cert", "cert", "--time", 4, cwd=large)
    assert out.startswith("budget ") and status == 5 and "Traceback" not in err
    asked = [int(found) for found in re.findall(r"^(?!.*--log).*--steps (\d+)", (large / "calls").read_text(), re.MULTILINE)]
    assert asked[:3] == [0, 32, 64]
    accepted(large, "lp", "cert")
