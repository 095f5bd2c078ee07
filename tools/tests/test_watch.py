"""solve --time, --gap, --log and --stop: a search that ends by one of them is, byte for byte, one of as many steps as it took; the table of how
it goes is on standard error alone; and words that do not go together are refused."""
import random
import re
import subprocess
import threading
import time

import pytest

from conftest import PROGRAM, knows, run

pytestmark = pytest.mark.skipif(not knows("solve", "no.lp", "--time", "1"), reason="the program watches no search")

HEAD = ["seconds", "steps", "leaves", "bound", "value", "gap", "%"]


def market_split(rows, columns):
    """A model that takes a search beyond any test: equalities of random coefficients, with what they miss as the cost."""
    draws = random.Random(7)
    lines = ["Minimize", " obj: " + " + ".join(f"s{i} + t{i}" for i in range(rows)), "Subject To"]
    for i in range(rows):
        numbers = [draws.randrange(100) for _ in range(columns)]
        terms = " + ".join(f"{number} x{j}" for j, number in enumerate(numbers))
        lines.append(f" c{i}: {terms} + s{i} - t{i} = {sum(numbers) // 2}")
    slacks = [f"{name}{i}" for i in range(rows) for name in "st"]
    lines += ["Bounds", *(f" {name} <= 9999" for name in slacks), "Generals", " " + " ".join(slacks)]
    lines += ["Binaries", " " + " ".join(f"x{j}" for j in range(columns)), "End"]
    return "\n".join(lines) + "\n"


def knapsack(rows, columns):
    """A model of several knapsacks, whose gap is small soon and closes late."""
    draws = random.Random(3)
    weights = [[draws.randrange(10, 100) for _ in range(columns)] for _ in range(rows)]
    values = [sum(row[j] for row in weights) // rows + draws.randrange(20) for j in range(columns)]
    lines = ["Maximize", " obj: " + " + ".join(f"{value} x{j}" for j, value in enumerate(values)), "Subject To"]
    for i, row in enumerate(weights):
        lines.append(f" c{i}: " + " + ".join(f"{weight} x{j}" for j, weight in enumerate(row)) + f" <= {sum(row) // 2}")
    return "\n".join([*lines, "Binaries", " " + " ".join(f"x{j}" for j in range(columns)), "End"]) + "\n"


@pytest.fixture(name="room")
def room_fixture(tmp_path):
    (tmp_path / "hard.lp").write_text(market_split(4, 40))
    (tmp_path / "bag.lp").write_text(knapsack(8, 120))
    (tmp_path / "easy.lp").write_text("Maximize\n obj: 3 x + 2 y\nSubject To\n c: 2 x + 2 y <= 7\nBounds\n x <= 2\n y <= 9\nGenerals\n x y\nEnd\n")
    return tmp_path


def told(room, *words):
    ran = subprocess.run([PROGRAM, *words], capture_output=True, check=False, timeout=120, cwd=room)
    return ran.returncode, ran.stdout.decode(), ran.stderr.decode()


def taken(report):
    """The steps that a report of a search that was ended tells."""
    return int(re.match(r"budget (\d+)\nbound ", report)[1])


def is_as_by_steps(room, words, report):
    """Sees that a report and the certificate in the file `cert` are those of as many steps, and that the certificate is valid."""
    steps = str(taken(report))
    assert told(room, "solve", *words, "--steps", steps, "--cert", "other") == (5, report, "")
    assert (room / "cert").read_bytes() == (room / "other").read_bytes()
    assert run("check", words[0], "cert", cwd=room)[1] == 0


def gap_of(report):
    bound, value = (int(re.search(rf"^{word} (-?\d+)$", report, re.M)[1]) for word in ("bound", "value"))
    return 100 * abs(value - bound) / abs(value)


@pytest.mark.parametrize("seconds", ["0", "0.7", "2"])
def test_time(room, seconds):
    begun = time.monotonic()
    status, out, err = told(room, "solve", "hard.lp", "--time", seconds, "--cert", "cert")
    assert float(seconds) <= time.monotonic() - begun < float(seconds) + 20
    assert (status, err) == (5, "")
    assert (taken(out) == 0) == (seconds == "0")
    is_as_by_steps(room, ["hard.lp"], out)


def test_time_from_a_certificate(room):
    assert told(room, "solve", "hard.lp", "--steps", "20", "--cert", "first")[0] == 5
    status, out, _ = told(room, "solve", "hard.lp", "--from", "first", "--time", "1", "--cert", "cert")
    assert status == 5
    is_as_by_steps(room, ["hard.lp", "--from", "first"], out)


def test_the_first_of_steps_and_time(room):
    by_steps = told(room, "solve", "hard.lp", "--steps", "5", "--cert", "cert")
    assert told(room, "solve", "hard.lp", "--steps", "5", "--time", "9999", "--cert", "other") == by_steps
    assert (room / "cert").read_bytes() == (room / "other").read_bytes()
    assert taken(told(room, "solve", "hard.lp", "--steps", "1000000000", "--time", "0.5")[1]) < 1000000000


def test_gap(room):
    status, out, err = told(room, "solve", "bag.lp", "--gap", "5", "--time", "60", "--cert", "cert")
    assert (status, err) == (5, "")
    assert gap_of(out) <= 5
    is_as_by_steps(room, ["bag.lp"], out)


def test_a_gap_that_is_not_reached(room):
    plain = told(room, "solve", "easy.lp", "--cert", "cert")
    assert plain[0] == 0
    assert told(room, "solve", "easy.lp", "--gap", "0", "--time", "60", "--stop", "none", "--cert", "other") == plain
    assert (room / "cert").read_bytes() == (room / "other").read_bytes()


def test_a_file_that_is_there(room):
    (room / "halt").touch()
    by_steps = told(room, "solve", "hard.lp", "--steps", "0")
    assert told(room, "solve", "hard.lp", "--stop", "halt", "--cert", "cert") == by_steps
    assert (room / "halt").read_bytes() == b""


def test_a_file_that_comes(room):
    timer = threading.Timer(1.5, (room / "halt").touch)
    timer.start()
    status, out, err = told(room, "solve", "hard.lp", "--stop", "halt", "--cert", "cert")
    timer.join()
    assert (status, err) == (5, "")
    is_as_by_steps(room, ["hard.lp"], out)


def rows_of(err):
    head, *rows = err.splitlines()
    assert head.split() == HEAD
    return [row.split() for row in rows]


def test_log(room):
    status, out, err = told(room, "solve", "bag.lp", "--log", "0.4", "--time", "2.5")
    assert status == 5
    rows = rows_of(err)
    assert all(len(row) == 6 for row in rows) and rows[0][1] == "0"
    seconds, steps = [float(row[0]) for row in rows], [int(row[1]) for row in rows]
    assert seconds == sorted(seconds) and steps == sorted(steps) and steps[-1] <= taken(out)
    values = [int(row[4]) for row in rows if row[4] != "-"]
    bounds = [int(row[3]) for row in rows if row[3] != "-"]
    assert values == sorted(values) and bounds == sorted(bounds, reverse=True)
    for _, _, _, bound, value, gap in rows:
        if "-" not in (bound, value):
            assert float(gap) == pytest.approx(100 * (int(bound) - int(value)) / int(value), abs=1e-3)
    # A line comes at most each so many seconds and at each better point.
    apart = [late - early for early, late, was, now in zip(seconds, seconds[1:], rows, rows[1:]) if was[4] == now[4]]
    assert all(gap >= 0.29 for gap in apart)


def test_log_changes_nothing_else(room):
    for words in (["easy.lp"], ["hard.lp", "--steps", "9"]):
        plain = told(room, "solve", *words, "--cert", "cert")
        status, out, err = told(room, "solve", *words, "--log", "0", "--cert", "other")
        assert ((status, out), plain[2]) == (plain[:2], "")
        assert (room / "cert").read_bytes() == (room / "other").read_bytes()
        rows_of(err)


def test_standard_error_that_is_full(room):
    with open("/dev/full", "wb") as full:
        ran = subprocess.run([PROGRAM, "solve", "easy.lp", "--log", "0"], stdout=subprocess.PIPE, stderr=full, check=False, timeout=60, cwd=room)
    assert (ran.returncode, ran.stdout.decode()) == told(room, "solve", "easy.lp")[:2]


BAD = ["", "-1", "+1", "1s", ".5", "5.", "1.2.3", "1e3", "nan", "inf", "1,5", " 1", "0000000000000000.01"]


@pytest.mark.parametrize("word", ["--time", "--gap", "--log"])
@pytest.mark.parametrize("value", BAD)
def test_bad_values(room, word, value):
    status, out, err = told(room, "solve", "easy.lp", f"{word}={value}", "--cert", "cert")
    assert (status, out) == (2, "refused words\n")
    assert err.startswith("bprice: ")
    assert not (room / "cert").exists()


@pytest.mark.parametrize("words", [["--workers", "2"], ["--order", "1"], ["--from", "first", "--leaf", "1"]])
@pytest.mark.parametrize("watching", [["--time", "1"], ["--gap", "1"], ["--log", "1"], ["--stop", "f"]])
def test_words_that_go_alone(room, words, watching):
    status, out, err = told(room, "solve", "easy.lp", *watching, *words)
    assert (status, out) == (2, "refused words\n")
    assert err.startswith("bprice: --time, --gap, --log and --stop go without --leaf, --workers and --order\n")


@pytest.mark.parametrize("words", [["check", "easy.lp", "cert"], ["show", "easy.lp"], ["demo", "1", "1"]])
def test_other_commands_are_not_watched(room, words):
    assert told(room, *words, "--time", "1")[:2] == (2, "refused words\n")
