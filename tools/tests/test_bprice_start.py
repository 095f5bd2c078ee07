"""A point to begin with: what `bprice-run --start` makes of a file, and what it refuses."""
import subprocess
import sys

import pytest

from conftest import TOP, run

TOOL = TOP / "tools" / "bprice-run"
LP = "Maximize\n obj: 3 x + 2 y - 4 z\nSubject To\n c1: 2 x + y <= 5\n c2: x + 3 y + z <= 9\nBounds\n x <= 3\n y <= 3\n 2 <= z <= 5\n" \
     "Generals\n x y z\nEnd\n"
OPTIMAL = "x 2\ny 1\nz 2\n"


@pytest.fixture(name="room")
def room_fixture(tmp_path):
    (tmp_path / "plan.lp").write_text(LP)
    return tmp_path


def started(room, point, *words):
    """What a run prints that begins with a point, what it says, and its status."""
    (room / "point").write_text(point)
    ran = subprocess.run([sys.executable, TOOL, "plan.lp", "--cert", "cert", "--start", "point", *map(str, words)], cwd=room,
                         capture_output=True, text=True, check=False, timeout=60)
    return ran.stdout, ran.stderr, ran.returncode


@pytest.mark.parametrize("point", (OPTIMAL, "# Objective value = 0\nx 2.0\ny +1\nz 2 # more\n\n", "budget 3\nbound 4\nvalue 0\n" + OPTIMAL))
def test_points_that_are_taken(room, point):
    out, _, status = started(room, point, "--steps", 0)
    assert (out, status) == ("budget 0\nbound 7\nvalue 0\nx 2\ny 1\nz 2\n", 5)
    assert run("check", "plan.lp", "cert", cwd=room) == ("accepted bound 7 value 0\n", 0)


def test_search_goes_on_from_a_point(room):
    out, _, status = started(room, "x 1\n")
    assert (out, status) == ("optimal 0\n" + OPTIMAL, 0)
    assert run("check", "plan.lp", "cert", cwd=room) == ("accepted optimal 0\n", 0)


def test_variables_that_are_lacking(room):
    out, err, status = started(room, "x 1\n", "--steps", 0)
    assert (out, status) == ("budget 0\nbound 7\nvalue -5\nx 1\ny 0\nz 2\n", 5)
    assert "2 variables that point lacks are 0, or their lower bound where they can't be 0" in err


FAULTS = {
    "x 1\nw 1\n": ("refused start 2 name", "the model has no variable w"),
    "x 1\nx 1\n": ("refused start 2 twice", "x has a value on a line above"),
    "x 1\n\ny 0.5\n": ("refused start 3 not-whole", "0.5 is no whole number"),
    "x 1\ny 4\n": ("refused start 2 bound", "y is from 0 to 3"),
    "x 1 2\n": ("refused start 1 syntax", "a variable's name and its value"),
    "x 3\n": ("refused start 0 row", "the point misses the row c1, whose sum is 6; 2 variables were not given"),
    "x 2\ny 3\nz 2\n": ("refused start 0 row", "the point misses the row c1, whose sum is 7\n"),
}


@pytest.mark.parametrize("point", FAULTS)
def test_points_that_are_refused(room, point):
    report, help_text = FAULTS[point]
    out, err, status = started(room, point)
    assert (out, status) == (report + "\n", 3)
    assert help_text in err
    assert not (room / "cert").exists()


def test_files_that_cannot_be_read(room):
    ran = subprocess.run([sys.executable, TOOL, "plan.lp", "--cert", "cert", "--start", "none"], cwd=room, capture_output=True, text=True, check=False)
    assert (ran.stdout, ran.returncode) == ("", 7) and "none" in ran.stderr


def test_a_certificate_that_is_there_comes_first(room):
    started(room, OPTIMAL, "--steps", 0)
    out, err, _ = started(room, "x 1\n", "--steps", 0)
    assert out.startswith("budget 0\nbound 7\nvalue 0\n")
    assert "cert is there, so the search goes on from it and not from point" in err


def test_cuts_are_added_to_a_point(room):
    out, _, _ = started(room, OPTIMAL, "--steps", 0, "--cuts", 4)
    assert out.startswith("budget 0\nbound ")
    assert "\ncut " in (room / "cert").read_text()


@pytest.mark.parametrize("seed", range(1, 7))
def test_reports_begin_a_search(room, seed):
    """The report of a search that was stopped is a point to begin with."""
    run("gen", seed, 40, "plan.lp", "dec", cwd=room)
    report, status = run("solve", "plan.lp", "--steps", 40, cwd=room)
    values = [line.split()[1] for line in report.split("\n")[:3] if line.split()[0] in ("optimal", "value")]
    if not values:
        pytest.skip("no point was found")
    out, _, _ = started(room, report, "--steps", 0)
    assert f"value {values[0]}" in out.split("\n") or f"optimal {values[0]}" in out.split("\n")
    assert run("check", "plan.lp", "cert", cwd=room)[1] == 0 and status in (0, 5)


def test_a_race_begins_with_a_point(room):
    (room / "point").write_text(OPTIMAL)
    ran = subprocess.run([sys.executable, TOOL, "plan.lp", "--start", "point", "--time", "5"], cwd=room, capture_output=True, text=True, check=False,
                         timeout=60)
    assert (ran.stdout, ran.returncode) == ("optimal 0\n" + OPTIMAL, 0)
