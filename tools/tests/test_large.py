"""The word --large: each tool hands it on to every command that reads a model. A script stands in for the program, and keeps its words."""
import os
import subprocess
import sys

import pytest

from conftest import TOP

sys.path.insert(0, str(TOP / "integrations" / "python"))
import bprice  # noqa: E402

SCRIPT = """#!/usr/bin/env bash
printf '%s\\n' "$*" >>calls
case $1 in
propose) printf 'NBLOCKS 0\\n' >"$3" && echo 'proposed blocks 0 classes 0 master 1' ;;
solve)
    while [ $# -gt 1 ] && [ "$1" != --cert ]; do shift; done
    printf 'bpcert 2\\nclaim optimal 1\\npoint 1\\nleaf 1 change 0 priced 0\\nend\\n' >"$2"
    printf 'optimal 1\\nx 1\\n'
    ;;
check) echo 'accepted optimal 1' ;;
esac
"""


@pytest.fixture(name="room")
def room_fixture(tmp_path, monkeypatch):
    (tmp_path / "m.lp").write_text("Maximize\n x\nst\n x <= 1\nBinaries\n x\nEnd\n", encoding="ascii")
    (tmp_path / "bprice").write_text(SCRIPT, encoding="ascii")
    (tmp_path / "bprice").chmod(0o755)
    monkeypatch.chdir(tmp_path)
    monkeypatch.setenv("BPRICE", str(tmp_path / "bprice"))
    return tmp_path


def commands(room):
    """The commands that were called, each with whether --large was among its words."""
    lines = (room / "calls").read_text(encoding="ascii").splitlines()
    (room / "calls").unlink()
    return {(line.split(" ")[0], "--large" in line.split(" ")) for line in lines}


def runs(*words):
    return subprocess.run([TOP / "tools" / "bprice-run", "m.lp", *words], capture_output=True, text=True, check=False, env=dict(os.environ))


@pytest.mark.parametrize("is_large", (False, True))
def test_run(room, is_large):
    large = ["--large"] * is_large
    one = runs("--cert", "c", "--dec", "auto", *large)
    assert (one.stdout, one.returncode) == ("optimal 1\nx 1\n", 0)
    assert commands(room) == {("propose", is_large), ("solve", is_large)}
    race = runs("--processors", "1", *large)
    assert (race.stdout, race.returncode) == ("optimal 1\nx 1\n", 0)
    assert {called for called in commands(room) if called[0] == "solve"} == {("solve", is_large)}
    told = next(line for line in race.stderr.splitlines() if "judge it by" in line)
    assert told.endswith(" --large") == is_large
    assert runs("--cert", "d", "--plans", "1", *large).returncode == 0
    assert commands(room) == {("solve", is_large)}


@pytest.mark.parametrize("is_large", (False, True))
def test_parameters(room, is_large):
    (room / "p").write_text(f"large = {'yes' if is_large else 'no'}\n", encoding="ascii")
    assert runs("--cert", "c", "--params", "p").returncode == 0
    assert commands(room) == {("solve", is_large)}


@pytest.mark.parametrize("is_large", (False, True))
def test_package(room, is_large):
    answer = bprice.solve("m.lp", dec="auto", cert="c", large=is_large)
    assert answer.check() == "accepted optimal 1"
    assert commands(room) == {(name, is_large) for name in ("propose", "solve", "check")}
    assert bprice.solve("m.lp", gap=0.5, cert="c", large=is_large).value == 1
    assert commands(room) == {("solve", is_large)}
