"""`make install` and `make uninstall`: the program with its tools, which find it, and one another, without anything that stands in the environment."""
import importlib.util
import os
import shutil
import subprocess
import sys

import pytest

from conftest import TOP

pytestmark = pytest.mark.skipif(shutil.which("make") is None or subprocess.run([TOP / "release" / "which.sh"], capture_output=True, check=False).returncode != 0,
                                reason="make is not installed, or there is no program to install")
ENVIRONMENT = {name: value for name, value in os.environ.items() if name not in ("BPRICE", "MAKEFLAGS", "MAKELEVEL", "MFLAGS")}
MODEL = TOP / "examples" / "cutting-stock"
TOOLS = [TOP / "tools" / name for name in ("bprice-run", "bprice-explain", "bprice-draw", "check_certificate.py", "to_vipr.py")] + [
    *(TOP / "tools").glob("bprice_*.py"), TOP / "farm" / "run", TOP / "farm" / "work", *(TOP / "farm").glob("*.py"), TOP / "integrations" / "pulp" / "bprice_pulp.py",
    *(TOP / "integrations" / "python" / "bprice").glob("*.py")]


def told(*words):
    """What a command prints, and its status."""
    ran = subprocess.run([*map(str, words)], stdout=subprocess.PIPE, text=True, check=False, env=ENVIRONMENT, timeout=300)
    return ran.stdout, ran.returncode


def make(target, *words):
    assert told("make", "-s", "-C", TOP, target, *words) == ("", 0)


def files(folder):
    return sorted(str(path.relative_to(folder)) for path in folder.rglob("*") if not path.is_dir())


@pytest.fixture(name="place", scope="module")
def installed(tmp_path_factory):
    place = tmp_path_factory.mktemp("install") / "a prefix"
    make("install", f"PREFIX={place}")
    return place


def test_program_and_search(place, tmp_path):
    told_by_program = told(place / "bin" / "bprice", "solve", MODEL / "model.lp")
    assert told_by_program[0].startswith("optimal 2\n")
    assert told(place / "bin" / "bprice-run", MODEL / "model.lp", "--cert", tmp_path / "cert") == told_by_program


def test_explanation(place, tmp_path):
    told_by_tool = told(place / "bin" / "bprice-explain", MODEL / "model.lp")
    assert told_by_tool[0].startswith("optimal 2\n") and told_by_tool[1] == 0


def test_checker(place):
    assert told(place / "bin" / "bprice-check-certificate", MODEL / "model.lp", MODEL / "model.cert", "--dec", MODEL / "model.dec") == ("accepted optimal 2\n", 0)


@pytest.mark.skipif(shutil.which("parallel") is None, reason="GNU parallel is not installed")
def test_farm(place, tmp_path):
    first = told(place / "bin" / "bprice-farm", MODEL / "model.lp", tmp_path / "dir", "--workers", 2, "--second-check", 60)
    assert (first[0].split("\n", 1)[0], first[1]) == ("optimal 2", 0)
    assert "check_certificate.py answers accepted optimal 2" in (tmp_path / "dir" / "log").read_text()


@pytest.mark.skipif(importlib.util.find_spec("matplotlib") is None, reason="matplotlib is not installed")
def test_picture(place, tmp_path):
    assert told(sys.executable, place / "bin" / "bprice-draw", "matrix", MODEL / "model.lp", tmp_path / "matrix.svg")[1] == 0
    assert "<svg" in (tmp_path / "matrix.svg").read_text()


@pytest.mark.skipif(importlib.util.find_spec("pulp") is None, reason="PuLP is not installed")
def test_pulp(place):
    script = f"""import sys
sys.path.insert(0, {str(place / "share" / "bprice" / "integrations" / "pulp")!r})
import pulp
from bprice_pulp import BPRICE_CMD
model, x = pulp.LpProblem("m", pulp.LpMaximize), pulp.LpVariable("x", 0, 7, cat="Integer")
model += 3 * x
model += 2 * x <= 9
print(pulp.LpStatus[model.solve(BPRICE_CMD(msg=False))], pulp.value(x))
"""
    assert told(sys.executable, "-c", script) == ("Optimal 4\n", 0)


def test_without_the_program_a_tool_says_so(tmp_path):
    make("install", f"PREFIX={tmp_path}")
    (tmp_path / "bin" / "bprice").unlink()
    assert told(tmp_path / "share" / "bprice" / "release" / "which.sh") == ("", 126)


@pytest.mark.parametrize("stage", ["", "stage"])
def test_what_is_taken_away(tmp_path, stage):
    """All that was installed, and nothing else."""
    words = [f"DESTDIR={tmp_path / stage}", "PREFIX=/usr"] if stage else [f"PREFIX={tmp_path / 'usr'}"]
    usr = tmp_path / stage / "usr"
    (usr / "share" / "bprice" / "farm").mkdir(parents=True)
    (usr / "bin").mkdir()
    own = [usr / "bin" / "bprice-other", usr / "share" / "bprice" / "farm" / "notes"]
    for file in own:
        file.write_text("of somebody else\n")
    make("install", *words)
    assert len(files(usr)) == 3 + len(TOOLS) + 2 + 6 + len(own)
    assert not os.path.isabs(os.readlink(usr / "bin" / "bprice-farm")) and (usr / "bin" / "bprice-farm").exists()
    make("uninstall", *words)
    assert files(usr) == sorted(str(file.relative_to(usr)) for file in own)
    for file in own:
        file.unlink()
    make("install", *words)
    make("uninstall", *words)
    assert not (usr / "share" / "bprice").exists()
