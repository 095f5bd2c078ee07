"""Tests of farm/run: one tree by several processes of this machine, that die, are ended, or bring back what is no certificate."""
import contextlib
import os
import pathlib
import random
import re
import shutil
import signal
import subprocess
import sys
import time

import pytest

from conftest import PROGRAM, TOP, load_tool, run

RUN = TOP / "farm" / "run"
CHECKER = load_tool(TOP / "tools" / "check_certificate.py")
CREWS = load_tool(TOP / "bench" / "crews.py")
MODELS = load_tool(TOP / "bench" / "models.py")
CERTIFICATES = load_tool(TOP / "farm" / "certificates.py")
ENGINES = load_tool(TOP / "farm" / "engines.py")
PROCESSES = load_tool(TOP / "farm" / "processes.py")
pytestmark = pytest.mark.skipif(shutil.which("parallel") is None, reason="GNU parallel is not installed, which runs the farm's processes (Debian: parallel)")


def drawn(folder, seed):
    """A small model of a seed with its decomposition, which takes some hundred steps."""
    lp, dec = folder / f"{seed}.lp", folder / f"{seed}.dec"
    for name, text in zip((lp, dec), CREWS.Model(CREWS.Draws(seed)).texts()):
        name.write_text(text, encoding="ascii")
    return lp, dec


@pytest.fixture(name="plan")
def generated(tmp_path):
    """Such a model, and the first line that `solve` must print of it."""
    return drawn(tmp_path, 3)[0], "optimal 12"


def words(*given, program=PROGRAM, steps=30):
    return [sys.executable, RUN, *map(str, given), "--workers", "2", *(["--steps", str(steps)] if steps else []), "--bprice", str(program)]


def farm(*given, **options):
    """What the farm prints, its status, and what it tells on standard error."""
    ran = subprocess.run(words(*given, **options), capture_output=True, text=True, check=False, timeout=300)
    return ran.stdout, ran.returncode, ran.stderr


def accepted(folder, lp, dec=None):
    """What both checkers say of the tree in a folder."""
    cert = folder / "tree.cert"
    told, status = run("check", lp, cert, *(["--dec", dec] if dec else []))
    assert status == 0, told
    assert CHECKER.check(lp.read_bytes(), cert.read_bytes(), dec.read_bytes() if dec else None) == told.strip()
    return told.removeprefix("accepted ").strip()


def worked(folder):
    """How many certificates of workers were merged."""
    return (folder / "log").read_text().count(" merged ")


def stand_in(tmp_path, text):
    """A program that does something else with leaves than the real one; `turn` is 0 at each third of them."""
    program = tmp_path / "program"
    program.write_text("""#!/usr/bin/env bash
leaf=0
if [[ " $* " == *" --leaf "* ]]; then
    leaf=1
    turn=$(($({ flock 9; echo >>"$0.leaves"; wc -l <"$0.leaves"; } 9>"$0.lock") % 3))
fi
""" + text.replace("PROGRAM", str(PROGRAM)))
    program.chmod(0o755)
    return program


def test_a_part_is_a_certificate_that_goes_back_into_the_tree(plan, tmp_path):
    lp, _ = plan
    bound = int(run("solve", lp, "--steps", 0)[0].split("\n")[1].removeprefix("bound "))
    run("solve", lp, "--steps", 20, "--cert", tmp_path / "tree")
    tree = CERTIFICATES.Tree(tmp_path / "tree")
    (tmp_path / "again").write_bytes(tree.text(tree.claim_of(bound)))
    assert len(tree.open) > 2 and CERTIFICATES.Tree(tmp_path / "again").lines == tree.lines
    assert run("check", lp, tmp_path / "again")[0].startswith(f"accepted bound {bound}")
    counts = CERTIFICATES.count_open(tree)
    pieces = CERTIFICATES.cut(CERTIFICATES.free_pieces(counts, set()), counts, 3)
    assert len(pieces) >= 3 and sum(leaves for leaves, _ in pieces) == len(tree.open) and pieces == sorted(pieces, reverse=True)
    assert {way for _, way in CERTIFICATES.free_pieces(counts, {pieces[0][1]})}.isdisjoint({1, pieces[0][1]})
    for steps, (_, way) in zip((3, 10**6, 10**6), pieces):
        text, number = tree.start(bound, way)
        (tmp_path / "part").write_bytes(text)
        assert run("check", lp, tmp_path / "part")[0].startswith(f"accepted bound {bound}")
        assert run("solve", lp, "--from", tmp_path / "part", "--leaf", number, "--steps", steps, "--cert", tmp_path / "new")[1] == 5
        had, head = tree.steps, CERTIFICATES.read_head(tmp_path / "new")
        assert tree.put(head, pieces[0][1] if way != pieces[0][1] else pieces[1][1], bound) is None and tree.steps == had
        assert steps > 3 or tree.put(head, way, bound, is_whole=True) is None
        assert 0 < tree.put(head, way, bound) <= steps
        assert (way in tree.done) == (steps > 3)
        (tmp_path / "whole").write_bytes(tree.text(tree.claim_of(bound)))
        assert run("check", lp, tmp_path / "whole")[0].startswith(f"accepted bound {bound}")
        assert CERTIFICATES.Tree(tmp_path / "whole").steps == tree.steps


def test_two_workers_find_what_one_search_finds(plan, tmp_path):
    lp, first = plan
    told, status, _ = farm(lp, tmp_path / "dir")
    assert (told.split("\n", 1)[0], status) == (first, 0)
    assert accepted(tmp_path / "dir", lp) == first
    assert worked(tmp_path / "dir") >= 2


@pytest.mark.parametrize("pause", ["0.2", "0"])
def test_workers_look_for_points_while_the_tree_is_planted(tmp_path, pause):
    """Steps that take long, so that some hundred are planted, and others, so that the planting search ends the whole tree."""
    lp = tmp_path / "lots.lp"
    lp.write_text(MODELS.make("lots-4-6")[0], encoding="ascii")
    slow = stand_in(tmp_path, f'if [ $leaf = 0 ]; then sleep {pause}; fi\nexec PROGRAM "$@"\n')
    told, status, noise = farm(lp, tmp_path / "dir", "--alone", 0, program=slow, steps=None)
    first = run("solve", lp)[0].split("\n", 1)[0]
    assert (told.split("\n", 1)[0], status) == (first, 0), noise
    assert run("check", lp, tmp_path / "dir" / "tree.cert") == (f"accepted {first}\n", 0)


@pytest.mark.parametrize("seed, first, status", [(3, "optimal 12", 0), (112, "infeasible", 4)])
def test_with_a_decomposition(tmp_path, seed, first, status):
    lp, dec = drawn(tmp_path, seed)
    told = farm(lp, dec, tmp_path / "dir")
    assert (told[0].split("\n", 1)[0], told[1]) == (first, status)
    assert accepted(tmp_path / "dir", lp, dec) == first
    assert worked(tmp_path / "dir") >= 2


def test_no_point(tmp_path):
    lp, _ = drawn(tmp_path, 112)
    assert farm(lp, "-", tmp_path / "dir")[:2] == ("infeasible\n", 4)
    assert accepted(tmp_path / "dir", lp) == "infeasible"
    assert worked(tmp_path / "dir") >= 2


def test_workers_that_die_cost_their_steps_alone(plan, tmp_path):
    lp, first = plan
    dies = stand_in(tmp_path, 'if [ $leaf = 1 ] && [ $turn = 0 ]; then kill -9 $$; fi\nexec PROGRAM "$@"\n')
    told, status, noise = farm(lp, tmp_path / "dir", program=dies)
    assert (told.split("\n", 1)[0], status) == (first, 0), noise
    assert accepted(tmp_path / "dir", lp) == first
    assert (tmp_path / "dir" / "bprice.leaves").read_text().count("\n") >= 3


@pytest.mark.parametrize("lie", ["s/^claim.*/claim bound x/", "s/^leaf .*/leaf 1 change 1 abc 5 priced 0/", "s/^\\(leaf .* change \\)/\\19/", "s/^claim.*/claim optimal 30/", "$ d", "4,$ d", "s/^bpcert.*/bp/", "s/^leaf .*/leaf 1 change 0 priced 0/", "s/^leaf [0-9]*/leaf x/"])
def test_what_is_no_certificate_is_put_aside(plan, tmp_path, lie):
    """What is wrong is seen at once, as a better point or a text that is none, or once the tree is judged."""
    lp, first = plan
    lies = stand_in(tmp_path, f'if [ $leaf = 1 ] && [ $turn = 0 ]; then PROGRAM "$@"; for last; do :; done; sed -i "{lie}" "$last"; exit 0; fi\nexec PROGRAM "$@"\n')
    told, status, noise = farm(lp, tmp_path / "dir", program=lies)
    assert (told.split("\n", 1)[0], status) == (first, 0), noise
    assert accepted(tmp_path / "dir", lp) == first
    for name in os.listdir(tmp_path / "dir" / "refused"):
        assert f"puts aside {name}\n" in (tmp_path / "dir" / "log").read_text()
    assert os.listdir(tmp_path / "dir" / "refused")


def mutated(draw, text):
    """A text with one to three changes: of a byte, a word, a line or a number."""
    for _ in range(draw.choice((1, 1, 1, 2, 3))):
        kind, place, lines = draw.randrange(6), draw.randrange(len(text) + 1), text.split(b"\n")
        if kind == 0:
            text = text[:place] + bytes([draw.randrange(256)]) + text[place + 1:]
        elif kind == 1:
            text = text[:place] + draw.choice((b"", b"x", b" ", b"\n", b"-", b"0", b"9" * 30, b"9" * 5000, b"\xff", b"\r")) + text[place:]
        elif kind == 2:
            text = text[:place] + text[place + draw.choice((1, 2, 20)):]
        elif kind == 3:
            one, other = draw.sample((b"leaf", b"open", b"split", b"change", b"rows", b"priced", b"bound", b"optimal", b"infeasible", b"value", b"point", b"end", b"1", b"2"), 2)
            text = text.replace(one, other, draw.choice((1, -1)))
        elif kind == 4:
            line = draw.choice(lines)
            lines.insert(draw.randrange(len(lines)), line) if draw.random() < 0.5 else lines.remove(line)
            text = b"\n".join(lines)
        elif numbers := list(re.finditer(rb"-?[0-9]+", text)):
            found = draw.choice(numbers)
            text = text[:found.start()] + str(draw.choice((0, 1, -1, 7, 2**31, -2**63, int(found[0]) + 1, -int(found[0])))).encode() + text[found.end():]
    return text


def test_20_000_damaged_pieces(plan, tmp_path):
    """Whatever bytes come back are refused, or make a tree that can be written and read again. What is refused leaves the tree as it was."""
    lp, _ = plan
    bound = int(run("solve", lp, "--steps", 0)[0].split("\n")[1].removeprefix("bound "))
    run("solve", lp, "--steps", 20, "--cert", tmp_path / "tree")
    tree, pieces = CERTIFICATES.Tree(tmp_path / "tree"), []
    counts = CERTIFICATES.count_open(tree)
    for _, way in CERTIFICATES.cut(CERTIFICATES.free_pieces(counts, set()), counts, 4):
        for steps in (2, 8, 10**6):
            text, number = tree.start(bound, way)
            (tmp_path / "part").write_bytes(text)
            run("solve", lp, "--from", tmp_path / "part", "--leaf", number, "--steps", steps, "--cert", tmp_path / "new")
            pieces.append((way, (tmp_path / "new").read_bytes()))
    draw, count, before = random.Random(52), {"no certificate": 0, "no piece": 0, "put in": 0}, tree.text(tree.claim_of(bound))
    for number in range(20_000):
        way, text = draw.choice(pieces)
        try:
            head = CERTIFICATES.parse_head(mutated(draw, text))
        except ValueError:
            count["no certificate"] += 1
            continue
        CERTIFICATES.shows(head.claim, bound), tree.is_better(head, bound), CERTIFICATES.head_steps(head)
        if tree.put(head, way, bound, is_whole=number % 3 == 0) is None:
            count["no piece"] += 1
            assert number % 50 or tree.text(tree.claim_of(bound)) == before
            continue
        count["put in"] += 1
        again = CERTIFICATES.parse_head(tree.text(tree.claim_of(bound)))
        assert len(again.lines) - again.begin - 1 == tree.steps + len(tree.open) and CERTIFICATES.count_open(tree).get(1, 0) == len(tree.open)
        tree.outline(bound, set())
        tree = CERTIFICATES.Tree(tmp_path / "tree")
    assert min(count.values()) > 500, count


def test_bounds_that_are_weaker_than_the_model_s_own_are_put_aside(plan, tmp_path):
    """A worker brings back a valid certificate that claims next to nothing: the tree would not be valid with it."""
    lp, first = plan
    (tmp_path / "weaken.py").write_text(f"""import sys
sys.path.insert(0, {str(TOP / "farm")!r})
from certificates import Tree
tree = Tree(sys.argv[1])
tree.lines.update((way, b"open 1 rows 1 1 -9999 priced 0\\n") for way in tree.open)
text = tree.text("bound 999999999")
with open(sys.argv[1], "wb") as cert:
    cert.write(text)
""")
    worse = stand_in(tmp_path, 'if [ $leaf = 1 ] && [ "$(wc -l <"$0.leaves")" -lt 4 ]; then PROGRAM "$@"; for last; do :; done; '
                     f'{sys.executable} {tmp_path / "weaken.py"} "$last"; exit 5; fi\nexec PROGRAM "$@"\n')
    told, status, noise = farm(lp, tmp_path / "dir", program=worse)
    assert (told.split("\n", 1)[0], status) == (first, 0), noise
    assert accepted(tmp_path / "dir", lp) == first
    assert os.listdir(tmp_path / "dir" / "refused")


def test_it_ends_where_all_workers_die(plan, tmp_path):
    dies = stand_in(tmp_path, 'if [ $leaf = 1 ]; then exit 9; fi\nexec PROGRAM "$@"\n')
    told, status, noise = farm(plan[0], tmp_path / "dir", program=dies)
    assert (told, status) == ("", 1)
    assert "come to nothing" in noise
    assert accepted(tmp_path / "dir", plan[0]).startswith("bound")


@pytest.mark.parametrize("workers, jobs", [(2, 1), (2, 2), (2, 3), (3, 2), (3, 3)])
def test_the_end_of_each_job_is_told(tmp_path, workers, jobs):
    """However many there are beside the workers, and whether or not another one comes behind them."""
    (tmp_path / "logs").mkdir()
    work = tmp_path / "work"
    work.write_text("#!/usr/bin/env bash\n[ $2 = 0 ] && exit 0\nsleep 0.0$2\nexit 1\n")
    work.chmod(0o755)
    parallel, ended, until = ENGINES.Parallel(PROCESSES.Processes(tmp_path), workers, [], False), [], time.monotonic() + 60
    parallel.give([ENGINES.Job("start", str(number), 5, f"new{number}") for number in range(1, jobs + 1)])
    while len(ended) < jobs and time.monotonic() < until:
        ended += [end.job.new for end in parallel.ended()]
        time.sleep(0.02)
    parallel.stop()
    assert sorted(ended) == [f"new{number}" for number in range(1, jobs + 1)]


def test_the_time_is_over_and_it_goes_on(plan, tmp_path):
    lp, first = plan
    slow = stand_in(tmp_path, 'if [ $leaf = 1 ]; then sleep 0.5; fi\nexec PROGRAM "$@"\n')
    told, status, _ = farm(lp, tmp_path / "dir", "--time", 1.5, program=slow)
    assert status == 5
    claim = accepted(tmp_path / "dir", lp)
    assert claim.startswith("bound") and told.split("\n")[1] in claim
    told, status, _ = farm(lp, tmp_path / "dir")
    assert (told.split("\n", 1)[0], status) == (first, 0)
    assert accepted(tmp_path / "dir", lp) == first


SLOW = 'if [[ " $* " == *" --leaf "* ]]; then sleep 0.3; elif [[ " $* " == *" %s "* ]]; then sleep %s; fi\nexec PROGRAM "$@"\n'


STAGES = {"before a tree": SLOW % ("--cert", 60), "planting": SLOW % ("64", 60), "checking": SLOW % ("check", 60),
          "pieces": 'if [ $leaf = 1 ]; then sleep 60; fi\nexec PROGRAM "$@"\n'}


@pytest.mark.parametrize("stage, end", [
    ("before a tree", signal.SIGTERM), ("planting", "time"), ("checking", "time"), ("checking", signal.SIGTERM),
    ("pieces", "time"), ("pieces", signal.SIGTERM), ("pieces", signal.SIGINT)])
def test_it_ends_at_each_stage(plan, tmp_path, stage, end):
    """Whatever takes long then. The certificate that stands is accepted, where there is one, and a later run goes on from it."""
    lp, first = plan
    folder, steps = tmp_path / "dir", ["--alone", "0"] if stage == "planting" else ["--steps", "30"]
    given = [sys.executable, RUN, lp, folder, "--workers", 2, "--bprice", stand_in(tmp_path, STAGES[stage]), *steps, *(["--time", 1.5] if end == "time" else [])]
    with subprocess.Popen(list(map(str, given)), stdout=subprocess.PIPE, stderr=subprocess.PIPE, text=True) as driver:
        while end != "time" and not (folder / "driver").exists():
            time.sleep(0.02)
        if end != "time":
            time.sleep(1.0)
            driver.send_signal(end)
        begin = time.monotonic()
        told, noise = driver.communicate(timeout=200)
    assert driver.returncode == 5 and "Traceback" not in noise, noise
    assert time.monotonic() - begin < 50
    assert told.startswith("budget ") or stage == "before a tree" and told == ""
    assert not running(tmp_path)
    if (folder / "tree.cert").exists():
        accepted(folder, lp)
    told, status, noise = farm(lp, folder)
    assert (told.split("\n", 1)[0], status) == (first, 0), noise
    assert accepted(folder, lp) == first


def running(folder):
    """The processes that work in a folder."""
    found = []
    for name in filter(str.isdigit, os.listdir("/proc")):
        with contextlib.suppress(OSError):
            if pathlib.Path(os.readlink(f"/proc/{name}/cwd")).is_relative_to(folder):
                found.append(int(name))
    return found


def test_a_driver_ends_the_workers_of_the_one_before(plan, tmp_path):
    """Of a driver that is killed workers go on; those of others go on then too, wherever they work, and whatever mark they have."""
    lp, first = plan
    slow = stand_in(tmp_path, 'if [ $leaf = 1 ]; then sleep 100; fi\nexec PROGRAM "$@"\n')
    with subprocess.Popen(words(lp, tmp_path / "dir", program=slow), stdout=subprocess.DEVNULL, stderr=subprocess.DEVNULL) as driver:
        until = time.monotonic() + 60
        while time.monotonic() < until and not (slow.with_name("program.leaves").exists() or (tmp_path / "dir" / "bprice.leaves").exists()):
            time.sleep(0.05)
        driver.send_signal(signal.SIGKILL)
    left = running(tmp_path / "dir")
    assert left
    with subprocess.Popen(["sleep", "100"], cwd=tmp_path / "dir", env={**os.environ, PROCESSES.NAME: "0" * 32}) as stranger:
        told, status, noise = farm(lp, tmp_path / "dir")
        assert (told.split("\n", 1)[0], status) == (first, 0), noise
        assert stranger.poll() is None and running(tmp_path / "dir") == [stranger.pid]
        stranger.kill()
    assert accepted(tmp_path / "dir", lp) == first


def test_one_search_that_ends_first_is_taken(plan, tmp_path):
    lp, first = plan
    slow = stand_in(tmp_path, 'if [[ " $* " == *" --steps "[1-9]* ]]; then sleep 20; fi\nexec PROGRAM "$@"\n')
    told, status, noise = farm(lp, tmp_path / "dir", "--second-check", 60, program=slow, steps=None)
    assert (told.split("\n", 1)[0], status) == (first, 0), noise
    assert "one search has closed the tree" in noise and "check_certificate.py answers accepted" in (tmp_path / "dir" / "log").read_text()
    assert told == run("solve", lp)[0] and accepted(tmp_path / "dir", lp) == first and "handed out" not in (tmp_path / "dir" / "log").read_text()


def test_a_second_check_has_a_limit(plan, tmp_path):
    lp, first = plan
    told, status, noise = farm(lp, tmp_path / "dir", "--second-check", 0.000001)
    assert (told.split("\n", 1)[0], status) == (first, 0)
    assert "not judged" in noise


@pytest.mark.parametrize("seconds", [0.5, 1.0])
def test_a_driver_that_is_killed_is_taken_up_again(plan, tmp_path, seconds):
    lp, first = plan
    slow = stand_in(tmp_path, 'if [ $leaf = 1 ]; then sleep 0.2; fi\nexec PROGRAM "$@"\n')
    with subprocess.Popen(words(lp, tmp_path / "dir", program=slow), stdout=subprocess.DEVNULL, stderr=subprocess.DEVNULL) as driver:
        time.sleep(seconds)
        driver.send_signal(signal.SIGKILL)
    told, status, _ = farm(lp, tmp_path / "dir")
    assert (told.split("\n", 1)[0], status) == (first, 0)
    assert accepted(tmp_path / "dir", lp) == first


def test_a_folder_is_for_one_model(plan, tmp_path):
    lp, first = plan
    assert farm(lp, tmp_path / "dir")[1] == 0
    other, _ = drawn(tmp_path, 112)
    told, status, noise = farm(other, tmp_path / "dir")
    assert (told, status) == ("", 2) and "is another one" in noise
    told, status, noise = farm(lp, lp.with_suffix(".dec"), tmp_path / "dir")
    assert (told, status) == ("", 2) and "without a decomposition" in noise
    assert accepted(tmp_path / "dir", lp) == first


def test_texts_that_are_refused(tmp_path):
    (tmp_path / "bad.lp").write_text("Minimize\nx\n")
    assert farm(tmp_path / "bad.lp", tmp_path / "dir")[:2] == ("refused lp 3 no-end\n", 3)
    assert farm(tmp_path / "gone.lp", tmp_path / "other")[:2] == ("", 11)


def test_what_slurm_is_given(plan, tmp_path):
    told, status, _ = farm(plan[0], tmp_path / "dir", "--engine", "slurm", "--sbatch=--partition=long", "--dry-run")
    assert status == 0
    assert re.search(r"sbatch --parsable .*--array=1-2 .*--partition=long work lists/", told)
    assert len(re.findall(r"^# starts/\S+ \d+ 30 news/\S+\.cert$", told, flags=re.MULTILINE)) == 2
    assert accepted(tmp_path / "dir", plan[0]).startswith("bound")
