"""Where the program meets its files: what is not begun since files stand in its way, and what is told of a report where it or a
certificate could not be written."""
import os
import subprocess

import pytest

from conftest import PROGRAM

MODEL = """Maximize
 obj: 3 x + 2 y
Subject To
 c1: 2 x + y <= 5
Bounds
 x <= 3
 y <= 3
Generals
 x y
End
"""
REPORT = "optimal 9\nx 1\ny 3\n"
LOST = "bprice: the report would have been\n"

# Words that name one file twice, with the two names that the note tells.
SHARED = [
    ("solve own.lp --cert own.lp", "own.lp", "own.lp"),
    ("solve own.lp --cert ./own.lp", "./own.lp", "own.lp"),
    ("solve --cert=linked.lp -- own.lp", "linked.lp", "own.lp"),
    ("solve own.lp --cert hard.lp", "hard.lp", "own.lp"),
    ("solve linked.lp --cert own.lp", "own.lp", "linked.lp"),
    ("solve own.lp --dec own.dec --cert sub/../own.dec", "sub/../own.dec", "own.dec"),
    ("detect own.lp rows other/../rows", "other/../rows", "rows"),
    ("detect own.lp rows linked.lp", "linked.lp", "own.lp"),
    ("propose own.lp linked.lp", "linked.lp", "own.lp"),
    ("merge own.lp own.cert own.cert ./own.lp", "./own.lp", "own.lp"),
    ("merge own.lp own.cert own.cert own.dec --dec own.dec", "own.dec", "own.dec"),
    ("migrate own.lp own.cert hard.lp", "hard.lp", "own.lp"),
    ("gen 1 2 own.lp linked.lp", "own.lp", "linked.lp"),
    ("gen 1 2 new.lp new.lp", "new.lp", "new.lp"),
    ("gen 1 2 new.lp ./new.lp", "new.lp", "./new.lp"),
    ("gen 1 2 sub/new.lp other/new.lp", "sub/new.lp", "other/new.lp"),
    ("gen 1 2 pending new.lp", "pending", "new.lp"),
    ("gen 1 2 sub/pending new.lp", "sub/pending", "new.lp"),
]


def told(words, room, out=subprocess.PIPE):
    ran = subprocess.run([PROGRAM, *words.split()], stdout=out, stderr=subprocess.PIPE, check=False, timeout=60, cwd=room)
    return ran.returncode, (ran.stdout or b"").decode(), ran.stderr.decode()


def listing(room):
    """The files of a folder with their bytes, and the links."""
    return {path.relative_to(room): path.is_symlink() or path.is_dir() or path.read_bytes() for path in room.rglob("*")}


@pytest.fixture(name="room")
def room_fixture(tmp_path):
    (tmp_path / "own.lp").write_text(MODEL)
    assert told("solve own.lp --cert own.cert", tmp_path) == (0, REPORT, "")
    (tmp_path / "own.dec").write_text("NBLOCKS 1\nBLOCK 1\n c1\n")
    (tmp_path / "rows").write_text("c1\n")
    (tmp_path / "linked.lp").symlink_to("own.lp")
    os.link(tmp_path / "own.lp", tmp_path / "hard.lp")
    (tmp_path / "sub").mkdir()
    (tmp_path / "other").symlink_to("sub")
    (tmp_path / "pending").symlink_to("new.lp")
    (tmp_path / "sub/pending").symlink_to("../pending")
    return tmp_path


@pytest.mark.parametrize("words, written, other", SHARED)
def test_one_file_is_not_read_and_written(room, words, written, other):
    before = listing(room)
    assert told(words, room) == (125, "", f"bprice: {written} would be written, and is the same file as {other}: nothing was started\n")
    assert listing(room) == before


def test_a_certificate_may_be_read_and_written(room):
    for words, report in (("solve own.lp --from own.cert --cert own.cert", REPORT), ("solve own.lp --from own.cert --cert ./own.cert", REPORT),
                          ("merge own.lp own.cert own.cert own.cert", "merged open 0\naccepted optimal 9\n"), ("migrate own.lp own.cert ./own.cert", "migrated 1\n")):
        assert told(words, room) == (0, report, "")
        assert told("check own.lp own.cert", room) == (0, "accepted optimal 9\n", "")


def test_two_new_files_are_written(room):
    for words in ("gen 1 2 new.lp new.dec", "gen 1 2 sub/one one", "gen 1 2 sub/two ./other/three"):
        assert told(words, room) == (0, "made variables 8 rows 6\n", "")


def test_words_that_are_refused_name_no_file(room):
    status, out, _ = told("solve own.lp --cert own.lp --cert own.lp", room)
    assert (status, out) == (2, "refused words\n")


@pytest.mark.parametrize("words", ["solve own.lp --cert", "merge own.lp own.cert own.cert", "migrate own.lp own.cert"])
@pytest.mark.parametrize("name, reason", [("no/c", "its folder is not there"), ("own.lp/c", "its folder is not there"), ("sub", "it is a folder"),
                                          ("/sys/c", "it may not be written"), ("c" * 300, "its name is too long")])
def test_a_certificate_that_can_not_be_written(room, words, name, reason):
    before = listing(room)
    assert told(f"{words} {name}", room) == (125, "", f"bprice: {name} could not be written: {reason}: nothing was started\n")
    assert listing(room) == before


@pytest.mark.skipif(os.geteuid() == 0, reason="root may write everywhere")
def test_a_folder_and_a_file_that_may_not_be_written(room):
    (room / "sub").chmod(0o555)
    (room / "own.cert").chmod(0o444)
    for name in ("sub/c", "own.cert"):
        assert told(f"solve own.lp --cert {name}", room) == (125, "", f"bprice: {name} could not be written: it may not be written: nothing was started\n")


def test_looking_leaves_no_file_and_changes_none(room):
    (room / "own.lp").write_text(MODEL.replace("End\n", ""))
    before = listing(room)
    kept = (room / "own.cert").stat().st_mtime_ns
    for name in ("c", "own.cert", "sub/pending"):
        status, out, _ = told(f"solve own.lp --cert {name}", room)
        assert (status, out) == (3, "refused lp 10 no-end\n")
    assert listing(room) == before
    assert (room / "own.cert").stat().st_mtime_ns == kept


def test_a_pipe_is_not_opened_before(room):
    os.mkfifo(room / "pipe")
    reader = os.open(room / "pipe", os.O_RDONLY | os.O_NONBLOCK)
    try:
        assert told("solve own.lp --cert pipe", room) == (0, REPORT, "")
        assert os.read(reader, 4096).startswith(b"bpcert 2\nclaim optimal 9\npoint 1 3\n")
    finally:
        os.close(reader)


@pytest.mark.parametrize("words, report", [
    ("solve own.lp --cert /dev/full", REPORT),
    ("solve own.lp --dec own.dec --cert /dev/full", REPORT),
    ("solve own.lp --from own.cert --cert /dev/full", REPORT),
    ("solve own.lp --steps 0 --cert=/dev/full", "budget 0\nbound 15\n"),
    ("solve empty.lp --cert /dev/full", "infeasible\n"),
])
def test_a_disk_that_is_full(room, words, report):
    (room / "empty.lp").write_text(MODEL.replace("<= 5", ">= 50"))
    plain, expected, _ = told(words.replace("/dev/full", "c"), room)
    assert expected == report and plain in (0, 4, 5)
    assert told(words, room) == (8, "", "bprice: /dev/full: it could not be written; no space left\n" + LOST + report)


def test_a_budget_that_could_not_be_written(room):
    assert told("gen 1 6 g.lp g.dec", room)[0] == 0
    assert told("solve g.lp --steps 1 --cert c", room)[0] == 5
    for words in ("solve g.lp --steps 2 --cert CERT", "solve g.lp --from c --steps 2 --cert CERT", "solve g.lp --from c --workers 3 --steps 2 --cert CERT"):
        status, report, _ = told(words.replace("CERT", "d"), room)
        assert status == 5 and report.startswith("budget 2\n")
        assert told(words.replace("CERT", "/dev/full"), room) == (8, "", "bprice: /dev/full: it could not be written; no space left\n" + LOST + report)
    words = "solve g.lp --from c --leaf 1 --steps 2 --cert CERT"
    status, report, _ = told(words.replace("CERT", "d"), room)
    assert status == 5
    assert told(words.replace("CERT", "/dev/full"), room) == (8, "", "bprice: /dev/full: it could not be written; no space left\n" + LOST + report)


@pytest.mark.parametrize("words", ["merge own.lp own.cert own.cert NEW", "migrate own.lp own.cert NEW", "detect own.lp rows NEW",
                                   "propose own.lp NEW", "gen 1 2 NEW new.dec", "gen 1 2 new.lp NEW"])
def test_a_report_is_not_lost_where_its_file_could_not_be_written(room, words):
    status, report, note = told(words.replace("NEW", "written"), room)
    assert (status, note) == (0, "") and report
    assert told(words.replace("NEW", "/dev/full"), room) == (8, "", "bprice: /dev/full: it could not be written; no space left\n" + LOST + report)


def test_an_output_that_is_full(room):
    assert told("gen 1 300 g.lp g.dec", room)[0] == 0
    for words in ("solve own.lp", "show g.lp --dec g.dec --blocks", "check own.lp own.cert", "demo 0 1", "merge own.lp own.cert own.cert new", "migrate own.lp own.cert new",
                  "detect own.lp rows new", "propose own.lp new", "gen 1 2 new new.dec", "solve no.lp --steps", "check own.lp own.lp"):
        _, report, _ = told(words, room)
        with open("/dev/full", "wb") as full:
            assert told(words, room, out=full) == (8, "", "bprice: the standard output could not be written; no space left\n" + LOST + report)
    assert len(told("show g.lp --dec g.dec --blocks", room)[1]) > 4096


def test_an_output_without_a_reader(room):
    reader, writer = os.pipe()
    os.close(reader)
    try:
        assert told("solve own.lp", room, out=writer) == (8, "", "bprice: the standard output could not be written; is its reader gone?\n" + LOST + REPORT)
    finally:
        os.close(writer)
