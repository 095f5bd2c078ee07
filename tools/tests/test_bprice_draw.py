"""bprice-draw: what its pictures show, and what it says where there is nothing to draw."""
import re
import subprocess
import sys

import pytest

from conftest import TOP, load_tool, run

pytest.importorskip("matplotlib")
TOOL = TOP / "tools" / "bprice-draw"
EXAMPLES = TOP / "examples"
draw = load_tool(TOOL)


def told(*words, **options):
    ran = subprocess.run([sys.executable, TOOL, *map(str, words)], capture_output=True, text=True, check=False, **options)
    return ran.stdout + ran.stderr, ran.returncode


def test_matrix(tmp_path):
    """Two identical blocks of six variables and one of its own; a cell for each coefficient."""
    words = ["matrix", EXAMPLES / "routing/model.lp", "--dec", EXAMPLES / "routing/model.dec"]
    assert told(*words, tmp_path / "a.svg") == ("", 0) == told(*words, tmp_path / "b.svg")
    text = (tmp_path / "a.svg").read_text()
    assert (tmp_path / "b.svg").read_text() == text
    assert "class 1: 2 blocks of 6 variables, 1 row<" in text and "class 2: 1 block of 6 variables, 1 row<" in text
    assert "master rows (5)" in text and "18 variables, block by block" in text
    assert told(*words, tmp_path / "a.png") == ("", 0)
    assert (tmp_path / "a.png").read_bytes().startswith(b"\x89PNG")


def test_links(tmp_path):
    """A variable of two blocks has a column in each, and a link row below the master rows."""
    words = "matrix", EXAMPLES / "shared-machine/model.lp", "--dec", EXAMPLES / "shared-machine/model.dec"
    assert told(*words, tmp_path / "a.svg") == ("", 0)
    text = (tmp_path / "a.svg").read_text()
    assert "links (1)" in text and "master rows" not in text and "10 copies of variables, block by block" in text
    assert text.count("1 block of 5 variables, 1 row<") == 2


@pytest.mark.parametrize("folder", ["cutting-stock", "rostering", "routing", "assignment", "shared-machine"])
def test_classes(folder):
    """The classes that are coloured are those of `show`."""
    model = draw.texts.Model((EXAMPLES / folder / "model.lp").read_bytes())
    block_of, blocks, links = draw.texts.form_blocks(model, *draw.texts.read_dec((EXAMPLES / folder / "model.dec").read_bytes(), model))
    classes = draw.classes_of(model, block_of, blocks, links)
    report, _ = run("show", EXAMPLES / folder / "model.lp", "--dec", EXAMPLES / folder / "model.dec")
    shown = re.findall(r"class \d+ first (\d+) size (\d+) variables (\d+) rows ([1-9]\d*)", report)
    own = [(classes.index(kind) + 1, classes.count(kind)) for kind in sorted(set(classes) - {None})]
    assert own == [(int(first), int(size)) for first, size, _, _ in shown]


def tree_of(folder, cert):
    model = draw.texts.Model((EXAMPLES / folder / "model.lp").read_bytes())
    block_of, blocks, links = draw.texts.form_blocks(model, *draw.texts.read_dec(b"NBLOCKS 0", model))
    cert = draw.texts.Certificate(cert, len(model.names), block_of, len(blocks))
    judge = draw.texts.Judge(model, blocks, links, 1000)
    judge.add_cuts(cert.cuts)
    return draw.Tree(model, cert, judge)


def test_tree(tmp_path):
    cert = (EXAMPLES / "routing/model.cert").read_bytes()
    dot = tree_of("routing", cert).dot(100)
    splits, leaves = cert.count(b"\nsplit "), cert.count(b"\nleaf ")
    assert len(re.findall(r"^ n\d+ \[label", dot, re.MULTILINE)) == splits + leaves and dot.count("->") == 2 * splits
    assert 'n0 [label="bound 37\\nsplit ' in dot and "no point" in dot and "≤ 0" in dot and "≥ 1" in dot
    folded = tree_of("routing", cert).dot(5)
    assert len(re.findall(r"^ n\d+ \[label", folded, re.MULTILINE)) <= 5
    assert sum(map(int, re.findall(r"(\d+) leaves", folded))) + len(re.findall(r'label="(?:bound \d+|no point)", ', folded)) == leaves
    for name in ("t.svg", "t.png"):
        assert told("tree", EXAMPLES / "routing/model.lp", EXAMPLES / "routing/model.cert", tmp_path / name) == ("", 0)
    assert "bay_n1" in (tmp_path / "t.svg").read_text()


def test_cuts(tmp_path):
    """A leaf's bound is over the rows of cuts too."""
    cert = (EXAMPLES / "odd-order/model.cert").read_bytes()
    assert 'n0 [label="no point", ' in tree_of("odd-order", cert).dot(10)
    assert 'n0 [label="bound 0", ' in tree_of("odd-order", cert.replace(b"leaf 0 change 2 2 1 3 1", b"leaf 1 change 0")).dot(10)
    assert told("tree", EXAMPLES / "odd-order/model.lp", EXAMPLES / "odd-order/model.cert", tmp_path / "t.svg") == ("", 0)


def test_open_leaves(tmp_path):
    run("solve", EXAMPLES / "routing/model.lp", "--steps", 2, "--cert", tmp_path / "cert")
    dot = tree_of("routing", (tmp_path / "cert").read_bytes()).dot(100)
    assert dot.count("\\nopen") == (tmp_path / "cert").read_bytes().count(b"\nopen ")


def test_progress(tmp_path):
    (tmp_path / "log").write_text("other\nsteps 0  bound 0  open 1  0.0 s\nsteps 9  bound 20  value 31  gap 35.48%  open 4  1.0 s\n"
                                  "steps 30  bound 30  value 30  gap 0.00%  open 0  2.0 s\n")
    for name in ("p.svg", "p.png"):
        assert told("progress", "log", name, cwd=tmp_path) == ("", 0)
    text = (tmp_path / "p.svg").read_text()
    assert ">bound<" in text and ">value<" in text and ">steps<" in text


def test_what_is_wrong(tmp_path):
    lp = EXAMPLES / "first.lp"
    assert told("matrix", lp, tmp_path / "a.gif") == ("bprice-draw: the picture's name ends in .svg or .png\n", 1)
    assert told("matrix", tmp_path / "none", tmp_path / "a.svg")[1] == 1
    (tmp_path / "log").write_text("nothing\n")
    assert "no line of bprice-run's progress" in told("progress", tmp_path / "log", tmp_path / "a.svg")[0]
    assert told("tree", lp, lp, tmp_path / "a.svg") == ("bprice-draw: refused cert 1 syntax\n", 1)
