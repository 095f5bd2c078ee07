"""merge: certificates of ten budgets of one model, by twos and by threes in every order."""
import itertools

import pytest

from conftest import TOP, knows, load_tool, run

checker = load_tool(TOP / "tools" / "check_certificate.py")
BUDGETS = (0, 1, 2, 3, 5, 8, 13, 21, 34, 55)

pytestmark = pytest.mark.skipif(not knows("merge", "none.lp", "none", "none", "none"), reason="the program has no `merge`")


@pytest.fixture(name="room", scope="module")
def room_fixture(tmp_path_factory):
    """A model that takes many steps without its decomposition, and what is found in each budget by one search and by one of four workers."""
    room = tmp_path_factory.mktemp("merge")
    run("gen", 5, 20, "lp", "dec", cwd=room)
    for steps in BUDGETS:
        run("solve", "lp", "--steps", steps, "--cert", f"one{steps}", cwd=room)
        run("solve", "lp", "--steps", steps, "--cert", f"four{steps}", "--workers", 4, "--order", steps, cwd=room)
    return room


def claim(room, cert):
    """The bound and the value of a certificate that is accepted here and by the checker for strangers."""
    report, status = run("check", "lp", cert, cwd=room)
    assert status == 0 and report == checker.check((room / "lp").read_bytes(), (room / cert).read_bytes()) + "\n"
    words = report.split()[1:]
    told = dict(zip(words[::2], words[1::2]))
    return int(told.get("bound", told.get("optimal"))), float(told.get("value", told.get("optimal", "inf")))


def merge(room, first, second, new):
    """The text that two certificates are merged to, and what is told of it behind the number of its open leaves."""
    report, status = run("merge", "lp", first, second, new, cwd=room)
    head, told = report.split("\n", 1)
    text = (room / new).read_text()
    assert (status, head) == (0, f"merged open {text.count(chr(10) + 'open ')}")
    return text, told


def merged(room, first, second, new):
    """The same; it is told what `check` tells, and the bound and the value are no worse than those of either."""
    text, told = merge(room, first, second, new)
    assert told == run("check", "lp", new, cwd=room)[0]
    (low, high), others = claim(room, new), [claim(room, first), claim(room, second)]
    assert low >= max(it[0] for it in others) and high == min(it[1] for it in others)
    return text


def open_leaves(text):
    """The way to each open leaf of a certificate, each split with the part that is taken there, and the leaf with all its multipliers."""
    leaves, below, had = [], [[]], {}
    for line in text.split("\n"):
        word = line.split(" ", 1)[0]
        if word == "split":
            path = below.pop()
            below += [[*path, (line, 2)], [*path, (line, 1)]]
        elif word in ("leaf", "open"):
            path, words = below.pop(), line.split(" ")
            behind = 4 + 2 * int(words[3])
            had.update(zip(words[4:behind:2], words[5:behind:2]))
            if word == "open":
                leaves.append((path, words[1], sorted(pair for pair in had.items() if pair[1] != "0"), words[behind:]))
    assert not below
    return leaves


def test_twos(room):
    for first, second in itertools.product(BUDGETS, repeat=2):
        text = merged(room, f"one{first}", f"one{second}", "new")
        assert open_leaves(text) == open_leaves(merged(room, f"one{second}", f"one{first}", "other"))
        if first == second:
            assert open_leaves(text) == open_leaves((room / f"one{first}").read_text())


def test_crews(room):
    for first, second in itertools.product(BUDGETS, repeat=2):
        merged(room, f"one{first}", f"four{second}", "new")
        merged(room, f"four{second}", f"one{first}", "new")


def test_threes(room):
    for a, b in itertools.permutations(BUDGETS, 2):
        merge(room, f"one{a}", f"one{b}", f"two{a}-{b}")
    for three in itertools.combinations(BUDGETS, 3):
        found = []
        for a, b, c in itertools.permutations(three):
            for pair in ((f"two{a}-{b}", f"one{c}"), (f"one{c}", f"two{a}-{b}")):
                found.append(open_leaves(merge(room, *pair, "new")[0]))
        assert all(it == found[0] for it in found)
