"""Small stacks: what each command answers on inputs that are long or deep, within 256 KiB of stack."""
import resource

import pytest

from conftest import knows, run

STACK = 256 << 10
MODEL = b"Minimize\n obj: x\nSubject To\n c: x >= 0\nBounds\n x <= 1000000000\nGenerals\n x\nEnd\n"
LEAF = b"open 1 change 0 priced 0\n"


def shrink():
    """Gives the process that is about to start a small stack."""
    resource.setrlimit(resource.RLIMIT_STACK, (STACK, STACK))


def within(room, *words):
    """What the program prints in this folder within a small stack, and its status; below 0 it is the signal that ended it."""
    return run(*words, cwd=room, preexec_fn=shrink)


def chain(splits, high):
    """A certificate of a chain of so many splits, each in the high or the low part of the one before it."""
    if high:
        nodes = [b"split 1 %d\n%s" % (at, LEAF) for at in range(splits)] + [LEAF]
    else:
        nodes = [b"split 1 %d\n" % at for at in range(splits, 0, -1)] + [LEAF] * (splits + 1)
    return b"".join([b"bpcert 2\nclaim bound 0\n", *nodes, b"end\n"])


@pytest.fixture(name="room")
def room_fixture(tmp_path):
    (tmp_path / "lp").write_bytes(MODEL)
    return tmp_path


@pytest.mark.parametrize("high", (False, True))
@pytest.mark.parametrize("splits", (1000, 8256))
def test_check_of_chains(room, splits, high):
    (room / "cert").write_bytes(chain(splits, high))
    assert within(room, "check", "lp", "cert") == ("accepted bound 0\n", 0)


BUDGET = ("budget 2\nbound 0\nvalue 0\nx 0\n", 5)
# What commands that keep the tree answer on a chain of so many splits.
WALKS = {
    "going on": (["solve", "lp", "--from", "cert", "--steps", 2], lambda splits: BUDGET),
    "going on with a certificate": (["solve", "lp", "--from", "cert", "--steps", 2, "--cert", "new"], lambda splits: BUDGET),
    "below one leaf": (["solve", "lp", "--from", "cert", "--leaf", 1, "--steps", 2], lambda splits: ("budget 1\nbound 0\nvalue 0\nx 0\n", 5)),
    "merging": (["merge", "lp", "cert", "cert", "new"], lambda splits: (f"merged open {splits + 1}\naccepted bound 0\n", 0)),
    "migrating": (["migrate", "lp", "cert", "new"], lambda splits: (f"migrated {2 * splits + 1}\n", 0)),
}


@pytest.mark.parametrize("name", WALKS)
@pytest.mark.parametrize("high", (False, True))
@pytest.mark.parametrize("splits", (1000, 8000))
def test_walks_over_chains(room, name, splits, high):
    words, answer = WALKS[name]
    if not knows(*words):
        pytest.skip(f"the program has no `{words[0]}`")
    (room / "cert").write_bytes(chain(splits, high))
    assert within(room, *words) == answer(splits)
    if "new" in words:
        told, status = within(room, "check", "lp", "new")
        assert status == 0 and told.startswith("accepted bound 0")


@pytest.mark.parametrize("name", ("going on", "merging", "migrating"))
@pytest.mark.parametrize("high", (False, True))
def test_walks_over_chains_of_a_large_model(room, name, high):
    words, answer = WALKS[name]
    (room / "cert").write_bytes(chain(100_000, high))
    assert within(room, *words, "--large") == answer(100_000)


@pytest.mark.parametrize("high", (False, True))
def test_walks_over_the_deepest_chain(room, high):
    (room / "cert").write_bytes(chain(8256, high))
    line = 3 + (2 * 8256 if high else 8256)
    for words, _ in WALKS.values():
        if words[0] != "migrate" and knows(*words):
            assert within(room, *words) == (f"refused from {line} depth\n", 3)
    assert not knows("migrate") or within(room, "migrate", "lp", "cert", "new") == ("migrated 16513\n", 0)


@pytest.mark.parametrize("words", (["check", "lp", "cert"], ["solve", "lp", "--from", "cert"], ["merge", "lp", "cert", "cert", "new"], ["migrate", "lp", "cert", "new"]))
@pytest.mark.parametrize("high", (False, True))
def test_chains_that_are_too_deep(room, words, high):
    if not knows(*words):
        pytest.skip(f"the program has no `{words[0]}`")
    (room / "cert").write_bytes(chain(20_000, high))
    line = 4 + (2 * 8256 if high else 8256)
    assert within(room, *words) == (f"refused cert {line} depth\n", 3)
    assert not (room / "new").exists()


def long_model(terms):
    """A model with a row of so many terms, a bound and a listed name for each."""
    names = [f"x{number}" for number in range(terms)]
    return "\n".join(["Minimize", " x0", "Subject To", " c:", *(f" + {name}" for name in names), " >= 1", "Binaries", *names, "End", ""])


TEXTS = {
    "a long row": (long_model(2000), ("optimal 0\n", 0)),
    "signs": ("Minimize\n x" + " +" * 40_000 + " y\nSubject To\n c: x >= 1\nBounds\n x <= 9\n y <= 9\nGenerals\n x y\nEnd\n", ("optimal 1\n", 0)),
    "comments": ("Minimize\n x\n" + "\\ no\n" * 40_000 + "Subject To\n c: x >= 1\nBounds\n x <= 9\nGenerals\n x\nEnd\n", ("optimal 1\n", 0)),
    "no end": ("Minimize\n x" + " + x" * 20_000, ("refused lp 2 no-end\n", 3)),
}


@pytest.mark.parametrize("name", TEXTS)
def test_long_texts(room, name):
    text, (first, status) = TEXTS[name]
    (room / "lp").write_text(text)
    for words in (["solve", "lp"], ["solve", "lp", "--workers", 3], ["show", "lp"]):
        told, ended = within(room, *words)
        assert ended == status
        assert words[0] == "show" or told.startswith(first)


def test_long_decompositions(room):
    rows = [f" r{number}: x{number} + y >= 0" for number in range(2000)]
    names = ["y", *(f"x{number}" for number in range(2000))]
    (room / "lp").write_text("\n".join(["Minimize", " y", "Subject To", *rows, "Binaries", *names, "End", ""]))
    (room / "dec").write_text("\n".join(["NBLOCKS 2000", *(f"BLOCK {number + 1}\nr{number}" for number in range(2000)), ""]))
    (room / "rows").write_text("\n".join(f"r{number}" for number in range(0, 2000, 2)))
    told, status = within(room, "show", "lp", "--dec", "dec")
    assert status == 0 and told
    for words in (["detect", "lp", "rows", "found"], ["propose", "lp", "found"]):
        assert not knows(*words) or within(room, *words)[1] == 0


def test_generated_models(room):
    assert within(room, "gen", 5, 40, "lp", "dec")[1] == 0
    assert within(room, "solve", "lp", "--dec", "dec", "--steps", 20, "--cert", "cert")[1] in (0, 5)
    assert within(room, "check", "lp", "cert", "--dec", "dec")[1] == 0
    assert within(room, "demo", 5, 12)[1] in (0, 4)
