"""migrate: certificates of each version, written anew in version 2, or in 3 with cuts, of which both checkers say what they say of the old text."""
import random
import re

import pytest

from conftest import TOP, knows, load_tool, run
from test_check_certificate import EXAMPLES, Room, mutated, solved, text_of

certificates = load_tool(TOP / "farm" / "certificates.py")

pytestmark = pytest.mark.skipif(not knows("migrate", "none.lp", "none", "none"), reason="the program has no `migrate`")


@pytest.fixture(name="room")
def room_fixture(tmp_path):
    return Room(tmp_path)


def migrated(room, lp, cert, dec=None):
    """What is printed, and the text that stands in the new file; where the old text can't be read, what stood there."""
    room.told(lp, cert, dec)
    (room.path / "new").write_bytes(b"what stood here")
    report, status = run("migrate", "lp", "cert", "new", *(["--dec", "dec"] if dec else []), cwd=room.path)
    return report, status, (room.path / "new").read_bytes()


def agree(room, lp, cert, dec=None):
    """The new text, once both checkers say the same of it as of the old one."""
    told = room.agree(lp, cert, dec)
    report, status, new = migrated(room, lp, cert, dec)
    if told.startswith("refused "):
        assert (report, status, new) == (told + "\n", 3, b"what stood here")
        return cert
    assert (report, status) == (f"migrated {len(re.findall(rb'^(?:leaf|open|split) ', cert, re.MULTILINE))}\n", 0)
    assert new.startswith(b"bpcert 3\n" if has_cuts(new) else b"bpcert 2\n") and room.agree(lp, new, dec) == told
    assert migrated(room, lp, new, dec)[2] == new
    return new


def has_cuts(cert):
    """Whether a certificate has cuts, so that its text is of version 3 alone."""
    return b"\ncut " in cert


def in_version_1(room, cert):
    """A certificate's tree in version 1, under its own claim."""
    (room.path / "cert").write_bytes(cert)
    tree = certificates.Tree(room.path / "cert")
    nodes, ways = [], [1]
    while ways:
        way = ways.pop()
        nodes.append(tree.lines[way])
        if nodes[-1].startswith(b"split "):
            ways += [2 * way + 1, 2 * way]
    return b"".join([b"bpcert 1\nclaim ", tree.claim.encode(), b"\n", tree.point, *nodes, b"end\n"])


@pytest.mark.parametrize("lp, cert, dec", EXAMPLES)
def test_examples(room, lp, cert, dec):
    lp, cert, dec = map(text_of, (lp, cert, dec))
    new = agree(room, lp, cert, dec)
    if not has_cuts(cert):
        assert agree(room, lp, in_version_1(room, cert), dec) == new


@pytest.mark.parametrize("steps", (0, 1, 7, 40))
def test_generated_models(room, steps):
    run("gen", 5, 12, "lp", "dec", cwd=room.path)
    lp = (room.path / "lp").read_bytes()
    cert = solved(room, lp, None, steps)
    assert agree(room, lp, cert) == agree(room, lp, in_version_1(room, cert)) == cert


@pytest.mark.parametrize("seed, example", enumerate(EXAMPLES))
def test_mutated_certificates(room, seed, example):
    lp, cert, dec = map(text_of, example)
    draw = random.Random(200 + seed)
    for old in (cert,) if has_cuts(cert) else (cert, in_version_1(room, cert)):
        for _ in range(15):
            agree(room, lp, mutated(draw, old), dec)


def test_one_name_for_both(room):
    lp, cert, _ = map(text_of, EXAMPLES[3])
    old = in_version_1(room, cert)
    room.told(lp, old)
    assert run("migrate", "lp", "cert", "cert", cwd=room.path)[1] == 0
    assert (room.path / "cert").read_bytes() == agree(room, lp, old)
