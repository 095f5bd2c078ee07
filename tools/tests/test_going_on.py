"""solve --from: a search that is stopped after any number of steps comes to the answer of one that was not, also by a crew; and of what is
no certificate of the model it says what the checker for strangers says, with every file as it was."""
import random
import re
import resource

import pytest

from conftest import TOP, load_tool, run
from test_check_certificate import STATUS, mutated

checker = load_tool(TOP / "tools" / "check_certificate.py")
crews = load_tool(TOP / "bench" / "crews.py")


def blocks(many):
    """The LP and the DEC text of so many identical blocks, each with a best value of 10, and a row over all that has room for every point."""
    numbers = range(1, many + 1)
    lines = ["Maximize", *(f" + 5 a{k} + 4 b{k}" for k in numbers), "Subject To", *(f"k{k}: 3 a{k} + 2 b{k} <= 6" for k in numbers),
             "m:", *(f" + a{k} + b{k}" for k in numbers), "<= 100", "Bounds", *(f"a{k} <= 2\nb{k} <= 2" for k in numbers),
             "Generals", *(f"a{k} b{k}" for k in numbers), "End"]
    return "\n".join(lines) + "\n", "\n".join([f"NBLOCKS {many}", *(f"BLOCK {k} k{k}" for k in numbers)]) + "\n"


def drawn(seed):
    """The texts of a small random model."""
    return crews.Model(crews.Draws(seed)).texts()


class Room:
    """A folder with a model, the words that name its texts, and what `solve` must answer."""

    def __init__(self, path, texts, has_dec):
        self.path, self.words = path, ["lp", "--dec", "dec"] if has_dec else ["lp"]
        self.lp, dec = (text.encode() for text in texts)
        self.dec = dec if has_dec else None
        for name, text in self.texts().items():
            (path / name).write_bytes(text)
        self.first = self.solve()[0].split("\n", 1)[0]

    def texts(self):
        return {"lp": self.lp, "dec": self.dec} if self.dec else {"lp": self.lp}

    def solve(self, *words):
        return run("solve", *self.words, *words, cwd=self.path)

    def begins(self, *words):
        """The first line of what `solve` prints."""
        return self.solve(*words)[0].split("\n", 1)[0]

    def cert(self, name):
        return (self.path / name).read_bytes()

    def judge(self, cert):
        """What the checker for strangers says of a certificate's text."""
        return checker.check(self.lp, cert, self.dec)

    def stopped(self, steps):
        """The certificate of a search that is stopped."""
        self.solve("--steps", steps, "--cert", "part")
        return self.cert("part")

    def refuses(self, cert, into=("from", "kept", "none")):
        """What is printed where a search goes on from this text, once that is what both checkers say, and every file is as it was, whichever
        of these names the new certificate would have."""
        files = {**self.texts(), "from": cert, "kept": b"what stood here"}
        for name in ("from", "kept"):
            (self.path / name).write_bytes(files[name])
        own = self.judge(cert)
        for name in into:
            assert self.solve("--from", "from", "--cert", name) == (own + "\n", STATUS[own.split(" ", 1)[0]])
        assert {name: self.cert(name) for name in files} == files
        assert not (self.path / "none").exists()
        return own


MODELS = {
    "twelve blocks": (blocks(12), True, "optimal 120"),
    "five blocks, plain": (blocks(5), False, "optimal 50"),
    "drawn": (drawn(0), True, "optimal -9"),
    "drawn, plain": (drawn(29), False, "optimal -17"),
    "no point": (drawn(11), True, "infeasible"),
    "no point, plain": (drawn(23), False, "infeasible"),
}


@pytest.mark.parametrize("name", MODELS)
def test_stopped_at_each_number_of_steps(tmp_path, name):
    texts, has_dec, first = MODELS[name]
    room, steps = Room(tmp_path, texts, has_dec), 0
    assert room.first == first
    while True:
        told, status = room.solve("--steps", steps, "--cert", "part")
        assert room.judge(room.cert("part")).startswith("accepted ")
        assert room.begins("--from", "part", "--cert", "whole") == first
        assert room.judge(room.cert("whole")) == f"accepted {first}"
        if status != 5:
            break
        assert told.startswith(f"budget {steps}\n")
        assert len(re.findall(rb"^(?:split|leaf) ", room.cert("part"), re.MULTILINE)) == steps
        assert room.begins("--from", "part", "--workers", 1 + steps % 5, "--order", steps) == first
        steps += 1
    assert told.split("\n", 1)[0] == room.begins("--from", "part", "--steps", 0) == first
    assert name == "twelve blocks" or steps > 40


@pytest.mark.parametrize("seed, has_dec", [(0, True), (29, False)])
def test_stopped_again_and_again(tmp_path, seed, has_dec):
    """A step or some at a time, by one search and by crews in turn, into one file."""
    room, parts = Room(tmp_path, drawn(seed), has_dec), 0
    told, status = room.solve("--steps", 0, "--cert", "part")
    while status == 5:
        parts += 1
        assert parts < 1000
        assert run("check", "lp", "part", *room.words[1:], cwd=tmp_path) == (f"{room.judge(room.cert('part'))}\n", 0)
        crew = ["--workers", 1 + parts % 5, "--order", parts] if parts % 2 else []
        told, status = room.solve("--from", "part", "--steps", 1 + parts % 3, "--cert", "part", *crew)
    assert told.split("\n", 1)[0] == room.first
    assert room.judge(room.cert("part")) == f"accepted {room.first}"
    assert parts > 20


@pytest.fixture(name="room", params=[True, False], ids=["blocks", "plain"])
def room_fixture(tmp_path, request):
    """A model of which a point is known after fourteen steps, and leaves are open."""
    room = Room(tmp_path, drawn(29), request.param)
    assert re.match(rb"bpcert 2\nclaim bound -?[0-9]+ value -?[0-9]+\npoint ", room.stopped(14))
    assert b"\nopen " in room.cert("part")
    return room


def test_cut_off_at_each_byte(room):
    cert = room.cert("part")
    for count in range(len(cert)):
        line = 1 + cert[:count].count(b"\n")
        assert room.refuses(cert[:count], ["from"]).startswith(f"refused cert {line} ")
    assert room.begins("--from", "part") == room.first


def test_no_more_bytes_fit(room):
    """What stands is a beginning of the certificate, also in place of the one to go on from, and every other file is as it was."""
    start, words = room.cert("part"), ["--from", "part", "--steps", 3, "--cert"]
    assert room.solve(*words, "whole")[1] == 5
    whole = room.cert("whole")
    for size in {*range(0, len(whole), 13), len(whole) - 1}:
        (room.path / "part").write_bytes(start)
        limited = {"preexec_fn": lambda: resource.setrlimit(resource.RLIMIT_FSIZE, (size, size)), "restore_signals": False}
        assert run("solve", *room.words, *words, "part", cwd=room.path, **limited) == ("", 8)
        assert {name: room.cert(name) for name in ("part", "whole", *room.texts())} == {"part": whole[:size], "whole": whole, **room.texts()}


def test_points_of_another_length(room):
    cert = room.cert("part")
    for point in (b"point", b"point 0", b"\\g<0> 0", b"\\g<0> 0 0"):
        assert room.refuses(re.sub(rb"point .*", point, cert, count=1)) == "refused cert 3 length"


def test_an_optimum_with_open_leaves(room):
    """The value of the known point is claimed to be the best one."""
    claimed = re.sub(rb"claim bound \S+ value", b"claim optimal", room.cert("part"), count=1)
    verdict, line, kind = room.refuses(claimed).split(" ")
    assert verdict == "rejected" and kind in ("weak", "open")
    assert claimed.split(b"\n")[int(line) - 1].startswith(b"open ")


def test_another_models(room, tmp_path_factory):
    """Certificates of thirty other models, with as many variables and with others; their texts read here, or they do not."""
    kinds = set()
    for seed in range(30, 60):
        other = Room(tmp_path_factory.mktemp("other"), drawn(seed), room.dec is not None)
        for steps in (0, 5, 1000):
            cert = other.stopped(steps)
            if not room.judge(cert).startswith("accepted "):
                kinds.add(room.refuses(cert).split(" ")[-1])
    assert {"length", "weak"} <= kinds


def test_changed_ones(room):
    """What both checkers accept is a start like any other; all else is refused."""
    draw, verdicts = random.Random(17), set()
    for _ in range(120):
        cert = mutated(draw, room.cert("part"))
        verdict = room.judge(cert).split(" ", 1)[0]
        verdicts.add(verdict)
        if verdict == "accepted":
            (room.path / "from").write_bytes(cert)
            assert room.begins("--from", "from") == room.first
        else:
            room.refuses(cert)
    assert verdicts == {"accepted", "rejected", "refused"}
