"""Files that never end: a certificate is read no further than its first fault."""
import os
import resource
import subprocess

import pytest

from conftest import PROGRAM, knows, run

MODEL = b"Minimize\n obj: x\nSubject To\n c: x >= 0\nBounds\n x <= 9\nGenerals\n x\nEnd\n"
MEMORY = 256 << 20
COMMANDS = (["check", "lp", "cert"], ["solve", "lp", "--from", "cert"], ["merge", "lp", "cert", "cert", "new"], ["migrate", "lp", "cert", "new"])


def limit():
    """Gives the process that is about to start little memory."""
    resource.setrlimit(resource.RLIMIT_AS, (MEMORY, MEMORY))


@pytest.mark.skipif(not os.path.exists("/dev/zero"), reason="there is no /dev/zero")
@pytest.mark.parametrize("words", COMMANDS)
def test_zeros_without_end(tmp_path, words):
    if not knows(*words):
        pytest.skip(f"the program has no `{words[0]}`")
    (tmp_path / "lp").write_bytes(MODEL)
    (tmp_path / "cert").symlink_to("/dev/zero")
    assert run(*words, cwd=tmp_path, preexec_fn=limit) == ("refused cert 1 syntax\n", 3)
    assert not (tmp_path / "new").exists()


@pytest.mark.parametrize("words", COMMANDS)
def test_a_fault_before_a_hole(tmp_path, words):
    """A fault on the fourth line of a file of 8 GiB, nearly all of which is a hole."""
    if not knows(*words):
        pytest.skip(f"the program has no `{words[0]}`")
    (tmp_path / "lp").write_bytes(MODEL)
    with open(tmp_path / "cert", "wb") as cert:
        cert.write(b"bpcert 2\nclaim optimal 0\npoint 0\nleaves\n")
        cert.truncate(8 << 30)
    assert run(*words, cwd=tmp_path, preexec_fn=limit) == ("refused cert 4 syntax\n", 3)
    assert not (tmp_path / "new").exists()


# How many bytes a read asks for, and what is read of the program itself and of the system's files when it starts.
PIECE, START = 65536, 16384


def bytes_read(words, room):
    """How many bytes a run reads, as the kernel counts them, with what it prints and its status."""
    with subprocess.Popen([PROGRAM, *words], cwd=room, stdout=subprocess.PIPE, stderr=subprocess.DEVNULL) as ran:
        os.waitid(os.P_PID, ran.pid, os.WEXITED | os.WNOWAIT)
        with open(f"/proc/{ran.pid}/io", encoding="ascii") as counts:
            count = int(dict(line.split(": ") for line in counts)["rchar"])
        return count, ran.stdout.read().decode("latin-1"), ran.wait()


def wide(number):
    """A model of so many fixed variables, and the front of a certificate for it, with a fault on the fourth line."""
    names = [f"x{k}" for k in range(number)]
    bounds = "".join(f" {name} = {10 ** 18}\n" for name in names)
    model = f"Minimize\n obj: {names[0]}\nSubject To\n c: {names[0]} >= 0\nBounds\n{bounds}End\n"
    return model.encode(), f"bpcert 2\nclaim optimal 0\npoint {' '.join([str(10 ** 18)] * number)}\nleaves\n".encode()


@pytest.mark.skipif(not os.path.exists("/proc/self/io"), reason="the kernel counts no bytes")
@pytest.mark.parametrize("number", [1, 4000])
@pytest.mark.parametrize("words", COMMANDS)
def test_the_pieces_that_are_read(tmp_path, words, number):
    """The command and its note read the pieces up to the one with the fault, and no further one."""
    if not knows(*words):
        pytest.skip(f"the program has no `{words[0]}`")
    model, front = wide(number)
    (tmp_path / "lp").write_bytes(model)
    with open(tmp_path / "cert", "wb") as cert:
        cert.write(front)
        cert.truncate(64 << 20)
    count, printed, status = bytes_read(words, tmp_path)
    assert (printed, status) == ("refused cert 4 syntax\n", 3)
    pieces = -(-len(front) // PIECE)
    assert pieces == (1 if number == 1 else 2)
    assert count < START + len(model) + 2 * pieces * PIECE
