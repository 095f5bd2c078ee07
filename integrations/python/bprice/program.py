"""Where the program is, and calls of it."""
import os
import pathlib
import shutil
import subprocess

from bprice.exact import Refused

HERE = pathlib.Path(__file__).resolve().parent


def repository():
    """The repository that the package stands in, or from which it was installed, or None."""
    noted = HERE / "repository.txt"
    top = pathlib.Path(noted.read_text(encoding="utf-8")) if noted.exists() else HERE.parents[2]
    return top if (top / "tools" / "bprice-run").exists() else None


def find_program(path=None):
    """
    The program's path: the one that is given, else BPRICE of the environment, the repository's launcher, or `bprice` on the PATH.

    :raises Refused: where there is none that can be run
    """
    top = repository()
    wanted = path or os.environ.get("BPRICE") or (str(top / "bprice") if top else "bprice")
    found = shutil.which(wanted)
    if found is None:
        raise Refused(f"cannot execute {wanted}: name bprice's program by BPRICE, or put it on the PATH")
    return found


def find_runner():
    """The path of bprice-run, which searches within a time, or None."""
    top = repository()
    return str(top / "tools" / "bprice-run") if top else shutil.which("bprice-run")


def call(words, environment=None, timeout=None, errors=subprocess.PIPE):
    """What a program prints, its status and what it says on standard error, where that is caught."""
    ran = subprocess.run([str(word) for word in words], stdin=subprocess.DEVNULL, stdout=subprocess.PIPE, stderr=errors,
                         env=environment, timeout=timeout, check=False)
    return ran.stdout.decode("latin-1"), ran.returncode, (ran.stderr or b"").decode("utf-8", "replace").strip()
