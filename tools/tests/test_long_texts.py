"""LP texts of 1 MiB that are one long run: of signs, digits, a name, blanks, line feeds, comparisons; and one of signs that is as
long as a text may be. What is kept of them is their syntax tree, and no list of their tokens."""
import resource

import pytest

from conftest import run

LONG = 1 << 20
# The address space that a run is given, in bytes: four times what it takes on a short text.
MEMORY = 16 << 20


def model(sign="", side="0", bound="9", row="", blank=" "):
    return f"Minimize\n obj:{blank}{sign} x\nSubject To\n c: {row} x >= {side}\nBounds\n x <= {bound}\nGenerals\n x\nEnd\n"


def limit():
    """Gives the process that is about to start little memory."""
    resource.setrlimit(resource.RLIMIT_AS, (MEMORY, MEMORY))


LEAST, GREATEST = "optimal 0\nx 0\n", "optimal -9\nx 9\n"
TEXTS = {
    "signs of the objective": (model(sign="-+" * (LONG // 2)), LEAST, 0),
    "an odd number of minus signs": (model(sign="-" * (LONG - 1)), GREATEST, 0),
    "signs apart": (model(sign="- " * (LONG // 2)), LEAST, 0),
    "signs of a row": (model(sign="-", row="-" * LONG), GREATEST, 0),
    "signs of a side": (model(sign="-", side="+" * LONG + "0"), GREATEST, 0),
    "signs of a bound": (model(sign="-", bound="-" * LONG + "9"), GREATEST, 0),
    "zeros": (model(sign="-", bound="0" * LONG + "9"), GREATEST, 0),
    "digits": (model(bound="9" * LONG), "refused lp 2 unbounded\n", 3),
    "blanks": (model(blank=" " * LONG), LEAST, 0),
    "line feeds": (model(blank="\n" * LONG), LEAST, 0),
    "a name": (model(row="y" * LONG), "refused lp 4 long-name\n", 3),
    "comparisons": (model(row=">=" * (LONG // 2)), "refused lp 4 syntax\n", 3),
}


@pytest.mark.parametrize("kind", TEXTS)
def test_a_long_run(tmp_path, kind):
    text, printed, status = TEXTS[kind]
    (tmp_path / "own.lp").write_text(text)
    assert run("solve", "own.lp", cwd=tmp_path, preexec_fn=limit) == (printed, status)


# How long a text may be without --large, and what a run on it is given: address space in bytes, seconds of the processor.
LONGEST, AMPLE, SECONDS = 1 << 24, 100 << 20, 5


def limit_both():
    """Gives the process that is about to start this memory and time."""
    resource.setrlimit(resource.RLIMIT_AS, (AMPLE, AMPLE))
    resource.setrlimit(resource.RLIMIT_CPU, (SECONDS, SECONDS))


@pytest.mark.parametrize("more, answer", [(0, (LEAST, 0)), (1, ("refused lp 0 limit\n", 3))])
def test_the_longest_run_of_signs(tmp_path, more, answer):
    text = model(sign="+" * (LONGEST - len(model()) + more))
    assert len(text) == LONGEST + more
    (tmp_path / "own.lp").write_text(text)
    assert run("solve", "own.lp", cwd=tmp_path, preexec_fn=limit_both) == answer
