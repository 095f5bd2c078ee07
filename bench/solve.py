#!/usr/bin/env python3
"""How bprice solves models with block structure, with their decompositions and without, beside CBC and GLPK where these are installed.

    bench/solve.py [SECONDS] [NAME..]   SECONDS: how long each solver may take for a model (10 where no number is given)
                                        NAME: only models whose names begin so (`bench/models.py` prints all)
    BPRICE=program bench/solve.py       another program than ./bprice
    PLAIN=0 bench/solve.py              without the runs that have no decomposition

It prints a line for each model: the answer, the steps (splits and shut leaves), and processor seconds of `solve` and of `check` with the
decomposition; the answer, steps and seconds without; the bytes of the certificate; processor seconds and values of CBC and of GLPK.
"""
import os
import re
import resource
import shutil
import subprocess
import sys
import tempfile

from models import SIZES, make

HERE = os.path.dirname(os.path.realpath(__file__))
BPRICE = os.environ.get("BPRICE", f"{HERE}/../bprice")
PLAIN = os.environ.get("PLAIN", "1") != "0"
LIMIT = int(sys.argv[1]) if len(sys.argv) > 1 and sys.argv[1].isdigit() else 10


def run(words):
    """What a program prints and the processor seconds that it takes, or None past the limit."""
    before = resource.getrusage(resource.RUSAGE_CHILDREN)
    ran = subprocess.run(["bash", "-c", f'ulimit -t {LIMIT}; exec "$@"', "run", *words], capture_output=True, text=True)
    after = resource.getrusage(resource.RUSAGE_CHILDREN)
    took = after.ru_utime + after.ru_stime - before.ru_utime - before.ru_stime
    return (ran.stdout if ran.returncode >= 0 and took < LIMIT else None), took


def seconds(told, took):
    return f"over {LIMIT}" if told is None else f"{took:.2f}"


def others(lp):
    """The seconds of CBC and of GLPK, and of each its value."""
    found = []
    for name, words, value in (
        ("cbc", ["cbc", lp, "solve", "solu", lp + ".cbc"], r"Objective value:\s+(\S+)"),
        ("glpsol", ["glpsol", "--lp", lp, "--cuts"], r"mip =\s+([-+.0-9e]+)"),
    ):
        if not shutil.which(name):
            found.append("not installed")
            continue
        told, took = run(words)
        values = re.findall(value, told or "")
        found.append(seconds(told, took) + (f" ({float(values[-1]):.0f})" if values else ""))
    return found


def solved(lp, cert, dec):
    """The answer, the steps and the seconds of `solve`, the seconds of `check`, and the bytes of the certificate."""
    with_dec = ["--dec", dec] if dec else []
    told, took = run([BPRICE, "solve", lp, *with_dec, "--cert", cert])
    if told is None:
        return ["open", "", seconds(told, took), "", ""]
    answer = told.split("\n", 1)[0]
    if not os.path.exists(cert):
        return [answer, "", seconds(told, took), "", ""]
    with open(cert, encoding="ascii") as text:
        steps = sum(row.startswith(("split", "leaf")) for row in text)
    judged, judging = run([BPRICE, "check", lp, cert, *with_dec])
    checked = f"{judging:.2f}" if judged == f"accepted {answer}\n" else "not accepted"
    return [answer, steps, seconds(told, took), checked, os.path.getsize(cert)]


def models(room, names=SIZES):
    """Writes models and their decompositions into a folder, one after another, and tells their names."""
    for name in names:
        for ending, text in zip(("lp", "dec"), make(name)):
            with open(f"{room}/{name}.{ending}", "w", encoding="ascii") as file:
                file.write(text)
        yield name


def line(room, name):
    lp, dec, cert = (f"{room}/{name}.{ending}" for ending in ("lp", "dec", "cert"))
    plain = solved(lp, cert, None)[:3] if PLAIN else ["", "", ""]
    print("|", " | ".join(map(str, [name, *solved(lp, cert, dec), *plain, *others(lp)])), "|", flush=True)


def main():
    heads = "Model | Answer | Steps | Seconds | `check` | Bytes | No DEC | Steps | Seconds | CBC | GLPK"
    print(f"| {heads} |\n|{'---|' * (heads.count('|') + 1)}", flush=True)
    asked = sys.argv[2:]
    with tempfile.TemporaryDirectory() as room:
        for name in models(room, [it for it in SIZES if not asked or any(it.startswith(one) for one in asked)]):
            line(room, name)


if __name__ == "__main__":
    if {"-h", "--help"} & set(sys.argv[1:]):
        print(__doc__)
        sys.exit()
    main()
