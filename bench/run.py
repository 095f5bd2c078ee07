#!/usr/bin/env python3
"""What `tools/bprice-run` takes beside one plain `solve`: for each model the answer, the steps of both, how many calls bprice-run made, and
the least processor seconds of so many runs of each, by turns. It ends with status 1 where the answers differ.

    bench/run.py [NAME..]          names of models.py; behind a `+` the model is solved with its decomposition
    RUNS=5 BPRICE=program bench/run.py
"""
import os
import resource
import subprocess
import sys
import tempfile

sys.dont_write_bytecode = True
sys.path.insert(0, os.path.dirname(os.path.realpath(__file__)))
from models import make  # noqa: E402

TOP = os.path.dirname(os.path.dirname(os.path.realpath(__file__)))
PROGRAM = os.path.realpath(os.environ.get("BPRICE", f"{TOP}/bprice"))
RUNS = int(os.environ.get("RUNS", "3"))
NAMES = [
    "lots-4-6", "general-10-10", "vehicles-two-6-36", "facility-12-40", "assignment-gen-40", "assignment-gen-60", "crews-20-50", "facility-20-60",
    *(f"assignment-gen-100-s{seed}" for seed in (2, 3, 7, 8)), "assignment-gen-150", "assignment-E-5-100", "assignment-gen-200", "assignment-gen-300",
    "assignment-D-5-30+", "general-10-12+", "crews-15-40+", "crews-20-50+", "facility-25-70+", "general-8-16+",
]


def timed(words, **options):
    """What a command prints, and its processor seconds with all that it starts."""
    begin = resource.getrusage(resource.RUSAGE_CHILDREN)
    ran = subprocess.run(words, stdout=subprocess.PIPE, text=True, **options)
    end = resource.getrusage(resource.RUSAGE_CHILDREN)
    return ran.stdout, end.ru_utime + end.ru_stime - begin.ru_utime - begin.ru_stime


def steps_of(cert):
    with open(cert, "rb") as file:
        text = file.read()
    return text.count(b"\nsplit ") + text.count(b"\nleaf ")


def counting(room):
    """A program that notes each call in a file."""
    name = f"{room}/counting"
    with open(name, "w", encoding="ascii") as file:
        file.write(f'#!/bin/sh\necho >>"{room}/calls"\nexec "{PROGRAM}" "$@"\n')
    os.chmod(name, 0o755)
    return name


def line(room, name):
    """Prints a model's line; whether both answers are one."""
    plain = name.removesuffix("+")
    lp, dec, cert, other = (f"{room}/{end}" for end in ("lp", "dec", "cert", "other"))
    for path, text in zip((lp, dec), make(plain)):
        with open(path, "w", encoding="ascii") as file:
            file.write(text)
    words = ["--dec", dec] if name != plain else []
    alone, sliced, answers = [], [], set()
    for _ in range(RUNS):
        told, took = timed([PROGRAM, "solve", lp, *words, "--cert", cert])
        answers.add(told.split("\n")[0])
        alone.append(took)
        for path in (other, f"{room}/calls"):
            if os.path.exists(path):
                os.remove(path)
        told, took = timed([f"{TOP}/tools/bprice-run", lp, *words, "--cert", other], stderr=subprocess.DEVNULL, env={**os.environ, "BPRICE": counting(room)})
        answers.add(told.split("\n")[0])
        sliced.append(took)
    with open(f"{room}/calls", encoding="ascii") as file:
        calls = file.read().count("\n")
    steps = [steps_of(one) for one in (cert, other)]
    shown = [plain + (" with DEC" if words else ""), *sorted(answers), *steps, calls, f"{min(alone):.2f}", f"{min(sliced):.2f}", f"{min(sliced) / min(alone):.2f}"]
    print("|", " | ".join(map(str, shown)), "|", flush=True)
    return len(answers) == 1


def main():
    print("| Model | Answer | Steps | Of bprice-run | Calls | `solve` | `bprice-run` | Times |\n|---|---|---|---|---|---|---|---|", flush=True)
    with tempfile.TemporaryDirectory() as room:
        right = [line(room, name) for name in sys.argv[1:] or NAMES]
    sys.exit(0 if all(right) else 1)


main()
