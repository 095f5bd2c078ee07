#!/usr/bin/env python3
"""What a decomposition is worth: models of bench/models.py, solved with their decomposition and without one, in processor seconds.

    bench/decompose.py [SECONDS [NAME..]]      SECONDS: processor time that each run may take (20 where no number is given)
    BPRICE=program bench/decompose.py
"""
import os
import re
import resource
import subprocess
import sys
import tempfile

import models

HERE = os.path.dirname(os.path.realpath(__file__))
BPRICE = os.environ.get("BPRICE", f"{HERE}/../bprice")
LIMIT = int(sys.argv[1]) if len(sys.argv) > 1 else 20
NAMES = sys.argv[2:] or ["rolls-small-10-s7", "bins-small-30-s7", "assignment-gen-40", "vehicles-5-25", "roster-6-7", "colouring-20-50", "median-25"]


def run(*words):
    """The first line that the program prints and its processor seconds, or None past the limit."""
    before = resource.getrusage(resource.RUSAGE_CHILDREN).ru_utime
    ran = subprocess.run([BPRICE, *words], capture_output=True, text=True, check=False,
                         preexec_fn=lambda: resource.setrlimit(resource.RLIMIT_CPU, (LIMIT, LIMIT)))
    took = resource.getrusage(resource.RUSAGE_CHILDREN).ru_utime - before
    return (ran.stdout.split("\n", 1)[0] or None), took


def steps(cert):
    with open(cert, "rb") as file:
        text = file.read()
    return text.count(b"\nsplit ") + text.count(b"\nleaf ")


def main():
    print("| Model | Variables | Rows | Blocks | Classes | Answer | With: steps | With: seconds | Without: steps | Without: seconds |")
    print("|---|---|---|---|---|---|---|---|---|---|", flush=True)
    with tempfile.TemporaryDirectory() as room:
        os.chdir(room)
        for name in NAMES:
            for ending, text in zip(("lp", "dec"), models.make(name)):
                with open(ending, "w", encoding="ascii") as file:
                    file.write(text)
            shown = subprocess.run([BPRICE, "show", "lp", "--dec", "dec"], capture_output=True, text=True, check=False).stdout
            size = dict(line.split(" ", 1) for line in shown.split("\n") if " " in line)
            blocks = len(re.findall(r"^BLOCK ", open("dec", encoding="ascii").read(), re.MULTILINE))
            classes = len(re.findall(r" rows [1-9]", shown))
            cells, answers = [name, size["variables"], size["rows"], blocks, classes], []
            for words in (["--dec", "dec"], []):
                answer, took = run("solve", "lp", *words, "--cert", "cert")
                answers.append(answer)
                cells += ["", f"over {LIMIT}"] if answer is None else [steps("cert"), f"{took:.2f}"]
            print("|", " | ".join(map(str, [*cells[:5], next((answer for answer in answers if answer), "none"), *cells[5:]])), "|", flush=True)


main()
