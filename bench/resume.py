#!/usr/bin/env python3
"""How bprice goes on where it stopped. It solves each model of solve.py, and some generated ones without their decompositions, which take
hundreds of steps: at once, and again stopped after each 50 steps. The certificate of each part is checked, and the next goes on from it.
A line for each model: the answer of both, the steps of both, how many times as many the parts took together, the splits and shut leaves of
their tree, how often it stopped, and seconds of both. A tree in parts may have more of them than the steps that were taken, since leaves
that a better point settles are shut as they are loaded. It ends with status 1 where an answer or a check is wrong, or a search that was
stopped took more than 1.3 times the steps.

    bench/resume.py [SECONDS [STEPS [NAME..]]]   SECONDS: how long a call may take (60 where no number is given); STEPS: after how many to stop;
                                                NAME: only models whose names begin so, `plain` among them
    BPRICE=program bench/resume.py
"""
import os
import sys
import tempfile
import time

sys.dont_write_bytecode = True
sys.path.insert(0, os.path.dirname(os.path.realpath(__file__)))
from models import SIZES  # noqa: E402
from solve import BPRICE, models, run  # noqa: E402

NUMBERS, NAMES = ([word for word in sys.argv[1:] if word.isdigit() == is_number] for is_number in (True, False))
STEPS = int(NUMBERS[1]) if len(NUMBERS) > 1 else 50
MOST = 1.3


# Seeds and sizes of generated models that are solved without their decompositions.
PLAIN = ((3, 12), (5, 8), (1, 20), (3, 20), (5, 20), (7, 20), (1, 30), (2, 30), (1, 40), (3, 40))


def is_asked(name):
    return not NAMES or any(name.startswith(begin) for begin in NAMES)


def first(told):
    return "none" if told is None else told.split("\n", 1)[0]


def steps_of(cert):
    """The splits and shut leaves of a certificate."""
    with open(cert, encoding="ascii") as text:
        return sum(row.startswith(("split", "leaf")) for row in text)


def stopped(lp, dec, cert):
    """The answer of a search that is stopped again and again, how often it was, the steps of all parts, and what was wrong with a part."""
    told, _ = run([BPRICE, "solve", lp, *dec, "--steps", str(STEPS), "--cert", cert])
    stops, before = 0, 0
    while first(told).startswith("budget"):
        stops += 1
        bound = told.split("\n", 2)[1]
        judged, _ = run([BPRICE, "check", lp, cert, *dec])
        if not (judged or "").startswith(f"accepted {bound}"):
            return first(told), stops, 0, f"not accepted after {stops} parts"
        run([BPRICE, "solve", lp, *dec, "--from", cert, "--steps", "0", "--cert", f"{cert}.loaded"])
        before = steps_of(f"{cert}.loaded")
        told, _ = run([BPRICE, "solve", lp, *dec, "--from", cert, "--steps", str(STEPS), "--cert", cert])
        if first(told).startswith("budget") and steps_of(cert) != before + STEPS:
            return first(told), stops, 0, f"other steps than the given ones in part {stops + 1}"
    judged, _ = run([BPRICE, "check", lp, cert, *dec])
    wrong = "" if judged == f"accepted {first(told)}\n" else "not accepted at the end"
    return first(told), stops, STEPS * stops + steps_of(cert) - before, wrong


def line(room, name, is_plain):
    """Whether a model's line is as it should be."""
    lp, blocks, once, parts = (f"{room}/{name}.{ending}" for ending in ("lp", "dec", "once", "parts"))
    dec = [] if is_plain else ["--dec", blocks]
    whole, took = run([BPRICE, "solve", lp, *dec, "--cert", once])
    if whole is None:
        print(f"| {name} | takes too long |", flush=True)
        return True
    if not os.path.exists(once):
        print(f"| {name} | {first(whole)} |", flush=True)
        return first(whole).startswith("refused")
    begin = time.monotonic()
    answer, stops, in_parts, wrong = stopped(lp, dec, parts)
    spent = time.monotonic() - begin
    at_once, tree = steps_of(once), steps_of(parts)
    if answer != first(whole):
        wrong = f"answers {answer}"
    if in_parts > MOST * at_once:
        wrong = wrong or "too many steps"
    cells = [name, first(whole), at_once, in_parts, f"{in_parts / at_once:.2f}", tree, stops, f"{took:.2f}", f"{spent:.2f}", wrong or "as it should be"]
    print("|", " | ".join(map(str, cells)), "|", flush=True)
    return not wrong


def main():
    print("| Model | Answer | Steps | In parts | Times | Tree | Stops | Seconds | In parts | |\n|---|---|---|---|---|---|---|---|---|---|", flush=True)
    with tempfile.TemporaryDirectory() as room:
        right = [line(room, name, False) for name in models(room, [name for name in SIZES if is_asked(name)])]
        for seed, size in PLAIN:
            name = f"plain-{seed}-{size}"
            if not is_asked(name):
                continue
            run([BPRICE, "gen", str(seed), str(size), f"{room}/{name}.lp", f"{room}/{name}.dec"])
            right.append(line(room, name, True))
    sys.exit(0 if all(right) else 1)


main()
