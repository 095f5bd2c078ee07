#!/usr/bin/env python3
"""How bprice solves models past its usual limits (`--large`), with their decompositions, beside CBC and HiGHS.

    bench/large.py [SECONDS] [NAME..]   SECONDS: how long each solver may take for a model (60 where no number is given)
                                        NAME: only models whose names begin so (LARGE_SIZES of models.py)
    BPRICE=program bench/large.py       another program than ./bprice
    PEERS=0 bench/large.py              bprice alone

It prints a line for each model: its variables, the root's answer with its processor seconds, the answer within the limit with its steps, seconds and
megabytes, the seconds of `check`, and what CBC and HiGHS (of scipy; without scipy it is left out) have by then: seconds, value and bound.
"""
import os
import re
import resource
import subprocess
import sys
import tempfile

from models import LARGE_SIZES, make, model

HERE = os.path.dirname(os.path.realpath(__file__))
BPRICE = os.path.realpath(os.environ.get("BPRICE", f"{HERE}/../bprice"))
PEERS = os.environ.get("PEERS", "1") != "0"
LIMIT = int(sys.argv[1]) if len(sys.argv) > 1 and sys.argv[1].isdigit() else 60


def run(words, limit=LIMIT):
    """What a program prints, its processor seconds and the megabytes that it needed; None where it was ended by the limit."""
    with tempfile.NamedTemporaryFile("r") as told:
        before = resource.getrusage(resource.RUSAGE_CHILDREN)
        script = f'ulimit -t {limit}; exec /usr/bin/time -o "$0" -f %M "$@"'
        ran = subprocess.run(["bash", "-c", script, told.name, *words], capture_output=True, text=True)
        after = resource.getrusage(resource.RUSAGE_CHILDREN)
        took = after.ru_utime + after.ru_stime - before.ru_utime - before.ru_stime
        size = told.read().split()
    return (ran.stdout if took < limit else None), took, int(size[-1]) / 1024 if size and size[-1].isdigit() else 0


def answer(told):
    """The first lines of a report in one: `optimal V`, or a bound and a value."""
    if told is None:
        return ""
    lines = told.split("\n")
    known = dict(line.split(" ", 1) for line in lines[:3] if line.startswith(("bound", "value")))
    return lines[0] if not lines[0].startswith("budget") else f"{known.get('bound', '')} / {known.get('value', 'none')}"


def highs(name):
    """Solves a model by scipy's HiGHS, and prints its value and bound."""
    import numpy
    from scipy.optimize import Bounds, LinearConstraint, milp
    from scipy.sparse import csr_matrix

    made = model(name)
    places = {var: place for place, var in enumerate([*made.binary, *made.general])}
    low, high, costs = numpy.zeros(len(places)), numpy.ones(len(places)), numpy.zeros(len(places))
    for text in made.bounds:
        least, var, most = text.split(" <= ")
        low[places[var]], high[places[var]] = int(least), int(most)
    for coef, var in made.costs:
        costs[places[var]] += coef
    rows, columns, values, lower, upper = [], [], [], [], []
    for row, (_, terms, sense, rhs) in enumerate(made.rows):
        for coef, var in terms:
            rows.append(row)
            columns.append(places[var])
            values.append(coef)
        lower.append(-numpy.inf if sense == "<=" else rhs)
        upper.append(numpy.inf if sense == ">=" else rhs)
    matrix = csr_matrix((values, (rows, columns)), shape=(len(made.rows), len(places)))
    found = milp(costs, constraints=LinearConstraint(matrix, lower, upper), bounds=Bounds(low, high), integrality=numpy.ones(len(places)),
                 options={"time_limit": LIMIT, "mip_rel_gap": 0})
    value = "none" if found.x is None else f"{found.fun:.0f}"
    bound = getattr(found, "mip_dual_bound", None)
    print(f"optimal {value}" if found.status == 0 else f"{'' if bound is None else f'{bound:.0f}'} / {value}")


def peers(lp, name):
    """What CBC and HiGHS have within the limit."""
    if not PEERS:
        return ["", ""]
    told, took, _ = run(["cbc", lp, "sec", str(LIMIT), "ratio", "0", "solve"], 2 * LIMIT)
    told = told or ""
    value, bound = re.findall(r"Objective value:\s+(\S+)", told), re.findall(r"Lower bound:\s+(\S+)", told)
    best = f"optimal {float(value[-1]):.0f}" if "Optimal solution found" in told and value else \
        f"{float(bound[-1]):.0f} / {f'{float(value[-1]):.0f}' if value else 'none'}" if bound else ""
    cbc = f"{best} in {took:.1f}"
    told, took, _ = run([sys.executable, os.path.realpath(__file__), "--highs", str(LIMIT), name], 3 * LIMIT)
    return [cbc, f"{(told or '').strip()} in {took:.1f}"]


def line(room, name):
    lp, dec, cert = (f"{room}/{name}.{ending}" for ending in ("lp", "dec", "cert"))
    for path, text in zip((lp, dec), make(name)):
        with open(path, "w", encoding="ascii") as file:
            file.write(text)
    made = model(name)
    words = [BPRICE, "solve", lp, "--dec", dec, "--large", "--cert", cert]
    root, first, size = run([*words, "--steps", "1"])
    told, took, most, steps = root, first, size, 1
    while told is not None and told.startswith("budget") and took < LIMIT / 3:
        steps *= 4
        again, took, most = run([*words, "--steps", str(steps)])
        told = again or told
    judged, judging, _ = run([BPRICE, "check", lp, cert, "--dec", dec, "--large"])
    checked = "" if root is None else f"{judging:.2f}" if judged and judged.startswith("accepted") else "not accepted"
    print("|", " | ".join(map(str, [name, len(made.binary) + len(made.general), answer(root), f"{first:.2f}", answer(told), steps, f"{took:.2f}", f"{most:.0f}",
                                    checked, *peers(lp, name)])), "|", flush=True)


def main():
    heads = "Model | Variables | Root | seconds | Answer | Steps at most | seconds | MB | `check` | CBC | HiGHS"
    print(f"| {heads} |\n|{'---|' * (heads.count('|') + 1)}", flush=True)
    asked = [it for it in sys.argv[1:] if not it.isdigit()]
    with tempfile.TemporaryDirectory() as room:
        for name in LARGE_SIZES:
            if not asked or any(name.startswith(one) for one in asked):
                line(room, name)


if __name__ == "__main__":
    if {"-h", "--help"} & set(sys.argv[1:]):
        print(__doc__)
        sys.exit()
    if sys.argv[1:2] == ["--highs"]:
        LIMIT = int(sys.argv[2])
        highs(sys.argv[3])
        sys.exit()
    main()
