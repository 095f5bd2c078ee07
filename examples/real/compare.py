#!/usr/bin/env python3
"""Solves the problems with bprice, CBC, GLPK and HiGHS, each for a minute of one processor's time, and prints a table for README.md.

    examples/real/compare.py FOLDER [NAME ..]       the texts are written to FOLDER; it needs coinor-cbc, glpk-utils and python3-scipy
"""
import os
import pathlib
import re
import resource
import subprocess
import sys
import tempfile
import time

import make

SECONDS = 60
HIGHS = """
import sys
import numpy, scipy.optimize, scipy.sparse
sys.path[:0] = sys.argv[2:]
import bprice
model = bprice.Model.read(sys.argv[1])
place = {name: j for j, name in enumerate(model.spans)}
costs = numpy.zeros(len(place))
for name, cost in model.costs.items():
    costs[place[name]] = cost if model.sense == "min" else -cost
cells = [(i, place[name], a) for i, row in enumerate(model.rows.values()) for name, a in row.terms.items()]
i, j, a = zip(*cells)
matrix = scipy.sparse.csr_matrix((a, (i, j)), shape=(len(model.rows), len(place)))
low, high = ([end if side is None else side for side in sides] for end, sides in ((-numpy.inf, [row.low for row in model.rows.values()]),
                                                                                  (numpy.inf, [row.high for row in model.rows.values()])))
spans = list(zip(*model.spans.values()))
rows = scipy.optimize.LinearConstraint(matrix, low, high)
answer = scipy.optimize.milp(costs, integrality=numpy.ones(len(place)), bounds=scipy.optimize.Bounds(*spans), constraints=rows)
print("Status", answer.status, "Value", None if answer.fun is None else round(answer.fun if model.sense == "min" else -answer.fun))
"""


def taken(number):
    """The seconds of processor time that a process has taken so far."""
    try:
        fields = pathlib.Path(f"/proc/{number}/stat").read_text(encoding="ascii").rpartition(")")[2].split()
    except OSError:
        return 0.0
    return (int(fields[11]) + int(fields[12])) / os.sysconf("SC_CLK_TCK")


def run(words):
    """What a program prints, and the seconds of processor time that it took; None where these were more than a minute. The time is looked at from here,
    since not every system and solver minds RLIMIT_CPU."""
    before = resource.getrusage(resource.RUSAGE_CHILDREN)
    with tempfile.TemporaryFile("w+", encoding="utf-8", errors="replace") as printed:
        with subprocess.Popen([str(word) for word in words], stdin=subprocess.DEVNULL, stdout=printed, stderr=subprocess.DEVNULL) as child:
            while child.poll() is None:
                if taken(child.pid) > SECONDS:
                    child.kill()
                time.sleep(0.1)
        printed.seek(0)
        after = resource.getrusage(resource.RUSAGE_CHILDREN)
        took = after.ru_utime - before.ru_utime + after.ru_stime - before.ru_stime
        print(pathlib.Path(words[0]).name, f"{took:.1f} s", file=sys.stderr, flush=True)
        return printed.read(), None if took > SECONDS else took


def told(found, took):
    return f"more than {SECONDS} s" if took is None else f"{found or '?'}, {took:.1f} s"


def bprice_says(lp, dec):
    report, took = run([make.bprice.find_program(), "solve", lp, *(["--dec", dec] if dec else [])])
    return told(report.split("\n")[0].removeprefix("optimal "), took)


def cbc_says(lp):
    report, took = run(["cbc", lp, "-solve"])
    value = re.search(r"Objective value: +(-?[\d.]+)", report)
    return told("infeasible" if re.search("infeasible", report, re.IGNORECASE) and not value else value and f"{float(value[1]):.0f}", took)


def glpk_says(lp, folder):
    report, took = run(["glpsol", "--lp", lp, "-o", folder / "glpk.txt"])
    if "INTEGER OPTIMAL" not in report:
        return told("infeasible" if "NO PRIMAL FEASIBLE" in report or "NO INTEGER FEASIBLE" in report else None, took)
    return told(re.search(r"^Objective: .* = (-?\S+)", (folder / "glpk.txt").read_text(), re.MULTILINE)[1], took)


def highs_says(lp):
    report, took = run([sys.executable, "-c", HIGHS, lp, *sys.path[:3]])
    status = re.search(r"Status (\d) Value (\S+)", report)
    return told(status and {"0": status[2], "2": "infeasible"}.get(status[1]), took)


def main():
    folder = pathlib.Path(sys.argv[1])
    folder.mkdir(parents=True, exist_ok=True)
    print("| | known | bprice | bprice, no DEC | CBC | GLPK | HiGHS |\n|---|---|---|---|---|---|---|")
    for name in sys.argv[2:] or make.PROBLEMS:
        problem, lp, dec = make.write(folder, name)
        cells = [f"`{name}`", "infeasible" if problem.known is None else str(problem.known), bprice_says(lp, dec),
                 bprice_says(lp, None) if dec else "", cbc_says(lp), glpk_says(lp, folder), highs_says(lp)]
        print("| " + " | ".join(cells) + " |", flush=True)


if __name__ == "__main__":
    main()
