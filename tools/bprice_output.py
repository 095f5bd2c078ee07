"""Files beside the report: the answer as `.sol` or `.json`, and parameter files. `tools/bprice-run` calls this."""
import json
import os

from bprice_search import BUDGET, INFEASIBLE, OPTIMAL, WORDS, Refused

STATUSES = {OPTIMAL: "optimal", INFEASIBLE: "infeasible", BUDGET: "stopped"}


def pairs(outcome):
    """The point, as names and values."""
    return [line.split(" ") for line in outcome.point.split("\n") if line]


def sol(outcome):
    """The form of Gurobi's solution files: the objective in the head, and a value a line."""
    standing = outcome.standing
    head = [f"# Status {STATUSES[outcome.status]}"]
    head += [] if standing.bound is None else [f"# Bound = {standing.bound}"]
    head += [] if standing.value is None else [f"# Objective value = {standing.value}"]
    return "\n".join([*head, *(f"{name} {value}" for name, value in pairs(outcome)), ""])


def record(outcome):
    """All that is known of the answer. `gap` is a part of the value, `seconds` are of the clock, `steps` of the certificate's tree."""
    standing = outcome.standing
    return {"status": STATUSES[outcome.status], "value": standing.value, "bound": standing.bound, "gap": standing.gap(),
            "seconds": round(outcome.seconds, 3), "steps": standing.steps,
            "point": {name: int(value) for name, value in pairs(outcome)} if standing.value is not None else None,
            "certificate": outcome.cert, "decomposition": outcome.dec, "bound_by": outcome.bound_by, "value_by": outcome.value_by}


def write(outcome, name):
    """Writes a file whole, or leaves it as it was."""
    text = sol(outcome) if name.endswith(".sol") else json.dumps(record(outcome), indent=1) + "\n"
    with open(name + ".part", "w", encoding="latin-1", newline="\n") as file:
        file.write(text)
    os.replace(name + ".part", name)


def params(name):
    """The lines `key = value` of a file, each with its place. `#` begins a comment."""
    with open(name, encoding="utf-8") as file:
        lines = file.read().split("\n")
    found = []
    for number, line in enumerate(lines, 1):
        line = line.split("#", 1)[0].strip()
        key, mark, value = (part.strip() for part in line.partition("="))
        if line and not (mark and key and value):
            raise Refused("", WORDS, f"{name}:{number}: a line is `key = value`")
        if line:
            found.append((f"{name}:{number}", key, value))
    return found
