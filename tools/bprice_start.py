"""A point to begin with: `tools/bprice-run --start FILE` calls this.

The point becomes a certificate with one open leaf: its value, and the bound that the bounds of the variables alone show. A search goes on from it
as from every certificate, and the program judges it first, so no answer rests on what is read here.
"""
import os
import re
import sys

from bprice_search import Refused

sys.path.insert(0, os.path.join(os.path.dirname(os.path.realpath(__file__)), "..", "integrations", "python"))
from bprice import exact, lp as texts  # noqa: E402

REFUSED = 3
HEADS = "optimal", "budget", "bound", "value"  # the words of a report's lines above the point


def fault(line, kind, help_text):
    """A fault of the point's file, by line and kind as the program tells those of its own files."""
    return Refused(f"refused start {line} {kind}\n", REFUSED, help_text)


def read_point(text, model):
    """The point that a text says, as {name: value}: lines `NAME VALUE`. Comments behind `#` and the head of a report are passed over."""
    point = {}
    for number, line in enumerate(text.split("\n"), 1):
        words = line.partition("#")[0].split()
        if not words or words[0] in HEADS and words[0] not in model.spans and not point:
            continue
        if len(words) != 2:
            raise fault(number, "syntax", "each line is a variable's name and its value, with a space between")
        name, value = words
        if name not in model.spans:
            raise fault(number, "name", f"the model has no variable {name}")
        if name in point:
            raise fault(number, "twice", f"{name} has a value on a line above")
        whole = re.fullmatch(r"([+-]?[0-9]{1,19})(?:\.0*)?", value)
        if not whole:
            raise fault(number, "not-whole", f"{value} is no whole number: {name} takes whole numbers alone")
        low, high = model.spans[name]
        if not low <= int(whole[1]) <= high:
            raise fault(number, "bound", f"{name} is from {low} to {high}")
        point[name] = int(whole[1])
    return point


def completed(point, model):
    """The point with all variables: one that it lacks is 0, or its lower bound where it can't be 0."""
    return {name: point.get(name, 0 if low <= 0 <= high else low) for name, (low, high) in model.spans.items()}


def missed_row(point, model):
    """The name of a row that the point misses, with the sum there, or None."""
    for name, (terms, low, high) in model.rows.items():
        total = sum(factor * point[variable] for variable, factor in terms.items())
        if low is not None and total < low or high is not None and total > high:
            return name, total
    return None


def certificate(point, model):
    """The certificate of a point with the whole program as one open leaf."""
    value, bound, sign = model.constant, model.constant, -1 if model.sense == "max" else 1
    for name, cost in model.costs.items():
        low, high = model.spans[name]
        value += cost * point[name]
        bound += cost * (low if sign * cost > 0 else high)
    values = "".join(f" {point[name]}" for name in model.spans)
    return f"bpcert 2\nclaim bound {bound} value {value}\npoint{values}\nopen 1 change 0 priced 0\nend\n"


def read(name, kind):
    """A file's text."""
    try:
        with open(name, encoding="latin-1", newline="") as file:
            return file.read()
    except OSError as why:
        raise Refused("", 7, f"{kind} {name}: {why.strerror.lower()}") from None


def start_from(name, lp):
    """The certificate of the point in a file, and in words what the file lacks, "" where it lacks nothing."""
    try:
        model = texts.parse(read(lp, "the model").encode("latin-1"))
    except exact.Refused as why:
        raise Refused(f"refused {why}\n", REFUSED) from None
    given = read_point(read(name, "the point"), model)
    point, lacking = completed(given, model), len(model.spans) - len(given)
    missed = missed_row(point, model)
    if missed:
        raise fault(0, "row", f"the point misses the row {missed[0]}, whose sum is {missed[1]}" + (f"; {lacking} variables were not given" if lacking else ""))
    said = f"{lacking} variables that {name} lacks are 0, or their lower bound where they can't be 0" if lacking else ""
    return certificate(point, model), said
