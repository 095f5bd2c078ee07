#!/usr/bin/env python3
"""How many steps and processor seconds `solve --cuts C` takes on models without a decomposition, for several C.

    bench/cuts.py [SECONDS] [NAME..]   SECONDS: how long each run may take (30 where no number is given), the root alone six times as long
                                       NAME: only these models; names of `bench/models.py` may be among them, which with `+dec`
                                       behind them are solved with their decomposition
    CUTS=0,32,256 BPRICE=program bench/cuts.py

A line for each model: its answer, and for each number of cuts the steps (splits and shut leaves) and the processor seconds of a run with a
certificate that `check` accepts, the cuts of the certificate, and the bound after one step, which is that of the root; how much of the gap between
the first of these bounds and the answer the last closes; then the seconds and values of CBC and of GLPK, where these are installed. Where the answers
for several numbers of cuts differ, or a certificate is not accepted, it ends with status 1.
"""
import os
import random
import re
import resource
import subprocess
import sys
import tempfile
from itertools import combinations

sys.dont_write_bytecode = True
sys.path.insert(0, os.path.dirname(os.path.realpath(__file__)))
from models import SIZES, Text, make  # noqa: E402
import solve  # noqa: E402

TOP = os.path.dirname(os.path.dirname(os.path.realpath(__file__)))
PROGRAM = os.path.realpath(os.environ.get("BPRICE", f"{TOP}/bprice"))
CUTS = [int(number) for number in os.environ.get("CUTS", "0,32,256").split(",")]
NAMES = [
    *(f"parity-{count}" for count in (20, 30, 40, 60)),
    *(f"partition-{size}" for size in ("30-200", "30-200-s2", "40-300", "40-300-s2", "50-400")),
    *(f"edges-{nodes}" for nodes in ("12", "14", "15", "15-s2", "18")), "knapsack-30-5",
    *(f"tiles-{size}" for size in ("4-5", "4-6", "5-6", "5-7", "6-6")),
    "planar-8-28", "minors-7-21", "minors-8-28", "minors-9-36", "orders-5-10", "orders-6-12", "orders-6-13",
    "assignment-C-5-40", "assignment-C-5-60", "assignment-gen-40-s2", "assignment-gen-40-s3",
    *(name for name in SIZES if name != "bins-t-249"),
]


def parity(count):
    """Binaries of which twice the sum is odd: no point."""
    text = Text()
    terms = [(2, f"x{i}") for i in range(count)]
    text.cost(1, "x0")
    for _, var in terms:
        text.integer(var, 1)
    text.row("odd", terms, "=", count + 1)
    return text


def partition(draw, rows, columns):
    """Set partitioning: columns of two to five rows that cover each row once, as cheaply as can be; a dear column for each row alone."""
    text = Text()
    sets = [draw.sample(range(rows), draw.randint(2, 5)) for _ in range(columns)] + [[i] for i in range(rows)]
    for k, own in enumerate(sets):
        text.cost(draw.randint(10, 20) * len(own) if len(own) > 1 else 40, f"y{k}")
        text.integer(f"y{k}", 1)
    for i in range(rows):
        text.row(f"r{i}", [(1, f"y{k}") for k, own in enumerate(sets) if i in own], "=", 1)
    return text


def edges(draw, nodes):
    """Colouring of a graph's nodes with a row for each edge and colour: as few of five colours as can be."""
    text = Text()
    colours = range(5)
    for c in colours:
        text.cost(1, f"w{c}")
        text.integer(f"w{c}", 1)
    for v in range(nodes):
        for c in colours:
            text.integer(f"x{v}_{c}", 1)
        text.row(f"node{v}", [(1, f"x{v}_{c}") for c in colours], "=", 1)
    for u in range(nodes):
        for v in range(u + 1, nodes):
            if draw.random() < 0.4:
                for c in colours:
                    text.row(f"edge{u}_{v}_{c}", [(1, f"x{u}_{c}"), (1, f"x{v}_{c}"), (-1, f"w{c}")], "<=", 0)
    return text


PIECES = {
    "F": "01 02 10 11 21", "I": "00 01 02 03 04", "L": "00 01 02 03 13", "N": "00 01 11 12 13", "P": "00 01 10 11 20", "T": "00 01 02 11 21",
    "U": "00 01 10 20 21", "V": "00 01 02 12 22", "W": "00 01 11 12 22", "X": "01 10 11 12 21", "Y": "00 01 02 03 11", "Z": "00 01 11 21 22",
}


def shapes(cells):
    """A piece turned and turned over."""
    found = set()
    for turn in range(8):
        moved = cells
        for _ in range(turn % 4):
            moved = [(b, -a) for a, b in moved]
        if turn > 3:
            moved = [(a, -b) for a, b in moved]
        least = min(a for a, _ in moved), min(b for _, b in moved)
        found.add(tuple(sorted((a - least[0], b - least[1]) for a, b in moved)))
    return sorted(found)


def tiles(draw, height, width):
    """As many cells of a board as can be covered by the twelve pentominoes, each of which is there once."""
    text, covers, of_piece = Text(), {}, {}
    for name, cells in PIECES.items():
        for shape in shapes([(int(cell[0]), int(cell[1])) for cell in cells.split()]):
            for a in range(height):
                for b in range(width):
                    if all(a + i < height and b + j < width for i, j in shape):
                        var = f"{name}{sum(map(len, of_piece.values()))}"
                        of_piece.setdefault(name, []).append(var)
                        text.cost(-5, var)
                        text.integer(var, 1)
                        for i, j in shape:
                            covers.setdefault((a + i, b + j), []).append(var)
    for (a, b), over in sorted(covers.items()):
        text.row(f"cell{a}_{b}", [(1, var) for var in over], "<=", 1)
    for name, places in of_piece.items():
        text.row(f"piece{name}", [(1, var) for var in places], "<=", 1)
    return text


def graph(draw, nodes, many):
    """So many edges of a graph on these nodes, each as its lesser and its greater node."""
    return sorted(draw.sample(list(combinations(range(nodes), 2)), many))


def minors(draw, nodes, many):
    """Edges of a graph, of each complete graph on five nodes and each complete bipartite one on three and three not all, of the greatest weight."""
    text, chosen = Text(), graph(draw, nodes, many)
    for u, v in chosen:
        text.cost(-draw.randint(10, 30), f"e{u}_{v}")
        text.integer(f"e{u}_{v}", 1)
    fives = [(five, list(combinations(five, 2))) for five in combinations(range(nodes), 5)]
    halves = [(one, [v for v in six if v not in one]) for six in combinations(range(nodes), 6) for one in combinations(six, 3) if six[0] in one]
    sixes = [((*one, *other), sorted((min(u, v), max(u, v)) for u in one for v in other)) for one, other in halves]
    for kind, whole in (("k", fives), ("b", sixes)):
        for own, pairs in whole:
            if set(pairs) <= set(chosen):
                text.row(kind + "_".join(map(str, own)), [(1, f"e{u}_{v}") for u, v in pairs], "<=", len(pairs) - 1)
    return text


def planar(draw, nodes, many):
    """The same with no more edges than a planar graph may have."""
    text = minors(draw, nodes, many)
    text.row("euler", [(1, var) for var in text.binary], "<=", 3 * nodes - 6)
    return text


def orders(draw, nodes, many):
    """A planar subgraph of the greatest weight: three orders of the nodes, in one of which each node stands above each edge that it is not on.
    W. Schnyder, Planar graphs and poset dimension, 1989."""
    text, every = Text(), range(nodes)
    for t in range(3):
        for u, v in combinations(every, 2):
            text.integer(f"l{t}_{u}_{v}", 1)
        for u, v, w in combinations(every, 3):
            terms = [(1, f"l{t}_{u}_{v}"), (1, f"l{t}_{v}_{w}"), (-1, f"l{t}_{u}_{w}")]
            text.row(f"least{t}_{u}_{v}_{w}", terms, ">=", 0)
            text.row(f"most{t}_{u}_{v}_{w}", terms, "<=", 1)
    for u, v in graph(draw, nodes, many):
        text.cost(-draw.randint(10, 30), f"e{u}_{v}")
        text.integer(f"e{u}_{v}", 1)
        for w in every:
            if w in (u, v):
                continue
            above = [f"s{t}_{u}_{v}_{w}" for t in range(3)]
            for t, var in enumerate(above):
                text.integer(var, 1)
                for x in (u, v):
                    terms, side = ([(-1, f"l{t}_{x}_{w}")], 0) if x < w else ([(1, f"l{t}_{w}_{x}")], 1)
                    text.row(f"{var}_{x}", [(1, var), *terms], "<=", side)
            text.row(f"edge{u}_{v}_{w}", [*((1, var) for var in above), (-1, f"e{u}_{v}")], ">=", 0)
    return text


OWN = {
    "parity": lambda draw, *sizes: parity(*sizes), "partition": partition, "edges": edges, "tiles": tiles, "minors": minors, "planar": planar,
    "orders": orders,
}


def model(name):
    """The LP text of a model, and the DEC text where its name asks for it."""
    name, _, ending = name.partition("+")
    found = re.fullmatch(r"([a-z]+)((?:-\d+)+)(?:-s(\d+))?", name)
    if found and found[1] in OWN:
        return OWN[found[1]](random.Random(name), *(int(number) for number in found[2][1:].split("-"))).texts()[0], None
    lp, dec = make(name)
    return lp, dec if ending else None


def run(limit, *words):
    """What the program prints within so many processor seconds, or None, and the seconds that it took."""
    before = resource.getrusage(resource.RUSAGE_CHILDREN)
    ran = subprocess.run(["bash", "-c", f'ulimit -t {limit}; exec "$@"', "run", PROGRAM, *words], stdout=subprocess.PIPE, text=True)
    after = resource.getrusage(resource.RUSAGE_CHILDREN)
    took = after.ru_utime + after.ru_stime - before.ru_utime - before.ru_stime
    return (ran.stdout if ran.returncode >= 0 else None), took


def solved(limit, room, texts, cuts):
    """The answer for texts with at most so many cuts, what is told of the run, and whether the certificate is accepted."""
    cert = f"{room}/cert"
    told, took = run(limit, "solve", *texts, "--cuts", str(cuts), "--cert", cert)
    first, _ = run(6 * limit, "solve", *texts, "--cuts", str(cuts), "--steps", "1")
    bound = "" if first is None else re.sub(r".*?(-?\d+|infeasible).*", r"\1", first.split("\n", 2)[first.startswith("budget")])
    if told is None:
        return None, ["", f"over {limit}", "", bound], True
    with open(cert, encoding="ascii") as text:
        lines = text.read().split("\n")
    steps = sum(row.startswith(("split", "leaf")) for row in lines)
    answer = told.split("\n", 1)[0]
    judged, _ = run(10 * limit, "check", *texts, cert)
    return answer, [steps, f"{took:.2f}", sum(row.startswith("cut") for row in lines), bound], judged == f"accepted {answer}\n"


def closed(answers, roots):
    """How much of the gap between the root's bound with the fewest cuts and the answer the root with the most cuts closes, in whole percent."""
    words = [root for root in roots if root]
    if len(answers) != 1 or len(words) < len(roots):
        return ""
    best = next(iter(answers)).rsplit(" ", 1)[-1]
    if words[0] == best:
        return "no gap"
    if words[-1] == best:
        return "100 %"
    if best == "infeasible":
        return "0 %"
    return f"{100 * (int(words[-1]) - int(words[0])) // (int(best) - int(words[0]))} %"


def main():
    limit = int(sys.argv[1]) if len(sys.argv) > 1 and sys.argv[1].isdigit() else 30
    names = [word for word in sys.argv[1:] if not word.isdigit()] or NAMES
    solve.LIMIT = limit
    heads = ["Model", "Answer", *(f"{what} {cuts}" for cuts in CUTS for what in ("Steps", "Seconds", "Cuts", "Root"))]
    heads += [f"Gap closed, {CUTS[-1]}", "CBC", "GLPK"]
    print("|", " | ".join(heads), "|\n|" + "---|" * len(heads), flush=True)
    status = 0
    with tempfile.TemporaryDirectory() as room:
        for name in names:
            lp = f"{room}/model.lp"
            words = [lp]
            for path, text in zip((lp, f"{room}/model.dec"), model(name)):
                if text is not None:
                    with open(path, "w", encoding="ascii") as file:
                        file.write(text)
                    words += [] if path == lp else ["--dec", path]
            runs = [solved(limit, room, words, cuts) for cuts in CUTS]
            answers = {answer for answer, _, _ in runs if answer is not None}
            told = [str(word) for _, words, _ in runs for word in words]
            told += [closed(answers, [words[3] for _, words, _ in runs]), *solve.others(lp)]
            print("|", " | ".join([name, ", ".join(sorted(answers)) or "open", *told]), "|", flush=True)
            if len(answers) > 1 or not all(accepted for _, _, accepted in runs):
                print(f"{name}: the answers differ, or a certificate is not accepted", file=sys.stderr)
                status = 1
    sys.exit(status)


if __name__ == "__main__":
    if {"-h", "--help"} & set(sys.argv[1:]):
        print(__doc__)
        sys.exit()
    main()
