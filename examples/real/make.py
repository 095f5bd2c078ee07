#!/usr/bin/env python3
"""Writes problems of the literature as LP texts, with decompositions where they have one: NAME.lp and NAME.dec.

    examples/real/make.py [FOLDER [NAME ..]]        into FOLDER, the current one where none is named; all problems, or those that are named
    examples/real/make.py --solve [FOLDER]          and solves them, compares their values with the known ones, and has the certificates judged

README.md has the source of each problem. BPRICE names the program, where it is not to be the launcher's.
"""
import dataclasses
import itertools
import math
import pathlib
import sys
import time

HERE = pathlib.Path(__file__).resolve().parent
sys.path[:0] = [str(HERE), str(HERE.parents[1] / "integrations" / "python")]
import bprice  # noqa: E402
import facts  # noqa: E402


@dataclasses.dataclass
class Problem:
    """A model, the block of each of its rows that is in one, the value that is known, None where there is no point, and options of `solve`."""
    model: bprice.Model
    known: int
    blocks: dict = None
    options: dict = dataclasses.field(default_factory=dict)


def binaries(model, names):
    for name in names:
        model.add_variable(name, 0, 1)


def gap_c515_1():
    """Fifteen jobs on five agents: the blocks are agents."""
    model, costs = bprice.Model("max"), {}
    agents, jobs = range(len(facts.GAP_ROOM)), range(len(facts.GAP_HOURS[0]))
    for i, j in itertools.product(agents, jobs):
        costs[f"x{i + 1}_{j + 1}"] = facts.GAP_PROFITS[i][j]
    binaries(model, costs)
    model.set_objective(costs)
    for j in jobs:
        model.add_row(f"job{j + 1}", {f"x{i + 1}_{j + 1}": 1 for i in agents}, 1, 1)
    for i in agents:
        model.add_row(f"agent{i + 1}", {f"x{i + 1}_{j + 1}": facts.GAP_HOURS[i][j] for j in jobs}, high=facts.GAP_ROOM[i])
    return Problem(model, 336, {f"agent{i + 1}": i for i in agents})


def geographic(one, other):
    """The distance of two places in TSPLIB's kilometres. 3.141592 and 6378.388 are the numbers of that library."""
    def radians(degrees):
        whole = math.trunc(degrees)
        return 3.141592 * (whole + 5 * (degrees - whole) / 3) / 180
    latitude, longitude = ((radians(a), radians(b)) for a, b in zip(one, other))
    q1, q2, q3 = math.cos(longitude[0] - longitude[1]), math.cos(latitude[0] - latitude[1]), math.cos(latitude[0] + latitude[1])
    return int(6378.388 * math.acos(((1 + q1) * q2 - (1 - q1) * q3) / 2) + 1)


# Groups of ports of which a tour leaves each at least twice: those that shorter plans without such rows went round by themselves.
SUBTOURS = [(1, 8, 16), (2, 3, 4), (12, 13, 14), (5, 6, 7, 9, 10, 11, 15), (1, 2, 3, 4, 8, 16), (1, 2, 3, 4, 8)]


def ulysses16():
    """A shortest tour through sixteen ports: each has two of the links. The rows for groups of ports are those that are needed."""
    model, ports = bprice.Model("min"), range(1, len(facts.ULYSSES) + 1)
    costs = {f"x{i}_{j}": geographic(facts.ULYSSES[i - 1], facts.ULYSSES[j - 1]) for i, j in itertools.combinations(ports, 2)}
    binaries(model, costs)
    model.set_objective(costs)
    for i in ports:
        model.add_row(f"port{i}", {f"x{min(i, j)}_{max(i, j)}": 1 for j in ports if j != i}, 2, 2)
    for number, group in enumerate(SUBTOURS, 1):
        inside = {f"x{i}_{j}": 1 for i, j in itertools.combinations(sorted(group), 2)}
        model.add_row(f"group{number}", inside, high=len(group) - 1)
    return Problem(model, 6859)


def length(order, places):
    """How long the round trip is from the first place to those of an order, each distance rounded."""
    return sum(math.floor(math.dist(places[i], places[j]) + 0.5) for i, j in zip((0, *order), (*order, 0)))


def p_n16_k8():
    """Eight vehicles and fifteen customers: a variable for each group of customers that a vehicle holds, with its shortest round trip."""
    places, demands = zip(*facts.ROUTING)
    customers, costs, visits = range(1, len(places)), {}, {}
    for size in range(1, len(places)):
        for group in itertools.combinations(customers, size):
            if sum(demands[i] for i in group) <= facts.ROUTING_HOLDS:
                name = "r" + "_".join(map(str, group))
                costs[name], visits[name] = min(length(order, places) for order in itertools.permutations(group)), group
    model = bprice.Model("min")
    binaries(model, costs)
    model.set_objective(costs)
    for i in customers:
        model.add_row(f"customer{i}", {name: 1 for name, group in visits.items() if i in group}, 1, 1)
    model.add_row("vehicles", dict.fromkeys(costs, 1), facts.ROUTING_VEHICLES, facts.ROUTING_VEHICLES)
    return Problem(model, 450)


def paper_rolls(machine_rolls=73):
    """The fewest rolls of the machine from which the ordered ones are cut: the blocks are the machine's rolls, which are identical."""
    model, each = bprice.Model("min"), range(1, machine_rolls + 1)
    for k in each:
        for width in facts.ROLLS:
            model.add_variable(f"x{width}_{k}", 0, facts.MACHINE // width)
        model.add_variable(f"used{k}", 0, 1)
    model.set_objective({f"used{k}": 1 for k in each})
    for width, many in facts.ROLLS.items():
        model.add_row(f"order{width}", {f"x{width}_{k}": 1 for k in each}, many)
    for k in each:
        model.add_row(f"roll{k}", {**{f"x{width}_{k}": width for width in facts.ROLLS}, f"used{k}": -facts.MACHINE}, high=0)
    return Problem(model, 73, {f"roll{k}": k for k in each})


def knapsack_p08():
    """Twenty-four things and a sack."""
    model = bprice.Model("max")
    names = [f"x{j}" for j in range(1, len(facts.SACK_WEIGHTS) + 1)]
    binaries(model, names)
    model.set_objective(dict(zip(names, facts.SACK_PROFITS)))
    model.add_row("sack", dict(zip(names, facts.SACK_WEIGHTS)), high=facts.SACK_HOLDS)
    return Problem(model, 13549094)


def coloring(cliques, vertices, colors, known):
    """The fewest colours: the blocks are colours, which are identical, and their rows groups of vertices that have different ones."""
    model, each = bprice.Model("min"), range(1, colors + 1)
    binaries(model, [f"x{v}_{c}" for c in each for v in vertices])
    binaries(model, [f"used{c}" for c in each])
    model.set_objective({f"used{c}": 1 for c in each})
    blocks = {}
    for v in vertices:
        model.add_row(f"vertex{v}", {f"x{v}_{c}": 1 for c in each}, 1, 1)
    for c in each:
        for number, clique in enumerate(cliques, 1):
            model.add_row(f"clique{number}_{c}", {**{f"x{v}_{c}": 1 for v in clique}, f"used{c}": -1}, high=0)
            blocks[f"clique{number}_{c}"] = c
    return Problem(model, known, blocks)


def queen_lines(size):
    """The rows, columns and diagonals of a board with more than one field, by the fields' numbers from 1."""
    fields = list(itertools.product(range(size), repeat=2))
    for line_of in (lambda r, c: r, lambda r, c: c, lambda r, c: r + c, lambda r, c: r - c):
        lines = {}
        for number, (r, c) in enumerate(fields, 1):
            lines.setdefault(line_of(r, c), []).append(number)
        yield from (line for line in lines.values() if len(line) > 1)


def queens(size, colors, known):
    """The fewest colours for queens on all fields of a board, where two of one colour don't attack each other."""
    return coloring(list(queen_lines(size)), range(1, size * size + 1), colors, known)


def mycielski(edges, vertices):
    """The graph without new triangles that needs one colour more: a twin for each vertex, with its neighbours, and one vertex beside all twins."""
    twins = [(min(u, v + vertices), max(u, v + vertices)) for a, b in edges for u, v in ((a, b), (b, a))]
    return edges + twins + [(v + vertices, 2 * vertices + 1) for v in range(1, vertices + 1)], 2 * vertices + 1


def myciel3():
    """Groetzsch's graph: eleven vertices without a triangle that need four colours."""
    edges, vertices = [(1, 2)], 2
    for _ in range(2):
        edges, vertices = mycielski(edges, vertices)
    return coloring(edges, range(1, vertices + 1), 5, 4)


def steiner27():
    """The fewest points that meet each line of the affine space of three dimensions over three elements."""
    points = list(itertools.product(range(3), repeat=3))
    number = {point: place for place, point in enumerate(points, 1)}
    model = bprice.Model("min")
    binaries(model, [f"x{place}" for place in number.values()])
    model.set_objective({f"x{place}": 1 for place in number.values()})
    for one, other in itertools.combinations(points, 2):
        third = tuple(-(a + b) % 3 for a, b in zip(one, other))
        if one < other < third:
            line = [number[point] for point in (one, other, third)]
            model.add_row("line" + "_".join(map(str, line)), {f"x{place}": 1 for place in line}, 1)
    return Problem(model, 18)


def cars10():
    """An order of ten cars in which no option comes too often. The objective is empty."""
    model, places = bprice.Model("min"), range(1, sum(many for many, _ in facts.CAR_CLASSES) + 1)
    classes = range(1, len(facts.CAR_CLASSES) + 1)
    binaries(model, [f"x{k}_{place}" for k in classes for place in places])
    for place in places:
        model.add_row(f"place{place}", {f"x{k}_{place}": 1 for k in classes}, 1, 1)
    for k in classes:
        model.add_row(f"class{k}", {f"x{k}_{place}": 1 for place in places}, *[facts.CAR_CLASSES[k - 1][0]] * 2)
    for option, (most, row) in enumerate(facts.CAR_OPTIONS, 1):
        for first in range(1, len(places) - row + 2):
            terms = {f"x{k}_{place}": 1 for k in classes if facts.CAR_CLASSES[k - 1][1][option - 1] for place in range(first, first + row)}
            model.add_row(f"option{option}_{first}", terms, high=most)
    return Problem(model, 0)


def five_queens():
    """The fewest queens that attack or hold all fields of a chessboard."""
    model, fields = bprice.Model("min"), range(1, 65)
    lines = [set(line) for line in queen_lines(8)]
    binaries(model, [f"q{field}" for field in fields])
    model.set_objective({f"q{field}": 1 for field in fields})
    for field in fields:
        reach = sorted(set().union(*(line for line in lines if field in line)))
        model.add_row(f"field{field}", {f"q{other}": 1 for other in reach}, 1)
    return Problem(model, 5)


def placements(runs, length):
    """All ways to lay runs of filled cells into a line, as sets of cells from 0, with an empty cell or more between."""
    if not runs:
        yield frozenset()
        return
    first, rest = runs[0], runs[1:]
    for start in range(length - sum(runs) - len(rest) + 1):
        for others in placements(rest, length - start - first - 1):
            yield frozenset(range(start, start + first)) | frozenset(start + first + 1 + cell for cell in others)


def nonogram():
    """A puzzle with one solution. Each row and column takes one of its placements, and both agree on each cell."""
    model, cells = bprice.Model("min"), {}
    for kind, lines, length in (("row", facts.NONOGRAM_ROWS, len(facts.NONOGRAM_COLUMNS)), ("column", facts.NONOGRAM_COLUMNS, len(facts.NONOGRAM_ROWS))):
        for line, runs in enumerate(lines):
            every = {f"{kind}{line + 1}_{number}": filled for number, filled in enumerate(placements(runs, length), 1)}
            binaries(model, every)
            model.add_row(f"{kind}{line + 1}", dict.fromkeys(every, 1), 1, 1)
            for name, filled in every.items():
                for cell in filled:
                    cells.setdefault((line, cell) if kind == "row" else (cell, line), []).append((name, 1 if kind == "row" else -1))
    for (row, column), terms in sorted(cells.items()):
        model.add_row(f"cell{row + 1}_{column + 1}", dict(terms), 0, 0)
    return Problem(model, 0)


def golfers(players=9, weeks=4):
    """Nine golfers play in threes for four weeks, and nobody meets another twice. The blocks are weeks, which are identical."""
    model, each = bprice.Model("min"), range(1, weeks + 1)
    groups = list(itertools.combinations(range(1, players + 1), 3))
    names, blocks = {(group, week): "g{}{}{}_{}".format(*group, week) for week in each for group in groups}, {}
    binaries(model, names.values())
    for pair in itertools.combinations(range(1, players + 1), 2):
        model.add_row("pair{}{}".format(*pair), {name: 1 for (group, _), name in names.items() if set(pair) <= set(group)}, high=1)
    for week in each:
        for player in range(1, players + 1):
            model.add_row(f"player{player}_{week}", {names[group, week]: 1 for group in groups if player in group}, 1, 1)
            blocks[f"player{player}_{week}"] = week
    return Problem(model, 0, blocks)


def schur14():
    """The most of the numbers 1 to 14 that get one of three colours, where no sum of two numbers, or of one with itself, has their colour."""
    model, numbers, colors = bprice.Model("max"), range(1, 15), range(1, 4)
    names = {(n, c): f"x{n}_{c}" for n in numbers for c in colors}
    binaries(model, names.values())
    model.set_objective(dict.fromkeys(names.values(), 1))
    for n in numbers:
        model.add_row(f"number{n}", {names[n, c]: 1 for c in colors}, high=1)
    for a, b, c in itertools.product(numbers, numbers, colors):
        if a <= b and a + b in numbers:
            model.add_row(f"sum{a}_{b}_{c}", {names[n, c]: 1 for n in {a, b, a + b}}, high=len({a, b, a + b}) - 1)
    return Problem(model, 13)


def golomb(length=16, known=5):
    """The most marks on a ruler of length 16 where no two pairs are equally far apart: six marks need length 17."""
    model, places = bprice.Model("max"), range(length + 1)
    binaries(model, [f"x{p}" for p in places])
    model.set_objective({f"x{p}": 1 for p in places})
    apart = {}
    for p, q in itertools.combinations(places, 2):
        model.add_variable(f"y{p}_{q}", 0, 1)
        model.add_row(f"both{p}_{q}", {f"x{p}": 1, f"x{q}": 1, f"y{p}_{q}": -1}, high=1)
        apart.setdefault(q - p, {})[f"y{p}_{q}"] = 1
    for distance, terms in apart.items():
        model.add_row(f"distance{distance}", terms, high=1)
    return Problem(model, known)


def langford(pairs):
    """Two of each number 1 to `pairs` in a row, where between the two of k there are k others. There is one where the pairs are 3 or 0 modulo 4."""
    model, places = bprice.Model("min"), range(1, 2 * pairs + 1)
    names = {(k, place): f"x{k}_{place}" for k in range(1, pairs + 1) for place in places if place + k + 1 in places}
    binaries(model, names.values())
    for k in range(1, pairs + 1):
        model.add_row(f"number{k}", {name: 1 for (other, _), name in names.items() if other == k}, 1, 1)
    for place in places:
        model.add_row(f"place{place}", {name: 1 for (k, first), name in names.items() if place in (first, first + k + 1)}, 1, 1)
    return Problem(model, 0 if pairs % 4 in (0, 3) else None)


PROBLEMS = {
    "gap_c515_1": gap_c515_1, "ulysses16": ulysses16, "p_n16_k8": p_n16_k8, "paper_rolls": paper_rolls, "knapsack_p08": knapsack_p08,
    "queen6_6": lambda: queens(6, 8, 7), "queen8_8": lambda: queens(8, 10, 9), "myciel3": myciel3, "steiner27": steiner27, "cars10": cars10,
    "five_queens": five_queens, "nonogram": nonogram, "golfers9": golfers, "schur14": schur14, "golomb16": golomb,
    "langford7": lambda: langford(7), "langford6": lambda: langford(6),
}


def write(folder, name):
    """Writes a problem's texts, and returns it with their names."""
    problem, lp, dec = PROBLEMS[name](), folder / f"{name}.lp", folder / f"{name}.dec"
    problem.model.write(lp)
    if problem.blocks:
        dec.write_text(problem.model.decomposition(problem.blocks), encoding="ascii")
    return problem, lp, dec if problem.blocks else None


def solve(folder, name):
    """Solves a problem, prints a line, and returns whether all is as it is known."""
    problem, lp, dec = write(folder, name)
    begin = time.monotonic()
    answer = bprice.solve(lp, dec, cert=folder / f"{name}.cert", **problem.options)
    took, known = time.monotonic() - begin, "infeasible" if problem.known is None else f"optimal {problem.known}"
    accepted = answer.check()
    print(f"{name}: {accepted}, known {known}, {took:.1f} s", flush=True)
    return accepted == f"accepted {known}"


def main():
    words = [word for word in sys.argv[1:] if word != "--solve"]
    if any(word.startswith("-") for word in words):
        print(__doc__.strip())
        return 0 if words in (["--help"], ["-h"]) else 2
    folder, names = pathlib.Path(words[0] if words else "."), words[1:] or list(PROBLEMS)
    folder.mkdir(parents=True, exist_ok=True)
    if "--solve" in sys.argv[1:]:
        return 0 if all([solve(folder, name) for name in names]) else 1
    for name in names:
        write(folder, name)
    return 0


if __name__ == "__main__":
    sys.exit(main())
