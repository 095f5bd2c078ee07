#!/usr/bin/env python3
"""Models with block structure, each with its decomposition: the classes of the literature by their recipes, made from a seed.

    bench/models.py FOLDER             writes NAME.lp and NAME.dec of each model of SIZES into a folder
    bench/models.py FOLDER NAME..      only these, or all whose names begin so
    bench/models.py                    prints the names

`make(NAME)` gives the two texts. A NAME is a class and its numbers, as `assignment-C-5-100` or `bins-u-120`; `-s3` behind it is a seed
(1 where none stands). Models past the usual limits of bprice, which `--large` reads, are those of LARGE_SIZES (`bench/large.py`), and others
can be asked for by name. Sources: P. C. Chu and J. E. Beasley, A genetic algorithm for the generalised assignment problem, 1997 (A to D);
M. Yagiura and others, A variable depth search algorithm with branching search for the generalized assignment problem, 1998 (E);
E. Falkenauer, A hybrid grouping genetic algorithm for bin packing, 1996 (bins of sizes and of triplets).
"""
import math
import random
import re
import sys


class Text:
    """The rows, spans and blocks of a minimisation, and the texts that they make."""

    def __init__(self):
        self.costs, self.rows, self.bounds, self.binary, self.general, self.blocks = [], [], [], [], [], []

    def cost(self, coef, var):
        if coef != 0:
            self.costs.append((coef, var))

    def row(self, name, terms, sense, rhs, block=None):
        self.rows.append((name, terms, sense, rhs))
        if block is not None:
            while len(self.blocks) <= block:
                self.blocks.append([])
            self.blocks[block].append(name)

    def integer(self, var, high, low=0):
        if (low, high) == (0, 1):
            self.binary.append(var)
        else:
            self.general.append(var)
            self.bounds.append(f"{low} <= {var} <= {high}")

    def texts(self):
        lines = ["Minimize", " obj: " + sum_of(self.costs), "Subject To"]
        lines += [f" {name}: {sum_of(terms)} {sense} {rhs}" for name, terms, sense, rhs in self.rows]
        lines += section("Bounds", self.bounds, 1) + section("Generals", self.general, 12) + section("Binaries", self.binary, 12)
        dec = [f"NBLOCKS {len(self.blocks)}"]
        for number, rows in enumerate(self.blocks):
            dec += [f"BLOCK {number + 1}", *rows]
        return "\n".join([*lines, "End"]) + "\n", "\n".join(dec) + "\n"


def sum_of(terms):
    """Terms in lines of ten."""
    parts, line = [], []
    for place, (coef, var) in enumerate(terms):
        sign = ("- " if coef < 0 else "") if place == 0 else ("- " if coef < 0 else "+ ")
        line.append(sign + (f"{abs(coef)} " if abs(coef) != 1 else "") + var)
        if len(line) == 10:
            parts, line = [*parts, " ".join(line)], []
    return "\n   ".join([*parts, " ".join(line)] if line else parts)


def section(word, entries, width):
    lines = [" " + " ".join(entries[k:k + width]) for k in range(0, len(entries), width)]
    return [word, *lines] if lines else []


def assignment(draw, kind, agents, jobs):
    """Generalised assignment of class A, B, C, D or E: each job to one agent, within the agents' capacities, as cheaply as can be."""
    agent, job = range(agents), range(jobs)
    if kind == "E":
        weight = [[max(1, round(1 - 10 * math.log(1 - draw.random()))) for _ in job] for _ in agent]
        cost = [[round(1000 / weight[i][j] - 10 * draw.random()) for j in job] for i in agent]
    elif kind == "D":
        weight = [[draw.randint(1, 100) for _ in job] for _ in agent]
        cost = [[111 - weight[i][j] + draw.randint(-10, 10) for j in job] for i in agent]
    else:
        weight = [[draw.randint(5, 25) for _ in job] for _ in agent]
        cost = [[draw.randint(10, 50) for _ in job] for _ in agent]
    if kind in "AB":
        cheapest = [min(agent, key=lambda i, j=j: cost[i][j]) for j in job]
        most = max(sum(weight[i][j] for j in job if cheapest[j] == i) for i in agent)
        room = [int(9 * jobs / agents + 0.4 * most)] * agents
        room = [int(0.7 * most) for most in room] if kind == "B" else room
    else:
        room = [int(0.8 * sum(weight[i]) / agents) for i in agent]
    text = Text()
    for i in agent:
        for j in job:
            text.cost(cost[i][j], f"x{i}_{j}")
            text.integer(f"x{i}_{j}", 1)
    for j in job:
        text.row(f"job{j}", [(1, f"x{i}_{j}") for i in agent], "=", 1)
    for i in agent:
        text.row(f"cap{i}", [(weight[i][j], f"x{i}_{j}") for j in job], "<=", room[i], i)
    return text


def generated(seed, agents, jobs):
    """Generalised assignment as `bprice gen` draws it, for four agents."""
    state, weight, cost = seed, [], []
    for _ in range(agents * jobs):
        first = (state * 6364136223846793005 + 1442695040888963407) % 2**64
        state = (first * 6364136223846793005 + 1442695040888963407) % 2**64
        weight.append(5 + (first >> 33) % 21)
        cost.append(10 + (state >> 33) % 41)
    text = Text()
    for i in range(agents):
        for j in range(jobs):
            text.cost(cost[i * jobs + j], f"x{i}_{j}")
            text.integer(f"x{i}_{j}", 1)
    for j in range(jobs):
        text.row(f"job{j}", [(1, f"x{i}_{j}") for i in range(agents)], "=", 1)
    for i in range(agents):
        own = weight[i * jobs:(i + 1) * jobs]
        text.row(f"cap{i}", [(own[j], f"x{i}_{j}") for j in range(jobs)], "<=", sum(own) // 5, i)
    return text


def first_fit(sizes, room):
    """How many bins first fit takes, the greatest first."""
    bins = []
    for size in sorted(sizes, reverse=True):
        place = next((k for k, left in enumerate(bins) if left >= size), None)
        if place is None:
            bins.append(room - size)
        else:
            bins[place] -= size
    return len(bins)


def cut(text, sizes, orders, room, many):
    """Orders of pieces of sizes, cut from so many identical rolls, as few as can be."""
    kinds = range(len(sizes))
    for k in range(many):
        text.cost(1, f"u{k}")
        text.integer(f"u{k}", 1)
        for i in kinds:
            text.integer(f"z{i}_{k}", min(orders[i], room // sizes[i]))
        text.row(f"w{k}", [*((sizes[i], f"z{i}_{k}") for i in kinds), (-room, f"u{k}")], "<=", 0, k)
    for i in kinds:
        text.row(f"d{i}", [(1, f"z{i}_{k}") for k in range(many)], "=" if orders[i] == 1 else ">=", orders[i])
    return text


def by_size(sizes, room):
    """Items into identical bins, one more than their sizes fill, items of one size as one order."""
    kinds = sorted(set(sizes), reverse=True)
    return cut(Text(), kinds, [sizes.count(size) for size in kinds], room, sum(sizes) // room + 2)


def uniform(draw, items):
    return [draw.randint(20, 100) for _ in range(items)]


def triplets(draw, items):
    sizes = []
    for _ in range(items // 3):
        first = draw.randint(380, 490)
        second = draw.randint(250, (999 - first) // 2)
        sizes += [first, second, 1000 - first - second]
    return sizes


def small_bins(draw, items):
    """Items of sizes 20 to 60 into identical bins of 100, each item for itself."""
    sizes = [draw.randint(20, 60) for _ in range(items)]
    return cut(Text(), sizes, [1] * items, 100, items // 2)


def small_rolls(draw, kinds):
    """Orders of 2 to 6 pieces of each of some widths from 16 to 50, cut from identical rolls of 100."""
    sizes = [draw.randint(16, 50) for _ in range(kinds)]
    orders = [draw.randint(2, 6) for _ in range(kinds)]
    return cut(Text(), sizes, orders, 100, 2 * kinds)


def rolls(draw, kinds):
    """Orders of 2 to 6 pieces of each of some widths, cut from identical rolls of 1000."""
    sizes = sorted(draw.sample(range(150, 501), kinds), reverse=True)
    orders = [draw.randint(2, 6) for _ in range(kinds)]
    pieces = [size for size, order in zip(sizes, orders) for _ in range(order)]
    return cut(Text(), sizes, orders, 1000, first_fit(pieces, 1000))


def places(draw, many, square=100):
    return [(draw.randint(0, square), draw.randint(0, square)) for _ in range(many)]


def far(one, other):
    return round(math.hypot(one[0] - other[0], one[1] - other[1]))


def median(draw, sites):
    """So many sites, of which an eighth are opened so that each site's way to the nearest open one is short in all."""
    at, every, text = places(draw, sites), range(sites), Text()
    for k in every:
        text.integer(f"y{k}", 1)
        for i in every:
            text.cost(far(at[i], at[k]), f"x{i}_{k}")
            text.integer(f"x{i}_{k}", 1)
            text.row(f"o{i}_{k}", [(1, f"x{i}_{k}"), (-1, f"y{k}")], "<=", 0, k)
    for i in every:
        text.row(f"a{i}", [(1, f"x{i}_{k}") for k in every], "=", 1)
    text.row("open", [(1, f"y{k}") for k in every], "=", max(2, sites // 8))
    return text


def capacitated_median(draw, sites):
    """So many sites with a demand of 1 to 20 each, a tenth of them opened with a capacity of 120, so that each site's way to its open one is short in all."""
    at, every, text = places(draw, sites), range(sites), Text()
    demand = [draw.randint(1, 20) for _ in every]
    for k in every:
        text.integer(f"y{k}", 1)
        for i in every:
            text.cost(far(at[i], at[k]), f"x{i}_{k}")
            text.integer(f"x{i}_{k}", 1)
        text.row(f"cap{k}", [*((demand[i], f"x{i}_{k}") for i in every), (-120, f"y{k}")], "<=", 0, k)
    for i in every:
        text.row(f"a{i}", [(1, f"x{i}_{k}") for k in every], "=", 1)
    text.row("open", [(1, f"y{k}") for k in every], "=", sites // 10)
    return text


def facility(draw, sites, clients):
    """Facility location: open sites serve each client whole within their capacities, for a cost of opening and of ways."""
    site, client = range(sites), range(clients)
    at, to = places(draw, sites), places(draw, clients)
    demand = [draw.randint(5, 35) for _ in client]
    text = Text()
    for k in site:
        room = 3 * sum(demand) * draw.randint(80, 120) // (100 * sites)
        text.cost(draw.randint(150, 300), f"y{k}")
        text.integer(f"y{k}", 1)
        for j in client:
            text.cost(far(at[k], to[j]), f"x{k}_{j}")
            text.integer(f"x{k}_{j}", 1)
        text.row(f"cap{k}", [*((demand[j], f"x{k}_{j}") for j in client), (-room, f"y{k}")], "<=", 0, k)
    for j in client:
        text.row(f"s{j}", [(1, f"x{k}_{j}") for k in site], "=", 1)
    return text


def colouring(draw, nodes, percent):
    """The nodes of a random graph in as few colours as can be, neighbours in different ones."""
    every = range(nodes)
    edges = [(i, j) for i in every for j in range(i + 1, nodes) if draw.randint(1, 100) <= percent]
    colour = []
    for i in every:
        taken = {colour[j] for j in range(i) if (j, i) in set(edges)}
        colour.append(next(k for k in range(nodes) if k not in taken))
    many, text = max(colour) + 1, Text()
    for k in range(many):
        text.cost(1, f"y{k}")
        text.integer(f"y{k}", 1)
        for i in every:
            text.integer(f"x{i}_{k}", 1)
        for i, j in edges:
            text.row(f"e{i}_{j}_{k}", [(1, f"x{i}_{k}"), (1, f"x{j}_{k}"), (-1, f"y{k}")], "<=", 0, k)
    for i in every:
        text.row(f"n{i}", [(1, f"x{i}_{k}") for k in range(many)], "=", 1)
    return text


def general(draw, plants, goods):
    """Plants make goods to order within two capacities each: numbers to 9 of each good."""
    plant, good = range(plants), range(goods)
    order = [draw.randint(3, 3 * plants) for _ in good]
    text = Text()
    for k in plant:
        hours, steel = [[draw.randint(3, 20) for _ in good] for _ in range(2)]
        for i in good:
            text.cost(draw.randint(10, 60), f"x{i}_{k}")
            text.integer(f"x{i}_{k}", 9)
        for name, use in (("h", hours), ("m", steel)):
            room = int(1.2 * sum(use[i] * order[i] for i in good) / plants)
            text.row(f"{name}{k}", [(use[i], f"x{i}_{k}") for i in good], "<=", room, k)
    for i in good:
        text.row(f"g{i}", [(1, f"x{i}_{k}") for k in plant], ">=", order[i])
    return text


def lots(draw, items, periods):
    """Lot sizing: each item's demand of each period from production or stock, with a cost of setting up, under a shared capacity."""
    item, period, most = range(items), range(periods), 40
    text, load = Text(), [[] for _ in period]
    for i in item:
        setup, hold = draw.randint(60, 200), draw.randint(1, 5)
        for t in period:
            need = 0 if draw.random() < 0.13 else draw.randint(most // 10, most // 3)
            text.cost(setup, f"y{i}_{t}")
            text.cost(hold, f"s{i}_{t}")
            text.cost(draw.randint(1, 4), f"x{i}_{t}")
            text.integer(f"y{i}_{t}", 1)
            text.integer(f"x{i}_{t}", most)
            text.integer(f"s{i}_{t}", 2 * most)
            before = [(1, f"s{i}_{t - 1}")] if t > 0 else []
            text.row(f"d{i}_{t}", [*before, (1, f"x{i}_{t}"), (-1, f"s{i}_{t}")], "=", need, i)
            text.row(f"p{i}_{t}", [(1, f"x{i}_{t}"), (-most, f"y{i}_{t}")], "<=", 0, i)
            load[t] += [(1, f"x{i}_{t}"), (5, f"y{i}_{t}")]
    for t in period:
        text.row(f"c{t}", load[t], "<=", items * most // 2)
    return text


def vehicles(draw, many, orders, capacities):
    """Orders to vehicles within one capacity or two, for a cost of each vehicle and of each order on it."""
    text, every = Text(), range(orders)
    weight = [[draw.randint(4, 20) for _ in every] for _ in range(capacities)]
    for k in range(many):
        text.cost(draw.randint(60, 120), f"y{k}")
        text.integer(f"y{k}", 1)
        for i in every:
            text.cost(draw.randint(5, 40), f"x{i}_{k}")
            text.integer(f"x{i}_{k}", 1)
        for number, own in enumerate(weight):
            room = sum(own) * 12 // (10 * many)
            text.row(f"cap{number}_{k}", [*((own[i], f"x{i}_{k}") for i in every), (-room, f"y{k}")], "<=", 0, k)
    for i in every:
        text.row(f"o{i}", [(1, f"x{i}_{k}") for k in range(many)], "=", 1)
    return text


def roster(draw, nurses, days, alike):
    """Shifts early, late and night: at most one a day, no early or late after a night, no early after a late, five of seven days."""
    text, every = Text(), range(days)
    need = [[draw.randint(1, max(1, nurses // (4 + s))) for s in range(3)] for _ in every]
    for k in range(nurses):
        wish = [[1 if alike else draw.randint(1, 9) for _ in range(3)] for _ in every]
        for t in every:
            for s in range(3):
                text.cost(wish[t][s], f"x{k}_{t}_{s}")
                text.integer(f"x{k}_{t}_{s}", 1)
            text.row(f"d{k}_{t}", [(1, f"x{k}_{t}_{s}") for s in range(3)], "<=", 1, k)
        for t in range(days - 1):
            for s, after in ((2, 0), (2, 1), (1, 0)):
                text.row(f"f{k}_{t}_{s}{after}", [(1, f"x{k}_{t}_{s}"), (1, f"x{k}_{t + 1}_{after}")], "<=", 1, k)
        for t in range(days - 6):
            text.row(f"w{k}_{t}", [(1, f"x{k}_{u}_{s}") for u in range(t, t + 7) for s in range(3)], "<=", 5, k)
    for t in every:
        for s in range(3):
            text.row(f"n{t}_{s}", [(1, f"x{k}_{t}_{s}") for k in range(nurses)], ">=", need[t][s])
    return text


def crews(draw, many, duties):
    """Crews cover duties, each at least once, within their hours, for a cost of each crew and of each duty by it."""
    text, every = Text(), range(duties)
    hours = [draw.randint(2, 9) for _ in every]
    for k in range(many):
        text.cost(draw.randint(15, 30), f"y{k}")
        text.integer(f"y{k}", 1)
        able = [i for i in every if draw.random() < 0.5]
        for i in able:
            text.cost(draw.randint(1, 12), f"x{i}_{k}")
            text.integer(f"x{i}_{k}", 1)
        room = 2 * sum(hours) * draw.randint(80, 120) // (100 * many)
        text.row(f"h{k}", [*((hours[i], f"x{i}_{k}") for i in able), (-room, f"y{k}")], "<=", 0, k)
    names = set(text.binary)
    for i in every:
        text.row(f"c{i}", [(1, f"x{i}_{k}") for k in range(many) if f"x{i}_{k}" in names], ">=", 1)
    return text


def pairings(draw, many, flights):
    """Crews fly pairings of several flights within their hours, each flight once, or is paid for dearly where no crew does."""
    text, cover = Text(), [[] for _ in range(flights)]
    for k in range(many):
        own = []
        for i in range(flights):
            flown, var = draw.sample(range(flights), draw.randint(2, 4)), f"x{k}_{i}"
            text.cost(draw.randint(8, 14) * len(flown), var)
            text.integer(var, 1)
            own.append((sum(2 + flight % 4 for flight in flown), var))
            for flight in flown:
                cover[flight].append((1, var))
        text.row(f"h{k}", own, "<=", 13 * sum(2 + flight % 4 for flight in range(flights)) // (10 * many), k)
    for flight in range(flights):
        text.cost(40, f"u{flight}")
        text.integer(f"u{flight}", 1)
        text.row(f"f{flight}", [*cover[flight], (1, f"u{flight}")], "=", 1)
    return text


def conflicts(draw, agents, jobs):
    """A generalized assignment in which some jobs of one agent forbid others to another agent."""
    text, agent, job = Text(), range(agents), range(jobs)
    for k in agent:
        hours = [draw.randint(5, 25) for _ in job]
        for i in job:
            text.cost(draw.randint(10, 50), f"x{i}_{k}")
            text.integer(f"x{i}_{k}", 1)
        text.row(f"h{k}", [(hours[i], f"x{i}_{k}") for i in job], "<=", 11 * sum(hours) // (10 * agents), k)
    for i in job:
        text.row(f"g{i}", [(1, f"x{i}_{k}") for k in agent], "=", 1)
    pairs = [(k, l, i, j) for k in agent for l in range(k + 1, agents) for i in job for j in job if i != j and draw.random() < 0.06]
    for k, l, i, j in pairs:
        text.row(f"c{i}_{k}_{j}_{l}", [(1, f"x{i}_{k}"), (1, f"x{j}_{l}")], "<=", 1)
    return text


def knapsack(draw, items, rows):
    """Items of a knapsack with several capacities, each half of what all items take; what an item takes tells most of its worth."""
    text, every = Text(), range(items)
    weight = [[draw.randint(5, 60) for _ in every] for _ in range(rows)]
    for j in every:
        text.cost(-(sum(own[j] for own in weight) // rows + draw.randint(1, 25)), f"x{j}")
        text.integer(f"x{j}", 1)
    for k, own in enumerate(weight):
        text.row(f"k{k}", [(own[j], f"x{j}") for j in every], "<=", sum(own) // 2)
    return text


def plants(draw, many, orders):
    """Plants take orders within their hours; each week for which they rent a machine together gives all of them more. An order brings little more
    than its hours. The weeks are one variable, which links the plants' blocks."""
    text, every, most = Text(), range(orders), 12
    hours = [[draw.randint(20, 100) for _ in every] for _ in range(many)]
    more = [sum(own) // (2 * most) for own in hours]
    text.cost(sum(more) * 23 // 20, "weeks")
    text.integer("weeks", most)
    for k, own in enumerate(hours):
        for i in every:
            text.cost(-(own[i] + 10), f"x{k}_{i}")
            text.integer(f"x{k}_{i}", 1)
        text.row(f"h{k}", [*((own[i], f"x{k}_{i}") for i in every), (-more[k], "weeks")], "<=", sum(own) // 4, k)
    return text


MAKERS = {
    "assignment-gen": lambda draw, seed, jobs: generated(seed, 4, jobs),
    **{f"assignment-{kind}": lambda draw, seed, agents, jobs, kind=kind: assignment(draw, kind, agents, jobs) for kind in "ABCDE"},
    "bins-small": lambda draw, seed, items: small_bins(draw, items),
    "bins-u": lambda draw, seed, items: by_size(uniform(draw, items), 150),
    "bins-single": lambda draw, seed, items: (lambda sizes: cut(Text(), sizes, [1] * items, 150, first_fit(sizes, 150)))(uniform(draw, items)),
    "bins-t": lambda draw, seed, items: by_size(triplets(draw, items), 1000),
    "rolls-small": lambda draw, seed, kinds: small_rolls(draw, kinds),
    "rolls": lambda draw, seed, kinds: rolls(draw, kinds),
    "median": lambda draw, seed, sites: median(draw, sites),
    "median-capacity": lambda draw, seed, sites: capacitated_median(draw, sites),
    "facility": lambda draw, seed, sites, clients: facility(draw, sites, clients),
    "colouring": lambda draw, seed, nodes, percent: colouring(draw, nodes, percent),
    "general": lambda draw, seed, plants, goods: general(draw, plants, goods),
    "lots": lambda draw, seed, items, periods: lots(draw, items, periods),
    "vehicles": lambda draw, seed, many, orders: vehicles(draw, many, orders, 1),
    "vehicles-two": lambda draw, seed, many, orders: vehicles(draw, many, orders, 2),
    "roster": lambda draw, seed, nurses, days: roster(draw, nurses, days, False),
    "roster-alike": lambda draw, seed, nurses, days: roster(draw, nurses, days, True),
    "crews": lambda draw, seed, many, duties: crews(draw, many, duties),
    "knapsack": lambda draw, seed, items, rows: knapsack(draw, items, rows),
    "plants": lambda draw, seed, many, orders: plants(draw, many, orders),
    "pairings": lambda draw, seed, many, flights: pairings(draw, many, flights),
    "conflicts": lambda draw, seed, agents, jobs: conflicts(draw, agents, jobs),
}

SIZES = [
    *(f"assignment-gen-{jobs}" for jobs in (12, 20, 40, 60)),
    *(f"assignment-gen-100-s{seed}" for seed in range(1, 9)),
    *(f"assignment-gen-{jobs}" for jobs in (150, 200, 300)),
    *(f"assignment-{kind}-5-100" for kind in "ABCDE"),
    *(f"assignment-C-{size}" for size in ("10-100", "20-100", "10-200")),
    *(f"assignment-{size}" for size in ("D-10-100", "E-10-100", "E-10-200")),
    *(f"bins-small-{items}-s7" for items in (18, 24, 30, 40, 60)),
    *(f"rolls-small-{kinds}-s7" for kinds in (6, 8, 10, 12, 15)),
    *(f"bins-u-120-s{seed}" for seed in range(1, 6)),
    "bins-single-80",
    *(f"bins-t-{items}-s{seed}" for items in (60, 120) for seed in (1, 2, 3)),
    "bins-t-249",
    *(f"rolls-{kinds}-s{seed}" for kinds in (40, 50) for seed in (1, 2, 3)),
    "median-25", "median-40",
    "facility-12-40", "facility-20-60",
    "colouring-20-50", "colouring-30-50", "colouring-40-50", "colouring-40-30",
    "general-5-8", "general-10-10",
    "lots-4-6", "lots-10-12",
    "vehicles-5-25", "vehicles-two-5-25", "vehicles-two-6-36",
    "roster-6-7", "roster-10-7", "roster-10-14", "roster-alike-10-14",
    "crews-10-25", "crews-20-50",
    "plants-2-25", "plants-2-40", "plants-3-25",
    "pairings-5-20", "pairings-8-40", "conflicts-4-20", "conflicts-5-30",
]

# Models that are read with --large alone.
LARGE_SIZES = [
    "bins-u-250", "bins-u-500", "bins-u-1000", "bins-u-5000",
    "bins-single-100", "bins-single-200", "bins-single-500", "bins-single-1000",
    "bins-t-249", "bins-t-501",
    "rolls-100", "rolls-200",
    "roster-80-28", "roster-200-28", "roster-500-28",
    "median-80", "median-150", "median-250", "median-400",
    "median-capacity-100", "median-capacity-200",
    "assignment-C-20-400", "assignment-C-40-400", "assignment-D-20-400", "assignment-E-20-400",
    "facility-40-160", "facility-60-240",
    "colouring-80-50", "colouring-125-50",
    "vehicles-two-20-200",
]


def model(name):
    """A model by its name."""
    found = re.fullmatch(r"([A-Za-z-]+?)((?:-\d+)+)(?:-s(\d+))?", name)
    seed = int(found[3] or 1)
    numbers = [int(number) for number in found[2][1:].split("-")]
    return MAKERS[found[1]](random.Random(f"{name}" if found[3] else f"{name}-s1"), seed, *numbers)


def make(name):
    """The LP and the DEC text of a model."""
    return model(name).texts()


def main():
    if len(sys.argv) < 2:
        print("\n".join(SIZES))
        return
    asked = sys.argv[2:]
    names = [name for name in SIZES if not asked or any(name.startswith(one) for one in asked)]
    names += [one for one in asked if not any(name.startswith(one) for name in SIZES)]
    for name in names:
        for ending, text in zip(("lp", "dec"), make(name)):
            with open(f"{sys.argv[1]}/{name}.{ending}", "w", encoding="ascii") as file:
                file.write(text)


if __name__ == "__main__":
    main()
