#!/usr/bin/env python3
"""Small random models, solved at once and by crews. Each model is solved without its decomposition and with it, and again by one to five
workers whose turns are drawn; both must answer the best value, which is found here by going over all points of the blocks, and the crew's
certificate must be accepted by `check` and by tools/check_certificate.py. It prints a line for each case that is wrong and one with the
counts, and ends with status 1 where one is wrong.

    bench/crews.py [MODELS]              so many models (1,000 where no number is given)
    bench/crews.py --script [MODELS]     a script for crates/test_scripts with so many of them (48): crates/test_scripts/data/crews.txt
    bench/crews.py --expected [MODELS]   what this script must answer, found by going over all points: no program is run
    BPRICE=program bench/crews.py        another program than ./bprice
"""
import importlib.util
import itertools
import os
import subprocess
import sys
import tempfile
from collections import Counter

HERE = os.path.dirname(os.path.realpath(__file__))
BPRICE = os.environ.get("BPRICE", f"{HERE}/../bprice")
CHECKER = f"{HERE}/../tools/check_certificate.py"


class Draws:
    """A state from which numbers are drawn, as those of `gen` are."""

    def __init__(self, seed):
        self.state = seed

    def below(self, count):
        self.state = (self.state * 6364136223846793005 + 1442695040888963407) % 2**64
        return (self.state >> 33) % count


class Model:
    """A model of two or three blocks of two or three variables."""

    def __init__(self, draws):
        self.blocks, self.width = 2 + draws.below(2), 2 + draws.below(2)
        self.names = [[f"x{block}_{place}" for place in range(self.width)] for block in range(self.blocks)]
        self.sense = "Maximize" if draws.below(2) else "Minimize"
        self.costs = self.each(lambda: (-1 if draws.below(2) else 1) * (1 + draws.below(9)))
        self.rows = [self.row_over_all(draws, "=")]
        self.rows.append(self.row_over_all(draws, ">=" if draws.below(2) else "="))
        self.capacities = [([2 + draws.below(19) for _ in names], 20 + draws.below(40)) for names in self.names]
        self.spans = self.each(lambda: (-1 if draws.below(2) else 0, 1 + draws.below(6)))

    def each(self, make):
        """A value for each variable, block by block."""
        return [[make() for _ in names] for names in self.names]

    def row_over_all(self, draws, mark):
        coefs = self.each(lambda: 2 + draws.below(19))
        return coefs, mark, 40 + draws.below(30)

    def texts(self):
        """The LP text and the DEC text."""
        def terms(coefs, names):
            return "".join(f" {'-' if coef < 0 else '+'} {abs(coef)} {name}" for coef, name in zip(coefs, names))
        flat = list(itertools.chain(*self.names))
        lines = [self.sense, "obj:" + terms(itertools.chain(*self.costs), flat), "Subject To"]
        lines += [f"{terms(itertools.chain(*coefs), flat)} {mark} {side}" for coefs, mark, side in self.rows]
        lines += [f"b{k}:{terms(coefs, names)} <= {side}" for k, (names, (coefs, side)) in enumerate(zip(self.names, self.capacities))]
        bounds = [" ".join(f"{low} <= {name} <= {high}" for name, (low, high) in zip(names, spans)) for names, spans in zip(self.names, self.spans)]
        dec = [f"NBLOCKS {self.blocks}", *(f"BLOCK {k + 1} b{k}" for k in range(self.blocks))]
        return "\n".join([*lines, "Bounds", *bounds, "Generals", " ".join(flat), "End"]) + "\n", "\n".join(dec) + "\n"

    def points_of(self, block):
        """Of each point of a block that its row allows: its numbers, its part of the value, and of each row over all."""
        coefs, side = self.capacities[block]
        for point in itertools.product(*(range(low, high + 1) for low, high in self.spans[block])):
            def total(numbers, point=point):
                return sum(number * x for number, x in zip(numbers, point))
            if total(coefs) <= side:
                yield point, total(self.costs[block]), tuple(total(row[block]) for row, _, _ in self.rows)

    def best(self):
        """The best value over all points, how many points have it, and one of them; None where there is no point. It goes over all points
        of a block, and keeps of those with the same sums in the two rows over all what is best so far."""
        sign = 1 if self.sense == "Maximize" else -1
        best = {(0, 0): (0, 1, ())}
        for block in range(self.blocks):
            following, points = {}, list(self.points_of(block))
            for (one, other), (value, count, begun) in best.items():
                for point, part, (first, second) in points:
                    key, new = (one + first, other + second), value + part
                    known, others, kept = following.get(key, (new, 0, begun + point))
                    if new == known:
                        following[key] = new, others + count, kept
                    elif sign * new > sign * known:
                        following[key] = new, count, begun + point
            best = following
        ends = [found for sums, found in best.items()
                if all(total >= side and (total == side or mark == ">=") for total, (_, mark, side) in zip(sums, self.rows))]
        if not ends:
            return None
        value = sign * max(sign * value for value, _, _ in ends)
        return value, sum(count for it, count, _ in ends if it == value), next(point for it, _, point in ends if it == value)

    def answer(self):
        """The first line that `solve` must print."""
        best = self.best()
        return "infeasible" if best is None else f"optimal {best[0]}"


class Scene:
    """A model of a script, with its decomposition or without, and the commands over it. It has one best point alone or no point at all, so
    that each report is known."""

    def __init__(self, model, best, draws, has_dec, title):
        self.texts = dict(list(zip(("m.lp", "m.dec"), model.texts()))[:1 + has_dec])
        dec = " --dec m.dec" if has_dec else ""
        self.heading = f"# {title}, {'with' if has_dec else 'without'} its blocks: {'no point' if best is None else 'one best point'}"
        answer = "infeasible" if best is None else f"optimal {best[0]}"
        point = [] if best is None else [f"{name} {x}" for name, x in zip(itertools.chain(*model.names), best[2])]
        solved, checked = [answer, *point, f"status {4 if best is None else 0}"], [f"accepted {answer}", "status 0"]
        self.runs = [(f"solve m.lp{dec}", solved)]
        for workers in range(1, 6):
            self.runs.append((f"solve m.lp{dec} --workers {workers} --order {draws.below(2**31)} --cert c", solved))
            self.runs.append((f"check m.lp c{dec}", checked))

    def script(self):
        return ["", self.heading, *(f"file {name}\n{text}." for name, text in self.texts.items()), *(f"run {command}" for command, _ in self.runs)]

    def expected(self):
        return [self.heading, *(line for command, report in self.runs for line in [f"> {command}", *report])]


def scenes(many):
    """So many models, in the order of their seeds: each third one has no point, each second one its decomposition."""
    seed = 0
    for number in range(many):
        while True:
            draws = Draws(seed)
            model = Model(draws)
            best, seed = model.best(), seed + 1
            if best is None if number % 3 == 2 else best is not None and best[1] == 1:
                yield Scene(model, best, draws, number % 2 == 1, f"model {seed - 1}")
                break


TITLE = "# small random models, drawn by bench/crews.py --script: each is solved at once, and by crews of one to five workers"


def script(drawn):
    """A script over some models."""
    return "\n".join([TITLE, *(line for scene in drawn for line in scene.script())]) + "\n"


def expected(drawn):
    """What this script must answer."""
    return "\n".join([TITLE, *(line for scene in drawn for line in scene.expected())]) + "\n"


def checker():
    """The checker as a module."""
    sys.dont_write_bytecode = True
    spec = importlib.util.spec_from_file_location("check_certificate", CHECKER)
    module = importlib.util.module_from_spec(spec)
    spec.loader.exec_module(module)
    return module


def run(*words):
    """The first line of what the program prints, and its status."""
    ran = subprocess.run([BPRICE, *words], capture_output=True, text=True, check=False)
    return ran.stdout.split("\n", 1)[0], ran.returncode


def read(name):
    with open(name, "rb") as file:
        return file.read()


class Trial:
    """The cases that are tried, with their counts."""

    def __init__(self, room):
        self.lp, self.dec, self.cert = (f"{room}/m.{ending}" for ending in ("lp", "dec", "cert"))
        self.counts, self.checker = Counter(), checker()

    def try_model(self, seed):
        draws = Draws(seed)
        model = Model(draws)
        for name, text in zip((self.lp, self.dec), model.texts()):
            with open(name, "w", encoding="ascii") as file:
                file.write(text)
        answer = model.answer()
        self.counts["models"] += 1
        self.counts["infeasible"] += answer == "infeasible"
        for dec in (None, self.dec):
            workers, order = 1 + draws.below(5), draws.below(2**31)
            for fault in self.faults(answer, dec, workers, order):
                self.counts["wrong"] += 1
                print(f"model {seed}, {'with' if dec else 'without'} its blocks, {workers} workers, order {order}: {fault}", flush=True)

    def faults(self, answer, dec, workers, order):
        """What is wrong with one case."""
        words = ["--dec", dec] if dec else []
        told = (answer, 4 if answer == "infeasible" else 0)
        whole = run("solve", self.lp, *words)
        crew = run("solve", self.lp, *words, "--workers", str(workers), "--order", str(order), "--cert", self.cert)
        judged = run("check", self.lp, self.cert, *words)
        again = self.checker.check(read(self.lp), read(self.cert), read(dec) if dec else None)
        nodes = read(self.cert).count(b"\nsplit ")
        self.counts.update({"cases": 1, "with one worker": workers == 1, "with splits": nodes > 0, "splits": nodes})
        if whole != told:
            yield f"solve answers {whole}, and the best is {told}"
        if crew != told:
            yield f"the crew answers {crew}, and the best is {told}"
        if judged != (f"accepted {answer}", 0):
            yield f"check answers {judged}"
        if again != f"accepted {answer}":
            yield f"check_certificate.py answers {again}"


def main():
    numbers = [int(word) for word in sys.argv[1:] if not word.startswith("--")]
    for option, text in (("--script", script), ("--expected", expected)):
        if option in sys.argv[1:]:
            sys.stdout.write(text(scenes(*numbers or [48])))
            return
    with tempfile.TemporaryDirectory() as room:
        trial = Trial(room)
        for seed in range(*numbers or [1000]):
            trial.try_model(seed)
    counts = trial.counts
    print(f"{counts['models']} models, {counts['infeasible']} of them infeasible; {counts['cases']} crews, {counts['with one worker']} of one worker; "
          f"{counts['with splits']} certificates with splits, {counts['splits']} splits in all; {counts['wrong']} wrong")
    sys.exit(1 if counts["wrong"] else 0)


if __name__ == "__main__":
    if {"-h", "--help"} & set(sys.argv[1:]):
        print(__doc__)
        sys.exit()
    main()
