"""Several best plans, one after the other: `tools/bprice-run --plans K` calls this.

Each next plan is the optimum of the model's text with rows that exclude the plans before it, so each has a text and a certificate of its own.
A plan is excluded by one row that says how far a point is from it: of a variable that the plan has at its lower bound the row counts how far it is
above, at its upper bound how far it is below, and in all at least 1. For a variable between its bounds two binary variables are added, one
that can be 1 only where the variable is greater, one only where it is less.
"""
import os
import signal
import subprocess
import sys

HERE = os.path.dirname(os.path.realpath(__file__))
sys.path.insert(0, os.path.join(HERE, "..", "integrations", "python"))
from bprice import lp as texts  # noqa: E402

OPTIMAL, INFEASIBLE, BUDGET = 0, 4, 5


class Exclusion:
    """What is added to a model's text so that one plan is no point any more: rows, binary variables, and what they mean, all as lines of text."""

    def __init__(self, model, plan, place):
        """:param model: the parsed text of the model; :param plan: {variable: value}; :param place: the plan's number, which makes the names"""
        self.name = fresh(f"plan{place}", model.rows)
        self.rows, self.row_names, self.binaries, self.notes = [], [], [], []
        self.terms, self.side, self.model = [], 1, model
        for number, (name, (low, high)) in enumerate(model.spans.items(), 1):
            if low < high:
                self.count(number, name, low, high, plan[name])
        self.add(self.name, " ".join(self.terms) or f"0 {next(iter(model.spans))}", ">=", self.side)

    def add(self, name, terms, mark, side):
        self.rows.append(f" {name}: {terms} {mark} {side}")
        self.row_names.append(name)

    def count(self, number, name, low, high, value):
        """Counts how far a variable is from its value in the plan."""
        if value == low:
            self.terms.append(f"+ {name}")
            self.side += low
        elif value == high:
            self.terms.append(f"- {name}")
            self.side -= high
        else:
            above, below = (fresh(f"{self.name}_{word}{number}", self.model.spans) for word in ("above", "below"))
            self.notes += [f"\\ {above} can be 1 only where {name} is more than {value}, {below} only where it is less"]
            self.add(fresh(above, self.model.rows), f"{name} - {value + 1 - low} {above}", ">=", low)
            self.add(fresh(below, self.model.rows), f"{name} + {high - value + 1} {below}", "<=", high)
            self.terms += [f"+ {above}", f"+ {below}"]
            self.binaries += [above, below]


def fresh(name, taken):
    """The name, with underscores behind it as long as it is taken."""
    while name in taken:
        name += "_"
    return name


def with_exclusions(text, model, exclusions):
    """A model's text, as str, with the rows behind its own and the variables in a section of their own; nothing else of it is changed."""
    rows = "".join(f"{line}\n" for exclusion in exclusions for line in (*exclusion.notes, *exclusion.rows))
    binaries = [name for exclusion in exclusions for name in exclusion.binaries]
    section = f"Binaries {' '.join(binaries)}\n" if binaries else ""
    return text[:model.rows_end] + rows + text[model.rows_end:model.end] + section + text[model.end:]


def with_masters(dec, exclusions):
    """A decomposition's text with the added rows as master rows."""
    return dec + "".join(f"\nMASTERCONSS {' '.join(exclusion.row_names)}\n" for exclusion in exclusions)


class Plans:
    """The search for plans. `words` are those of bprice-run's command line, `left` tells the seconds that are left, None where there is no end."""

    def __init__(self, words, left):
        self.words, self.left, self.child, self.is_stopped = words, left, None, False
        self.text = self.model = None  # read once the first plan is there: the program tells what is wrong with the text

    def stop(self, number, _frame):
        self.is_stopped = True
        if self.child is not None and self.child.poll() is None:
            self.child.send_signal(number)

    def run(self, lp, cert, dec):
        """The report and the status of bprice-run for one text."""
        command = [sys.executable, "-S", "-E", os.path.join(HERE, "bprice-run"), lp, "--cert", cert, *(["--dec", dec] if dec else [])]
        command += self.words.limits()
        left = self.left()
        command += [] if left is None else ["--time", str(max(0.0, left))]
        command += [] if self.words.steps is None else ["--steps", str(self.words.steps)]
        with subprocess.Popen(command, stdout=subprocess.PIPE) as self.child:
            return self.child.communicate()[0].decode("latin-1"), self.child.returncode

    def write_texts(self, place, plans):
        """The names of the text, the certificate and the decomposition of the plan at a place. A certificate of another text is removed."""
        cert = f"{self.words.cert}.{place}"
        exclusions = [Exclusion(self.model, plan, number) for number, plan in enumerate(plans, 1)]
        dec = None
        if self.words.dec:
            dec = f"{cert}.dec"
            source = f"{self.words.cert}.dec" if self.words.dec == "auto" else self.words.dec
            write(dec, with_masters(read(source), exclusions))
        text = with_exclusions(self.text, self.model, exclusions)
        if os.path.exists(cert) and not (os.path.exists(f"{cert}.lp") and read(f"{cert}.lp") == text):
            os.remove(cert)
        write(f"{cert}.lp", text)
        return f"{cert}.lp", cert, dec

    def search(self):
        """Prints the plans as they are found; the status of the whole."""
        lp, cert, dec = self.words.lp, self.words.cert, self.words.dec
        plans, best = [], None
        while True:
            report, status = self.run(lp, cert, dec)
            if status not in (OPTIMAL, INFEASIBLE) or not plans and status == INFEASIBLE:
                sys.stdout.write(f"plan {len(plans) + 1} of {lp}, certificate {cert}\n" * bool(plans) + report)
                return status
            if status == INFEASIBLE:
                print(f"no further plan: infeasible, certificate {cert} of {lp}")
                return OPTIMAL
            head, *lines = report.rstrip("\n").split("\n")
            value = int(head.split(" ")[1])
            best = value if best is None else best
            if self.words.within is not None and abs(value - best) > self.words.within * max(1, abs(best)):
                print(f"no further plan within {100 * self.words.within:g}%: optimal {value}, certificate {cert} of {lp}")
                return OPTIMAL
            self.take(lp, cert, head, lines, plans)
            if len(plans) == self.words.plans:
                return OPTIMAL
            if not self.model.spans:
                print("no further plan: the model has no variables")
                return OPTIMAL
            if self.is_stopped:
                return BUDGET
            lp, cert, dec = self.write_texts(len(plans) + 1, plans)

    def take(self, lp, cert, head, lines, plans):
        """Prints a plan, and keeps its point."""
        if self.model is None:
            self.text = read(lp)
            self.model = texts.parse(self.text.encode("latin-1"))
        point = dict(line.split(" ") for line in lines)
        print(f"plan {len(plans) + 1} of {lp}, certificate {cert}", head, *(f"{name} {point[name]}" for name in self.model.spans), sep="\n", flush=True)
        plans.append({name: int(point[name]) for name in self.model.spans})


def read(name):
    with open(name, encoding="latin-1", newline="") as file:
        return file.read()


def write(name, text):
    with open(name, "w", encoding="latin-1", newline="") as file:
        file.write(text)


def search(words, left):
    """The plans that bprice-run's words ask for, and the status: 0 where all are found or no further one is there, else that of the last search."""
    plans = Plans(words, left)
    for number in (signal.SIGINT, signal.SIGTERM):
        signal.signal(number, plans.stop)
    return plans.search()
