"""The program in a farm's folder, with the model that stands there."""
import os
import re
import subprocess

from processes import Processes

OPTIMAL, WORDS, INFEASIBLE, BUDGET, FAULT = 0, 2, 4, 5, 1  # statuses of the program; the last is the driver's own


class Refused(Exception):
    """A run that can't go on: what is printed, and the status."""

    def __init__(self, report, status, note=""):
        super().__init__(report)
        self.report, self.status, self.note = report, status, note


class Program:
    """The program, in the farm's folder, with its model. While it runs `look` is called, which may raise what ends it."""

    def __init__(self, processes: Processes, look):
        self.folder, self.processes, self.look = processes.folder, processes, look
        self.model = ["--dec", "model.dec"] if (self.folder / "model.dec").exists() else []
        self.model += ["--large"] if (self.folder / "model.large").exists() else []

    def call(self, *words):
        """What the program prints and its status."""
        told, status = self.processes.call(["./bprice", *words, *self.model], self.look)
        return told.decode("latin-1"), status

    def solve(self, steps, is_new=False):
        """So many steps from the tree that stands, or of a new one; it takes its place. The report and its status."""
        start = [] if is_new else ["--from", "tree.cert"]
        report, status = self.call("solve", "model.lp", *start, "--steps", str(steps), "--cert", "tree.part")
        if status not in (OPTIMAL, INFEASIBLE, BUDGET):
            raise Refused(report, status, f"{self.folder}/tree.cert is there, and is no certificate to go on from" if start else "")
        self.replace()
        return report, status

    def bound(self):
        """The bound that the model has without a search, None where that says more. A folder without a tree gets the tree that shows it."""
        is_new = not (self.folder / "tree.cert").exists()
        report, status = self.call("solve", "model.lp", "--steps", "0", *(["--cert", "tree.part"] if is_new else []))
        if is_new and status in (OPTIMAL, INFEASIBLE, BUDGET):
            self.replace()
        found = re.match(r"budget 0\nbound (-?[0-9]+)\n", report)
        return found and int(found[1])

    def begin_alone(self, report):
        """A search of the whole model, which writes the certificate alone.cert and its report."""
        return self.processes.begin(["./bprice", "solve", "model.lp", "--cert", "alone.cert", *self.model], stdin=subprocess.DEVNULL, stdout=report)

    def accepts(self, new):
        return self.call("check", "model.lp", new)[1] == 0

    def shut(self, start, new):
        """Has the search judge a tree and shut what its value settles. Whether there is a new tree."""
        return self.call("solve", "model.lp", "--from", start, "--steps", "0", "--cert", new)[1] in (OPTIMAL, INFEASIBLE, BUDGET)

    def replace(self):
        with open(self.folder / "tree.part", "rb") as part:
            os.fsync(part.fileno())
        os.replace(self.folder / "tree.part", self.folder / "tree.cert")
