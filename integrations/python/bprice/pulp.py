"""bprice as a solver of PuLP: exact whole-number models, with answers that are proved.

    import pulp
    from bprice.pulp import BPRICE_CMD

    model = pulp.LpProblem("jobs", pulp.LpMinimize)
    ...
    model.solve(BPRICE_CMD(blocks={"cap_1": 1, "cap_2": 2}))

The model is written exactly. Numbers are taken as they are written in decimals (0.1 is one tenth), and each row is scaled to whole numbers.
Variables have to be whole and bounded; a bound that is missing is taken from the rows where they give one. What can't be said to bprice is
a PulpSolverError that names the variable or row at fault.
"""
import collections
import logging
import os
import subprocess
import sys
import time

import pulp
from pulp import constants
from pulp.apis.core import LpSolver_CMD, PulpSolverError

from bprice import model as models
from bprice.answer import HELP, STATUSES, Answer, limits
from bprice.exact import Refused, end_of
from bprice.program import find_runner, repository

LOG = logging.getLogger("bprice_pulp")
SIDES = {constants.LpConstraintLE: (None, 1), constants.LpConstraintGE: (1, None), constants.LpConstraintEQ: (1, 1)}


class Model(models.Model):
    """A PuLP problem in whole numbers."""

    ADVICE = {"lower": "set its lowBound", "upper": "set its upBound"}

    def __init__(self, problem, tell):
        super().__init__("max" if problem.sense == constants.LpMaximize else "min", tell)
        self.problem = problem
        if problem.sos1 or problem.sos2:
            raise Refused("the model has SOS constraints, which bprice does not know")
        variables = [variable for variable in problem.variables() if variable.name != "__dummy"]
        twice = [name for name, count in collections.Counter(variable.name for variable in variables).items() if count > 1]
        if twice:
            raise Refused(f"two variables have the name {twice[0]!r}")
        for variable in variables:
            self.take_variable(variable)
        objective = problem.objective if problem.objective is not None else {}
        self.set_objective(terms_of(objective), getattr(objective, "constant", 0))
        for name, row in problem.constraints.items():
            low, high = (None if side is None else -row.constant for side in SIDES[row.sense])
            self.add_row(name, terms_of(row), low, high)
        if not self.is_crossed:
            self.bound_by_rows()

    def take_variable(self, variable):
        ends = [end_of(end, f"a bound of {variable.name}") for end in (variable.lowBound, variable.upBound)]
        is_fixed = None not in ends and ends[0] == ends[1] and ends[0].denominator == 1
        if variable.cat != constants.LpInteger and not is_fixed:
            raise Refused(f"the variable {variable.name!r} is continuous; bprice solves models of whole variables alone "
                          "(cat='Integer' or cat='Binary')")
        self.add_variable(variable.name, *ends)

    def decomposition(self, blocks):
        """The DEC text. PuLP keeps a constraint under its name with some characters replaced."""
        for name in blocks:
            if name not in self.rows and name.translate(pulp.LpElement.trans) not in self.rows:
                raise Refused(f"blocks name the constraint {name!r}, which the model does not have")
        return super().decomposition({name if name in self.rows else name.translate(pulp.LpElement.trans): block for name, block in blocks.items()})

    def start_by_values(self):
        """A certificate that begins the search with the variables' values, or None where they are no point of the model."""
        return self.start({variable.name: variable.varValue for variable in self.problem.variables()})


def terms_of(expression):
    return {variable.name: a for variable, a in expression.items() if variable.name != "__dummy"}


class BPRICE_CMD(LpSolver_CMD):
    """bprice called by its command line."""

    name = "BPRICE_CMD"

    def __init__(self, path=None, keepFiles=False, mip=True, msg=True, options=None, timeLimit=None, gapRel=None, warmStart=False,
                 blocks=None, dec=None, large=False):
        """
        :param str path: the program; else BPRICE of the environment, the repository's launcher, or `bprice` on the PATH
        :param bool keepFiles: the texts, the certificate and the report stay in the current directory
        :param bool msg: what was written for bprice in other words, and its progress, are shown
        :param list options: further words for `solve`, as ["--steps", "1000"]; not together with timeLimit and gapRel
        :param float timeLimit: seconds after which the best point so far is taken
        :param float gapRel: how near the value has to come to the bound, as a part of the value
        :param bool warmStart: the search begins with the variables' values, where these are a point of the model
        :param dict blocks: {name of a constraint: its block}; what is left out is a master row
        :param str dec: the name of a decomposition's file in GCG's format, or "auto": `bprice propose` finds one
        :param bool large: the model may be a larger one, as with `bprice solve --large`
        """
        LpSolver_CMD.__init__(self, path=path, keepFiles=keepFiles, mip=mip, msg=msg, options=options, timeLimit=timeLimit,
                              gapRel=gapRel, warmStart=warmStart)
        if blocks is not None and dec is not None:
            raise PulpSolverError("bprice: blocks and dec both name a decomposition")
        self.blocks, self.dec, self.large, self.bound, self.report = blocks, dec, large, None, None

    def defaultPath(self):
        top = repository()
        return os.environ.get("BPRICE") or (str(top / "bprice") if top else self.executableExtension("bprice"))

    def available(self):
        """The program's path, or False"""
        return self.executable(self.path)

    def tell(self, line):
        LOG.info(line)
        if self.msg:
            print(line)

    def actualSolve(self, lp):
        """Solve a well formulated lp problem"""
        if not self.executable(self.path):
            raise PulpSolverError("PuLP: cannot execute " + self.path)
        if not self.mip:
            raise PulpSolverError("bprice: mip=False asks for the relaxation, which bprice does not solve")
        begin = time.monotonic()
        try:
            status = self.solve_exactly(lp)
        except Refused as refused:
            raise PulpSolverError(f"bprice: {refused}") from refused
        self.solution_time = time.monotonic() - begin
        return status

    def solve_exactly(self, lp):
        model = Model(lp, self.tell)
        self.bound = None
        if model.is_crossed:
            self.tell("bprice: a variable has no whole number within its bounds")
            return self.assign(lp, constants.LpStatusInfeasible, constants.LpSolutionInfeasible)
        files = dict(zip(("lp", "dec", "cert", "txt"), self.create_tmp_files(lp.name, "lp", "dec", "cert", "txt")))
        try:
            return self.solve_files(lp, model, files)
        finally:
            self.delete_tmp_files(*files.values(), files["cert"] + ".dec")

    def solve_files(self, lp, model, files):
        model.write(files["lp"])
        words = []
        if self.blocks is not None:
            write(files["dec"], model.decomposition(self.blocks))
            words = ["--dec", files["dec"]]
        elif self.dec is not None:
            words = ["--dec", self.propose(files) if self.dec == "auto" else self.dec]
        start = model.start_by_values() if self.optionsDict.get("warmStart") else None
        if os.path.exists(files["cert"]):
            os.remove(files["cert"])
        if start is not None:
            write(files["cert"], start)
        elif self.optionsDict.get("warmStart"):
            self.tell("bprice: the variables' values are no point of the model, and are left out")
        report, status = self.call(files, words, start is not None)
        self.report = report
        if self.keepFiles:
            write(files["txt"], report)
        return self.take(lp, model, report, status)

    def propose(self, files):
        ran = subprocess.run([self.path, "propose", files["lp"], files["dec"], *limits(self.large)], capture_output=True, text=True, check=False)
        if ran.returncode == 2:
            raise Refused("dec='auto' needs the command `propose`, which this bprice does not have")
        if ran.returncode != 0:
            raise Refused(f"propose ended with status {ran.returncode}: {ran.stdout.strip()}")
        self.tell("bprice: " + ran.stdout.strip())
        return files["dec"]

    def call(self, files, words, has_start):
        """The report and the status of `solve`, or of bprice-run where a time or a gap is given."""
        goes_on = self.knows_from()
        if has_start and not goes_on:
            self.tell("bprice: warmStart needs `solve --from`, which this bprice does not have: it is left out")
        gap, runner = self.optionsDict.get("gapRel"), find_runner()
        if (self.timeLimit is not None or gap is not None) and goes_on and runner:
            words = [sys.executable, runner, files["lp"], "--cert", files["cert"], *limits(self.large), *words, *self.options]
            words += [] if self.timeLimit is None else ["--time", str(self.timeLimit)]
            words += [] if gap is None else ["--gap", str(gap)]
            return self.run(words, {**os.environ, "BPRICE": str(self.path)})
        if gap is not None:
            self.tell("bprice: gapRel needs bprice-run and `solve --from`: it is left out")
        words = [self.path, "solve", files["lp"], *limits(self.large), *words, *self.options, "--cert", files["cert"]]
        if has_start and goes_on:
            words += ["--from", files["cert"]]
        return self.run(words, dict(os.environ), self.timeLimit)

    def run(self, words, environment, most=None):
        try:
            ran = subprocess.run(words, stdout=subprocess.PIPE, stderr=None if self.msg else subprocess.DEVNULL, env=environment, timeout=most,
                                 check=False)
        except subprocess.TimeoutExpired:
            self.tell("bprice: the time is over; without bprice-run and `solve --from` nothing is kept of the search")
            return "", 5
        return ran.stdout.decode("latin-1"), ran.returncode

    def knows_from(self):
        """Whether the program takes `solve --from`; the files are not there, so that nothing is solved."""
        return subprocess.run([self.path, "solve", "", "--from", ""], stdout=subprocess.DEVNULL, stderr=subprocess.DEVNULL,
                              check=False).returncode != 2

    def take(self, lp, model, report, status):
        """Gives the problem what the report says."""
        if status not in STATUSES:
            kind = (report.strip().split(" ") or [""])[-1]
            raise PulpSolverError(f"bprice ended with status {status}: {report.strip() or 'no report'}"
                                  + (f" ({HELP[kind]})" if kind in HELP else ""))
        answer = Answer(report, status, model.scale, model.own)
        self.bound = None if answer.bound is None else float(answer.bound)
        if answer.status == "infeasible":
            return self.assign(lp, constants.LpStatusInfeasible, constants.LpSolutionInfeasible)
        if answer.point is None:
            return self.assign(lp, constants.LpStatusNotSolved, constants.LpSolutionNoSolutionFound)
        lp.assignVarsVals(answer.point)
        is_optimal = answer.status == "optimal"
        return self.assign(lp, constants.LpStatusOptimal, constants.LpSolutionOptimal if is_optimal else constants.LpSolutionIntegerFeasible)

    @staticmethod
    def assign(lp, status, solution):
        lp.assignStatus(status, solution)
        return status


def write(name, text):
    with open(name, "w", encoding="ascii", newline="\n") as file:
        file.write(text)


# pulp.getSolver and pulp.listSolvers know this solver from now on.
if BPRICE_CMD.name not in [solver.name for solver in pulp.apis._all_solvers]:
    pulp.apis._all_solvers.append(BPRICE_CMD)
