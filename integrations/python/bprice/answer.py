"""Solving: calls of the program, and what its reports say."""
import fractions
import os
import pathlib
import sys
import tempfile

from bprice.exact import Refused
from bprice.program import call, find_program, find_runner

WORDS, STATUSES = 2, {0: "optimal", 4: "infeasible", 5: "budget"}
HELP = {
    "too-large": "a number is past 2^62 - 1 once the row is whole: give it fewer digits",
    "activity": "a row's sums may pass 2^62 - 1 once it is whole: give it fewer digits, or tighter bounds",
    "limit": "the model is larger than bprice takes: 4,096 variables, 8,192 rows, 65,536 terms, 8,192 binary digits of upper - lower bounds; "
             "with large=True 524,288, 524,288, 4,194,304 and 1,048,576",
}


class Answer:
    """
    What `solve` says of a model.

    status       "optimal", "infeasible", or "budget" where the time or the steps ran out
    value        the value of the point, an int or a Fraction; None where there is no point
    bound        what no point's value is better than; None where the model is infeasible
    point        {variable: whole value}, or None
    certificate  the path of the certificate's file, which `check` judges; where no name was given it is there as long as the answer is
    lp, dec      the paths of the texts that the certificate belongs to; dec is None where there was no decomposition
    report       what the program printed
    """

    def __init__(self, report, status, scale=1, names=None):
        self.report, self.status = report, STATUSES[status]
        words = [line.split(" ") for line in report.split("\n") if line]
        head = {word[0]: (place, int(word[1])) for place, word in enumerate(words[:3]) if len(word) == 2 and place_fits(place, word[0], self.status)}
        value_at, value = head.get("optimal") or head.get("value") or (None, None)
        bound = head["optimal"][1] if "optimal" in head else head["bound"][1] if "bound" in head else None
        self.value, self.bound = (None if number is None else plain(fractions.Fraction(number, scale)) for number in (value, bound))
        self.point = None
        if value_at is not None:
            written = {name: int(number) for name, number in words[value_at + 1:]}
            self.point = written if names is None else {name: written[own] for name, own in names.items()}
        self.certificate = self.lp = self.dec = self.program = self.room = None
        self.large = False  # whether the model was read as a larger one

    def check(self):
        """Has the certificate judged by the program's `check`: `accepted ..` where it is valid. Raises Refused where it is not."""
        return check(self.lp, self.certificate, self.dec, self.program, self.large)

    def __repr__(self):
        return f"<bprice.Answer {self.status} value={self.value} bound={self.bound}>"


def place_fits(place, word, status):
    """Whether the line at this place of a report is one of its head: what stands behind may be a variable that is named like one."""
    return {"optimal": place == 0 and status == "optimal", "bound": place == 1 and status == "budget",
            "value": place == 2 and status == "budget"}.get(word, False)


def plain(number):
    return int(number) if number.denominator == 1 else number


def refusal(report, status, errors):
    """The error for a status that is no answer."""
    kind = (report.strip().split(" ") or [""])[-1]
    return Refused(f"bprice ended with status {status}: {report.strip() or errors or 'no report'}"
                   + (f" ({HELP[kind]})" if kind in HELP else f" ({errors})" if report.strip() and errors else ""), status)


def check(lp, certificate, dec=None, program=None, large=False):
    """What `check` prints of a certificate: `accepted ..`. Raises Refused where the certificate is not valid or can't be read."""
    report, status, errors = call([find_program(program), "check", lp, certificate, *(["--dec", dec] if dec else []), *limits(large)])
    if status != 0:
        raise refusal(report, status, errors)
    return report.strip()


def limits(large):
    """The word for larger models."""
    return ["--large"] if large else []


class Files:
    """The files of a call: those that are named, and others in a folder that goes with the answer."""

    def __init__(self, lp, cert):
        self.room = tempfile.TemporaryDirectory(prefix="bprice-") if cert is None else None
        self.cert = os.fspath(cert) if cert is not None else os.path.join(self.room.name, "cert")
        self.lp = os.fspath(lp) if is_path(lp) else self.write(".lp", lp.text())
        self.dec = None

    def write(self, ending, text):
        """Writes a text beside the certificate, and returns its path."""
        pathlib.Path(self.cert + ending).write_bytes(text.encode("ascii"))
        return self.cert + ending


def is_path(value):
    return isinstance(value, (str, os.PathLike))


def solve(lp, dec=None, time=None, *, gap=None, steps=None, cuts=None, cert=None, start=None, program=None, large=False):
    """
    Solves a model, and leaves the certificate of what it says.

    :param lp: the path of an LP text, or a `bprice.Model`
    :param dec: the path of a decomposition; "auto": `bprice propose` writes one; or, with a Model, {name of a row: its block}
    :param time: seconds after which the best point so far is taken; for this and `gap` the repository's bprice-run is needed
    :param gap: how near the value has to come to the bound, as a part of the value: 0.01 is one in a hundred
    :param steps: after how many steps, each of which shuts a leaf of the tree or splits it, the search ends
    :param cuts: how many rounding cuts, at most 256, are added before the search
    :param cert: where the certificate is written; a Model's LP text and a decomposition that is made go beside it, as cert.lp and cert.dec
    :param start: a point {variable: value} with which the search begins (with a Model), or the path of a certificate to go on from
    :param program: the path of the program, see `find_program`
    :param large: whether the model may be a larger one, as with `bprice solve --large`
    :returns: an `Answer`
    :raises Refused: where the model can't be said to bprice, or the program refuses it, in words
    """
    program, files = find_program(program), Files(lp, cert)
    files.dec = decomposition(program, lp, dec, files, large)
    begin = beginning(lp, start, files)
    report, status, errors = search(program, files, begin, dict(time=time, gap=gap, steps=steps, cuts=cuts, large=large))
    if status not in STATUSES:
        raise refusal(report, status, errors)
    answer = Answer(report, status) if is_path(lp) else Answer(report, status, lp.scale, lp.own)
    answer.lp, answer.dec, answer.certificate, answer.program, answer.room = files.lp, files.dec, files.cert, program, files.room
    answer.large = large
    return answer


def decomposition(program, lp, dec, files, large):
    """The path of the decomposition, or None."""
    if dec is None or is_path(dec) and dec != "auto":
        return None if dec is None else os.fspath(dec)
    if dec != "auto":
        if is_path(lp):
            raise Refused("blocks by the names of rows go with a bprice.Model; for a file name a DEC file, or read it by bprice.Model.read")
        return files.write(".dec", lp.decomposition(dec))
    name = files.cert + ".dec"
    report, status, errors = call([program, "propose", files.lp, name, *limits(large)])
    if status != 0:
        raise refusal(report, status, errors)
    return name


def beginning(lp, start, files):
    """The certificate to go on from, or None."""
    if start is None or is_path(start):
        return None if start is None else os.fspath(start)
    if is_path(lp):
        raise Refused("a point to begin with goes with a bprice.Model; read the file by bprice.Model.read")
    text = lp.start(start)
    if text is None:
        raise Refused("the start is no point of the model")
    return files.write(".start", text)


def search(program, files, begin, wanted):
    """The report, the status and the errors of `solve`, or of bprice-run where a time or a gap is given."""
    words = [program, "solve", files.lp, *(["--dec", files.dec] if files.dec else []), "--cert", files.cert, *limits(wanted["large"])]
    words += [] if begin is None else ["--from", begin]
    words += [] if wanted["cuts"] is None else ["--cuts", wanted["cuts"]]
    if wanted["time"] is None and wanted["gap"] is None:
        return call(words + ([] if wanted["steps"] is None else ["--steps", wanted["steps"]]))
    runner = find_runner()
    if runner is None:
        raise Refused("time and gap need bprice-run, which was not found: it is in the repository's folder tools")
    if begin is not None or wanted["cuts"] is not None:
        first = call(words + ["--steps", 0])
        if first[1] != 5:
            return first
    elif os.path.exists(files.cert):
        os.remove(files.cert)
    run = [sys.executable, runner, files.lp, *(["--dec", files.dec] if files.dec else []), "--cert", files.cert, *limits(wanted["large"])]
    for name in ("time", "gap", "steps"):
        run += [] if wanted[name] is None else [f"--{name}", wanted[name]]
    return call(run, {**os.environ, "BPRICE": program})
