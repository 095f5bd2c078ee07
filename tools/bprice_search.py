"""A search in few calls of `solve`: what these are asked, what they tell, and the run of one way. `tools/bprice-run` calls this."""
import os
import select
import signal
import sys
import time

HERE = os.path.dirname(os.path.realpath(__file__))
LAUNCHER, WHICH = os.path.join(HERE, "..", "bprice"), os.path.join(HERE, "..", "release", "which.sh")
OPTIMAL, WORDS, INFEASIBLE, BUDGET = 0, 2, 4, 5

# A call begins with reading and judging the certificate, and lacks what the call before learned beside it. So a search is one call as long as
# possible, and calls end only so that the certificate on the disk is not too old if the machine stops. All seconds are of the clock.
SHARE, LONGEST = 60.0, 240.0  # the seconds of a way's first call; each further one has twice as many, up to so many
BESIDE = 0.04  # a call is longer where reading and judging its certificate would be more than this part of it
WAIT = 5.0  # seconds that a call has to its end once it is asked for, anew each time that its certificate has grown
SPARSE = 0.02  # of a long search a line comes each time that this part of the seconds so far is over, where it is not on a terminal
STEPS = 32  # where the program can't watch a search, its first call has so many steps, and each further one twice as many


class Stopped(Exception):
    """A signal that asks for the end, or the end of the time."""


class Refused(Exception):
    """The program ended without an answer: what it printed, its status, and what may help."""

    def __init__(self, report, status, help_text=""):
        super().__init__(report)
        self.report, self.status, self.help_text = report, status, help_text


class Standing:
    """How far a search is: a status of `solve`, the steps of the tree, its open leaves, and the bound and the value, None where there is none."""

    def __init__(self, status, steps, open_leaves, bound, value):
        self.status, self.steps, self.open, self.bound, self.value = status, steps, open_leaves, bound, value

    def gap(self):
        """How far the value is from the bound, as a part of the value; None where there is no value."""
        if self.value is None or self.bound is None:
            return None
        return abs(self.value - self.bound) / max(1, abs(self.value))


class Answer(Standing):
    """A report of `solve`, with the counts of the certificate that was written with it."""

    def __init__(self, report, status, cert):
        self.report = report
        with open(cert, "rb") as file:
            text = file.read()
        open_leaves = text.count(b"\nopen ") if status == BUDGET else 0
        self.splits, self.cuts = text.count(b"\nsplit "), text.count(b"\ncut ")
        steps = 2 * self.splits + 1 - open_leaves  # each split has two parts, so there is one leaf more than splits
        lines = [line.split(" ") for line in report.split("\n", 3)[:3]] + [[""]] * 2  # what stands behind these may be a variable named `value`
        bound = int(lines[0][1]) if lines[0][0] == "optimal" else int(lines[1][1]) if status == BUDGET else None
        value = int(lines[0][1]) if lines[0][0] == "optimal" else int(lines[2][1]) if status == BUDGET and lines[2][0] == "value" else None
        super().__init__(status, steps, open_leaves, bound, value)

    def text(self):
        first, rest = self.report.split("\n", 1)
        return f"budget {self.steps}\n{rest}" if self.status == BUDGET else f"{first}\n{rest}"

    def point(self):
        """The lines of the point, `NAME VALUE` each; none where there is no value."""
        if self.value is None:
            return ""
        return self.report.split("\n", 1 if self.status == OPTIMAL else 3)[-1]


class Outcome:
    """What a run comes to: its report and status, how far it is, and the files that show it."""

    def __init__(self, report, status, standing, point):
        self.report, self.status, self.standing, self.point = report, status, standing, point
        self.cert = self.dec = self.bound_by = self.value_by = None
        self.seconds = 0.0


class Call:
    """A program in a process group of its own, so that the terminal's Ctrl-C doesn't reach it. What it prints is read as it comes.

    Where `hear` is given, it gets each line that the program writes to standard error.
    """

    def __init__(self, program, words, hear=None):
        self.hear, self.parts, self.rest, self.status = hear, [], b"", None
        self.reading, writing = os.pipe()
        self.hearing, telling = os.pipe() if hear else (None, None)
        actions = [(os.POSIX_SPAWN_OPEN, 0, os.devnull, os.O_RDONLY, 0), (os.POSIX_SPAWN_DUP2, writing, 1)]
        actions += [(os.POSIX_SPAWN_DUP2, telling, 2)] if hear else []
        try:
            self.child = os.posix_spawn(program, [program, *words], os.environ, setpgroup=0, file_actions=actions)
        except OSError:
            self.shut()
            raise
        finally:
            os.close(writing)
            if hear:
                os.close(telling)
                os.set_blocking(self.hearing, False)

    def sources(self):
        """What is read of it."""
        return [self.reading] if self.hearing is None else [self.reading, self.hearing]

    def read(self, source):
        """Takes what is there, and tells whether that was all."""
        if source == self.hearing:
            self.listen()
            return False
        self.parts.append(os.read(self.reading, 1 << 16))
        if not self.parts[-1]:
            self.reap()
        return self.status is not None

    def listen(self):
        """Hands on the whole lines on standard error; whether there was something."""
        try:
            text = os.read(self.hearing, 1 << 16)
        except BlockingIOError:
            return False
        *lines, self.rest = (self.rest + text).split(b"\n")
        for line in lines:
            self.hear(line.decode("latin-1"))
        if not text:
            os.close(self.hearing)
            self.hearing = None
        return bool(text)

    def report(self):
        return b"".join(self.parts).decode("latin-1")

    def suspend(self):
        os.killpg(self.child, signal.SIGSTOP)

    def resume(self):
        os.killpg(self.child, signal.SIGCONT)

    def end(self):
        """Kills it where it still runs."""
        if self.status is None:
            os.killpg(self.child, signal.SIGKILL)
            self.reap()

    def reap(self):
        self.status = os.waitstatus_to_exitcode(os.waitpid(self.child, 0)[1])
        while self.hearing is not None and self.listen():
            pass
        self.shut()

    def shut(self):
        os.close(self.reading)
        if self.hearing is not None:
            os.close(self.hearing)
            self.hearing = None


class Stop:
    """SIGINT and SIGTERM: they ask for the end, and wake a wait for a call."""

    NUMBERS = signal.SIGINT, signal.SIGTERM

    def __init__(self):
        self.asked, self.since = 0, None  # how often it was asked for, and since when, by the monotonic clock
        self.woken, waking = os.pipe()
        os.set_blocking(self.woken, False)
        os.set_blocking(waking, False)
        signal.set_wakeup_fd(waking)
        for number in self.NUMBERS:
            signal.signal(number, self.ask)

    def ask(self, _number, _frame):
        self.asked += 1
        self.since = self.since or time.monotonic()

    def drain(self):
        """Forgets the waking, so that a further signal wakes anew."""
        try:
            os.read(self.woken, 1 << 10)
        except BlockingIOError:
            pass

    def shut(self):
        """Signals mean nothing any more."""
        for number in self.NUMBERS:
            signal.signal(number, signal.SIG_IGN)


class Way:
    """A search with a certificate of its own: what is known of it, and the call at hand."""

    def __init__(self, name, cert, dec, cuts, share=SHARE):
        self.name, self.cert, self.dec, self.cuts, self.share = name, cert, dec, cuts, share
        self.part, self.halt = f"{cert}.part", f"{cert}.stop-{os.getpid()}"
        self.answer = self.now = self.call = None  # of the last call that ended; what it or the call at hand told last
        self.taken = self.calls = 0  # the steps of this run, and how many calls had steps
        self.setup, self.has_begun = 0.0, False  # the seconds of the last call until its first step, and whether the call at hand has come to its own
        self.is_to_look = os.path.exists(cert)  # whether the next call takes no steps
        self.is_new = not os.path.exists(cert)  # whether no search has worked on the certificate, so that cuts may be added
        self.asked, self.written = None, 0  # when the call at hand was asked for its end, or its certificate grew since; the bytes of that
        self.watches, self.notes = True, []  # whether the program can watch a search; what it wrote to standard error beside the table

    def begin_with(self, text):
        """Takes the certificate of a point to begin with."""
        with open(self.part, "w", encoding="ascii", newline="\n") as file:
            file.write(text)
        os.replace(self.part, self.cert)
        self.is_to_look = self.is_new = True

    def can_go_on(self, left, most):
        """Whether a call is of use in the time that is left, where at most so many steps are wanted in all."""
        return self.is_to_look or left > self.setup and (most is None or self.taken < most)

    def seconds_of_call(self):
        return max(self.share, self.setup / BESIDE)

    def begin(self, program, words, seconds):
        """Begins a call that ends after so many seconds at the latest."""
        goes_on = os.path.exists(self.cert)
        steps = None if words.steps is None else words.steps - self.taken
        if not self.watches:
            steps = min(STEPS << self.calls, 1 << 40 if steps is None else steps)
        steps = 0 if self.is_to_look else steps
        self.tidy()
        self.notes, self.has_begun, self.asked, self.written = [], False, None, 0
        self.call = Call(program, ["solve", words.lp, *(["--dec", self.dec] if self.dec else []), *(["--from", self.cert] if goes_on else []),
                                   *(["--cuts", str(self.cuts)] if self.cuts and self.is_new else []), "--cert", self.part,
                                   *([] if steps is None else ["--steps", str(steps)]), *(self.watching(words, seconds) if self.watches else []),
                                   *words.limits(), *words.rest], self.hear)

    def watching(self, words, seconds):
        """The words by which the program watches its search."""
        time_words = [] if seconds == float("inf") else ["--time", f"{max(0.0, seconds):.3f}"]
        return [*time_words, *([] if words.gap is None else ["--gap", percent(words.gap)]), "--log", "1", "--stop", self.halt]

    def hear(self, line):
        """Takes a line that the call wrote to standard error."""
        told = row(line)
        if told is None:
            self.notes += [] if line.startswith(" ") else [line]
            return
        seconds, steps, leaves, bound, value = told
        if not self.has_begun:
            self.setup, self.has_begun = seconds, True
        self.now = Standing(BUDGET, steps + (self.answer.steps if self.answer else 0), leaves, bound, value)

    def stop(self):
        """Asks the call for its end."""
        with open(self.halt, "w", encoding="ascii"):
            self.asked = time.monotonic()

    def is_overdue(self):
        """Whether the call was asked for its end some seconds ago, and does not write its certificate."""
        written = size_of(self.part)
        if written > self.written:
            self.written, self.asked = written, time.monotonic()
        return time.monotonic() - self.asked > WAIT

    def take(self):
        """Takes what the call came to, and hands it out."""
        call, self.call = self.call, None
        if call.status not in (OPTIMAL, INFEASIBLE, BUDGET):
            self.now = self.answer
            return call
        os.replace(self.part, self.cert)
        self.is_new = False
        self.now = self.answer = Answer(call.report(), call.status, self.cert)
        self.taken += int(call.report().split("\n", 1)[0][7:]) if call.status == BUDGET else 0
        if not self.is_to_look:
            self.share, self.calls = min(LONGEST, 2 * self.share), self.calls + 1
        self.is_to_look = False
        return call

    def end_call(self):
        """Breaks the call off where there is one."""
        if self.call is not None:
            self.call.end()
            self.call, self.now = None, self.answer
        self.tidy()

    def tidy(self):
        for name in (self.part, self.halt):
            if os.path.exists(name):
                os.unlink(name)


def size_of(name):
    """The bytes of a file, 0 where there is none."""
    return os.path.getsize(name) if os.path.exists(name) else 0


def row(line):
    """Seconds, steps, open leaves, bound and value, None where there is none, of a line of the table that `--log` writes; None for other lines."""
    fields = line.split()
    if len(fields) != 6 or not set(line) <= set("0123456789.- "):
        return None
    try:
        return float(fields[0]), int(fields[1]), int(fields[2]), int(fields[3]), None if fields[4] == "-" else int(fields[4])
    except ValueError:
        return None


def percent(gap):
    """A gap, a part of the value, as `solve --gap` takes it."""
    return f"{min(100 * gap, 1e6):.9f}"


def is_within(gap, wanted):
    """Whether a gap is as near as wanted, where something is wanted and there is one, by the number that the program gets."""
    return wanted is not None and gap is not None and 100 * gap <= float(percent(wanted))


class Progress:
    """Lines about the search on standard error, at most one a second, and fewer in a long search where they do not replace each other."""

    def __init__(self, log=None):
        self.begin, self.told, self.is_terminal, self.last = time.monotonic(), float("-inf"), sys.stderr.isatty(), None
        self.log = open(log, "a", encoding="utf-8") if log else None  # gets every line too

    def seconds(self):
        return time.monotonic() - self.begin

    def tell(self, answer, is_last=False):
        """Writes a line on what stands, if none was written within the last second, and says whether it did."""
        if answer is None or not is_last and self.seconds() - self.told < (1.0 if self.is_terminal else max(1.0, SPARSE * self.seconds())):
            return False
        self.told = self.seconds()
        parts = [f"steps {answer.steps}"]
        if answer.status == INFEASIBLE:
            parts.append("infeasible")
        elif answer.bound is not None:
            parts.append(f"bound {answer.bound}")
        if answer.value is not None:
            parts += [f"value {answer.value}", f"gap {100 * answer.gap():.2f}%"]
        line = "  ".join([*parts, f"open {answer.open}", f"{self.told:.1f} s"])
        if self.is_terminal:
            print(f"\r{line}\x1b[K", end="\n" if is_last else "", file=sys.stderr, flush=True)
        elif is_last is False or line != self.last:
            print(line, file=sys.stderr, flush=True)
        if self.log and line != self.last:
            print(line, file=self.log, flush=True)
        self.last = line
        return True

    def note(self, lines):
        """What the program wrote to standard error."""
        for line in lines:
            print(("\r\x1b[K" if self.is_terminal else "") + line, file=sys.stderr, flush=True)

    def say(self, text):
        """A line of its own, of what the run does."""
        print(("\r\x1b[K" if self.is_terminal else "") + f"bprice-run: {text}", file=sys.stderr, flush=True)
        if self.log:
            print(f"bprice-run: {text}", file=self.log, flush=True)


class Run:
    """The search of one way, from its certificate on where that is there."""

    def __init__(self, words):
        self.words, self.progress, self.stop = words, Progress(words.log_file), Stop()
        self.program, self.way = os.environ.get("BPRICE"), Way("", words.cert, None, words.cuts)

    def left(self):
        return float("inf") if self.words.time is None else self.words.time - self.progress.seconds()

    def call(self, call):
        """Reads a call to its end. It is asked for that once the time is over or a signal comes, and broken off where it does not heed it."""
        way, way.asked = self.way, None
        try:
            while True:
                if way.asked is None and (self.stop.asked or self.left() <= 0):
                    way.stop()
                if way.asked is not None and (self.stop.asked > 1 or way.is_overdue()):
                    raise Stopped
                most = max(0.0, min(1.0, self.left())) if way.asked is None else 0.2
                for source in select.select([*call.sources(), self.stop.woken], [], [], most)[0]:
                    if source == self.stop.woken:
                        self.stop.drain()
                    elif call.read(source):
                        return call
                self.progress.tell(way.now)
        finally:
            call.end()

    def find_program(self):
        """The launcher's program is asked for once. Where there is none yet, the launcher itself is called."""
        if self.program is None:
            call = self.call(Call(WHICH, []))
            self.program = call.report().strip() if call.status == 0 else LAUNCHER

    def decomposition(self):
        if self.words.dec != "auto":
            return self.words.dec
        name = self.words.cert + ".dec"
        if not (os.path.exists(name) and os.path.exists(self.words.cert)):
            call = self.call(Call(self.program, ["propose", self.words.lp, name, *self.words.limits()]))
            if call.status != 0:
                raise Refused(call.report(), call.status, "this bprice has no command `propose`: name a decomposition's file with --dec"
                              if call.status == WORDS else f"propose {self.words.lp} {name}")
            self.progress.say(f"{call.report().strip()} in {name}")
        return name

    def solve(self):
        """One call of `solve`; the certificate takes the place of the one before once it is whole."""
        way, goes_on = self.way, os.path.exists(self.words.cert)
        way.begin(self.program, self.words, min(way.seconds_of_call(), self.left()))
        self.call(way.call)
        call = way.take()
        if call.status == WORDS and way.watches:
            way.watches = False
            return
        self.progress.note(way.notes)
        if call.status not in (OPTIMAL, INFEASIBLE, BUDGET):
            raise Refused(call.report(), call.status, hint(call, way.cert) if goes_on else "")
        self.progress.tell(way.answer)

    def is_done(self):
        answer = self.way.answer
        if self.stop.asked or self.left() <= 0 or not self.way.can_go_on(self.left(), self.words.steps):
            return True
        return answer is not None and (answer.status != BUDGET or is_within(answer.gap(), self.words.gap))

    def go(self):
        self.find_program()
        self.way.dec = self.decomposition()
        self.refuse_shared()
        self.take_point()
        self.way.is_to_look |= self.words.time is not None or self.words.steps == 0
        while not self.is_done():
            self.solve()

    def take_point(self):
        """Begins with the point that was given, where there is no certificate yet."""
        if self.words.start is not None and self.way.is_new:
            import bprice_start
            text, said = bprice_start.start_from(self.words.start, self.words.lp)
            self.way.begin_with(text)
            if said:
                self.progress.say(said)
        elif self.words.start is not None:
            self.progress.say(f"{self.words.cert} is there, so the search goes on from it and not from {self.words.start}")

    def refuse_shared(self):
        """The file that calls write is none of those that they read."""
        for name in filter(None, (self.words.lp, self.way.dec)):
            if os.path.exists(self.way.part) and os.path.exists(name) and os.path.samefile(self.way.part, name):
                self.way.part = self.way.halt
                raise Refused("", WORDS, f"{name} would be written: name another file with --cert")


def hint(call, cert):
    """What may help where a call that goes on from a certificate is refused."""
    if call.status == WORDS:
        return "this bprice has no `solve --from`, which bprice-run rests on"
    if call.report().startswith(("refused cert", "rejected", "refused from")):
        return f"{cert} is there, and is no certificate to go on from: remove it, or name another file with --cert"
    return ""


def search(words):
    """The outcome of a run of one way, None where it was stopped before the first report."""
    run = Run(words)
    way = run.way
    try:
        run.go()
    except Stopped:
        pass
    finally:
        run.stop.shut()
        way.end_call()
    if way.answer is None:
        run.progress.say("stopped before the first report")
        return None
    run.progress.tell(way.answer, is_last=True)
    outcome = Outcome(way.answer.text(), way.answer.status, way.answer, way.answer.point())
    outcome.cert, outcome.dec, outcome.seconds = words.cert, way.dec, run.progress.seconds()
    return outcome
