"""Several ways through one model, raced until the first proof: `tools/bprice-run LP` calls this.

A way is a search without or with a decomposition, without or with cuts, and has a certificate of its own. What one finds is true of the model, so
that the best bound and the best point of all ways are the race's: the better point is written into a way's certificate between two calls, and
`solve --from` judges it there. Where there are more ways than processors, ways take turns whose length doubles: a call ends with its turn, and
one whose step takes longer is suspended until the next.
"""
import fcntl
import os
import select
import time
import zlib

from bprice_search import (BUDGET, HERE, INFEASIBLE, LAUNCHER, OPTIMAL, WHICH, WORDS, Call, Outcome, Progress, Refused, Standing, Stop, Way,
                           hint, is_within)

CUTS = 64  # how many cuts a way with cuts has, where no number is told
SHARE = 5.0  # the seconds of a way's first call, where it has a processor of its own: between two calls ways get the best point
TURN = 0.5  # the seconds of the first turn, where ways take turns
FAIR = 10.0  # no way is dropped that had fewer seconds than these
BEHIND = 0.01  # a way is behind where bound and value are both worse by this part
LAST_CALL = 2.0  # seconds that the first call of all has to its report, once the end is asked for or the time is over
ENDS = OPTIMAL, INFEASIBLE


class Racer(Way):
    """One way of a race, with the time that it had."""

    def __init__(self, name, cert, dec, cuts):
        super().__init__(name, cert, dec, cuts, SHARE)
        self.own = None  # the best value that it found by itself
        self.used, self.since = 0.0, None  # the seconds by the clock that its calls ran, without those since the last one began or went on
        self.is_live = True  # neither dropped nor at the end of its steps or its time
        self.is_dropped = False

    def seconds(self):
        return self.used + (0.0 if self.since is None else time.monotonic() - self.since)

    def begin(self, program, words, seconds):
        super().begin(program, words, seconds)
        self.since = time.monotonic()

    def suspend(self):
        self.call.suspend()
        self.rest()

    def resume(self):
        self.call.resume()
        self.since = time.monotonic()

    def rest(self):
        self.used, self.since = self.seconds(), None

    def end_call(self):
        self.rest()
        super().end_call()

    def take(self):
        self.rest()
        return super().take()


class Point:
    """The best point so far: its value, the way that found it, its lines in a report and its line in a certificate."""

    def __init__(self, way):
        self.value, self.by, self.lines = way.answer.value, way.name, way.answer.point()
        with open(way.cert, "rb") as file:
            file.readline()
            file.readline()
            self.line = file.readline()


class Race:
    def __init__(self, words):
        self.words, self.progress, self.stop = words, Progress(words.log_file), Stop()
        self.program = os.environ.get("BPRICE")
        self.folder = words.folder or (f"{words.cert}.ways" if words.cert else f"{words.lp.removesuffix('.lp')}.ways")
        self.processors = words.processors or max(1, len(os.sched_getaffinity(0)) - 1)
        self.ways, self.proposal = [], None
        self.turn, self.sign, self.lock = TURN, None, None
        self.start = None  # the certificate of the point that was given to begin with
        self.point = self.winner = self.ahead = None  # the best point; the way that proved its answer; the way with the best bound

    def path(self, name):
        return os.path.join(self.folder, name)

    def left(self):
        return float("inf") if self.words.time is None else self.words.time - self.progress.seconds()

    # The ways

    def set_out(self):
        """The folder and the ways that need no proposal."""
        if self.program is None:
            call = finished(WHICH)
            self.program = call.report().strip() if call.status == 0 else LAUNCHER
        if not os.path.isfile(self.words.lp):
            call = finished(self.program, "solve", self.words.lp)
            raise Refused(call.report(), call.status)
        with open(self.words.lp, "rb") as file:
            text = file.read()
        self.sign = -1 if maximizes(text) else 1
        self.make_folder(f"{zlib.crc32(text):08x} {len(text)}\n")
        self.take_point()
        if self.words.dec is None:
            self.add_ways("plain", None)
        elif self.words.dec != "auto":
            with open(self.words.dec, "rb") as file:
                self.add_ways(f"dec-{zlib.crc32(file.read()):08x}", self.words.dec)
        if self.wants_proposal() and self.has_proposal():
            self.add_proposed()

    def make_folder(self, stamp):
        """What stands in the folder is of this text, or is removed. One run at a time uses it."""
        os.makedirs(self.folder, exist_ok=True)
        self.lock = open(self.path("text"), "a+", encoding="ascii")
        try:
            fcntl.flock(self.lock, fcntl.LOCK_EX | fcntl.LOCK_NB)
        except OSError:
            raise Refused("", WORDS, f"{self.folder} is used by another run: name another one by --folder") from None
        self.lock.seek(0)
        before = self.lock.read()
        if before not in ("", stamp):
            self.progress.say(f"{self.words.lp} has changed since {self.folder} was written: begins anew")
            for other in os.listdir(self.folder):
                if other.endswith((".cert", ".cert.part")) or other == "proposed.dec":
                    os.unlink(self.path(other))
        self.lock.truncate(0)
        self.lock.write(stamp)
        self.lock.flush()

    def take_point(self):
        """Reads the point that was given. Ways begin with it that have no certificate yet."""
        if self.words.start is not None:
            import bprice_start
            self.start, said = bprice_start.start_from(self.words.start, self.words.lp)
            if said:
                self.progress.say(said)

    def add_ways(self, name, dec):
        """The ways without cuts and with, for one decomposition or none."""
        numbers = (0, CUTS) if self.words.cuts is None else (self.words.cuts,)
        for number in numbers:
            full = f"{name}-cuts-{number}" if number else name
            self.ways.append(Racer(full, self.path(f"{full}.cert"), dec, number))
            if self.start and self.ways[-1].is_new:
                self.ways[-1].begin_with(self.start)

    def wants_proposal(self):
        return self.words.dec == "auto" or self.words.dec is None and not self.words.no_dec

    def add_proposed(self):
        """The ways with what was proposed, unless that is no decomposition and other ways are there."""
        name = self.path("proposed.dec")
        with open(name, "rb") as file:
            if self.ways and b"NBLOCKS 0\n" in file.read():
                return
        self.add_ways("dec", name)

    def has_proposal(self):
        return os.path.exists(self.path("proposed.dec"))

    def propose(self):
        if self.wants_proposal() and not self.has_proposal():
            self.proposal = Call(self.program, ["propose", self.words.lp, self.path("proposed.dec.part"), *self.words.limits()])

    def take_proposal(self):
        call, self.proposal = self.proposal, None
        report = call.report().strip()
        if call.status != 0:
            hint_text = "this bprice has no command `propose`" if call.status == WORDS else "no decomposition is proposed"
            if self.words.dec == "auto":
                raise Refused(call.report(), call.status, hint_text)
            self.progress.say(hint_text)
            return
        os.replace(self.path("proposed.dec.part"), self.path("proposed.dec"))
        self.progress.say(f"{report} in {self.path('proposed.dec')}")
        self.add_proposed()

    # The race

    def go(self):
        """Looks at the model by one call of no steps, in which the program refuses what it can't read; then races."""
        self.set_out()
        if not self.ways:
            self.propose()
        else:
            first = next((way for way in self.ways if is_closed(way.cert)), self.ways[0])
            first.is_to_look = True
            others, self.ways = self.ways, [first]
            while not (first.answer or self.is_over()):
                self.hand_out()
                self.wait()
            self.ways = others
            if not self.is_over():
                self.propose()
        while not self.is_over():
            self.hand_out()
            if not self.proposal and not any(way.call for way in self.ways):
                return
            self.wait()
            self.bring_together()
        if self.ahead and not self.winner:
            self.bring_in()

    def bring_together(self):
        """Asks the calls for their end whose bound and point are near enough by what they told, so that certificates tell it."""
        known = [way for way in self.ways if way.now and way.now.bound is not None and not way.is_dropped]
        valued = [way for way in known if way.now.value is not None]
        if not valued:
            return
        ahead, found = max(known, key=lambda way: self.sign * way.now.bound), min(valued, key=lambda way: self.sign * way.now.value)
        both = Standing(BUDGET, 0, 0, ahead.now.bound, found.now.value)
        if self.sign * (both.bound - both.value) >= 0 or is_within(both.gap(), self.words.gap):
            bound_is_new = not ahead.answer or ahead.answer.bound != both.bound
            value_is_new = not found.answer or found.answer.value != both.value
            for way, is_new in ((ahead, bound_is_new), (found, value_is_new)):
                if way.call and is_new and way.asked is None and ahead is not found:
                    way.stop()

    def bring_in(self):
        """Asks all calls for their end, and takes what they come to within some seconds. A further signal doesn't wait."""
        asked = self.stop.asked
        for way in self.ways:
            if way.call:
                way.stop()
                if way.since is None:
                    way.resume()
        while any(way.call and not way.is_overdue() for way in self.ways) and not self.winner and self.stop.asked == asked:
            self.wait()

    def is_over(self):
        if self.winner:
            return True
        if self.stop.asked:
            return bool(self.ahead) or self.stop.asked > 1 or time.monotonic() - self.stop.since > LAST_CALL
        if self.left() + (0.0 if self.ahead else LAST_CALL) <= 0:
            return True
        return bool(self.ahead) and is_within(self.standing().gap(), self.words.gap)

    def hand_out(self):
        """Gives the processors to ways: those that had less than a turn come first, and of these those that run."""
        slots = max(0 if self.proposal else 1, self.processors - bool(self.proposal))
        live = [way for way in self.ways if way.is_live]
        for way in live:
            if way.call is None:
                way.is_live = way.can_go_on(self.left(), self.words.steps)
        live = [way for way in live if way.is_live]
        while live and all(way.seconds() >= self.turn for way in live):
            self.turn *= 2
        live.sort(key=lambda way: (way.seconds() >= self.turn, way.since is None, way.seconds()))
        for way in live[slots:]:
            if way.since is not None:
                way.suspend()
        for way in live[:slots]:
            if way.call is None:
                self.lend(way)
                seconds = way.setup + max(self.turn - way.seconds(), self.turn / 2) if len(live) > slots else way.seconds_of_call()
                way.begin(self.program, self.words, min(seconds, self.left()))
            elif way.since is None:
                way.resume()

    def wait(self):
        """Waits for a call, a signal, the end of a turn or of the time, or a second."""
        running = {source: way for way in self.ways if way.since is not None for source in way.call.sources()}
        waiting = any(way.is_live and way.since is None for way in self.ways)
        turns = [self.turn - way.seconds() for way in running.values()] if waiting else []
        ends = [end for end in (*turns, self.left()) if end > 0] or [0.1]
        proposal = [self.proposal.reading] if self.proposal else []
        for source in select.select([*running, *proposal, self.stop.woken], [], [], min(1.0, *ends))[0]:
            if source == self.stop.woken:
                self.stop.drain()
            elif self.proposal and source == self.proposal.reading:
                if self.proposal.read(source):
                    self.take_proposal()
            elif running[source].call and source in running[source].call.sources() and running[source].call.read(source):
                self.take(running[source])
        if self.ahead:
            self.progress.tell(self.told())

    def take(self, way):
        """Takes the end of a call into the race."""
        call = way.take()
        if call.status == WORDS and way.watches:
            way.watches = False
            return
        self.progress.note(way.notes)
        if call.status not in (*ENDS, BUDGET):
            self.take_refusal(way, call)
            return
        if call.status in ENDS:
            self.winner = way
            return
        answer = way.answer
        if answer.value is not None and (self.point is None or self.is_better(answer.value, self.point.value)):
            self.point, way.own = Point(way), answer.value
        if self.ahead is None or self.sign * (answer.bound - self.ahead.answer.bound) >= 0:
            self.ahead = way
        if self.point and self.sign * (self.ahead.answer.bound - self.point.value) >= 0:
            self.close()
        elif way.cuts and not answer.cuts and any(other.dec == way.dec and not other.cuts and other.is_live for other in self.ways):
            self.drop(way, "there are no cuts")
        else:
            self.drop_behind()

    def take_refusal(self, way, call):
        """A way that the program can't go, such as for want of memory, is left; what is wrong with the words or a text ends the race."""
        if call.status in (9, 10) or call.status < 0 and self.ahead:
            self.drop(way, f"it ended with status {call.status}")
            if any(other.is_live for other in self.ways) or self.ahead:
                return
        raise Refused(call.report(), call.status, hint(call, way.cert))

    def is_better(self, value, other):
        return self.sign * (value - other) < 0

    def lend(self, way):
        """Writes the best point into a way's certificate, where that has none or a worse one."""
        answer = way.answer
        if self.point is None or answer is None or answer.status != BUDGET:
            return
        if answer.value is not None and not self.is_better(self.point.value, answer.value):
            return
        with open(way.cert, "rb") as file:
            version, claim, rest = file.read().split(b"\n", 2)
        if b" value " in claim:
            rest = rest.split(b"\n", 1)[1]
        with open(way.cert + ".part", "wb") as file:
            file.write(version + b"\n" + b" ".join(claim.split(b" ")[:3]) + b" value %d\n" % self.point.value + self.point.line + rest)
        os.replace(way.cert + ".part", way.cert)
        answer.value = self.point.value

    def close(self):
        """One way's bound meets another's point: that way alone goes on, with this point, and closes its tree."""
        for way in self.ways:
            if way is not self.ahead:
                self.drop(way)
        if self.ahead.call is not None and self.ahead.asked is None:
            self.ahead.stop()
        self.ahead.is_live, self.ahead.is_dropped = True, False

    def drop(self, way, why=""):
        if why and way.is_live:
            self.progress.say(f"way {way.name} is dropped: {why}")
        way.end_call()
        way.is_live, way.is_dropped = False, True

    def drop_behind(self):
        for way in self.ways:
            if way.is_live and way.answer and any(self.is_behind(way, other) for other in self.ways if other.is_live and other.answer):
                self.drop(way, "it is behind")

    def is_behind(self, way, other):
        """Whether bound and own value are both clearly worse than those of another way, in no less time."""
        if way.seconds() < max(FAIR, 0.9 * other.seconds()) or other.own is None:
            return False
        margin = BEHIND * max(1, abs(self.point.value))
        return self.sign * (other.answer.bound - way.answer.bound) > margin \
            and (way.own is None or self.sign * (way.own - other.own) > margin)

    # The end

    def standing(self):
        """How far the race is."""
        best = self.ahead.answer
        return Standing(BUDGET, best.steps, best.open, best.bound, self.point.value if self.point else None)

    def told(self):
        """How far the race is by what calls have told since."""
        known = [way.now for way in self.ways if way.now and way.now.bound is not None]
        values = [now.value for now in (*known, self.point) if now and now.value is not None]
        best = max([*known, self.ahead.answer], key=lambda now: self.sign * now.bound)
        return Standing(BUDGET, best.steps, best.open, best.bound, self.sign * min(self.sign * value for value in values) if values else None)

    def end(self):
        for way in self.ways:
            way.end_call()
        if self.proposal:
            self.proposal.end()
        if os.path.exists(self.path("proposed.dec.part")):
            os.unlink(self.path("proposed.dec.part"))
        if self.lock is not None and os.listdir(self.folder) == ["text"]:
            os.unlink(self.path("text"))
            os.rmdir(self.folder)

    def outcome(self):
        way = self.winner or self.ahead
        if way is None:
            self.progress.say("stopped before the first report")
            return None
        if self.winner:
            found = Outcome(way.answer.text(), way.answer.status, way.answer, way.answer.point())
            found.bound_by = found.value_by = way.name
        else:
            self.lend(way)
            standing, lines = self.standing(), self.point.lines if self.point else ""
            value = f"value {self.point.value}\n" if self.point else ""
            found = Outcome(f"budget {standing.steps}\nbound {standing.bound}\n{value}{lines}", BUDGET, standing, lines)
            found.bound_by, found.value_by = way.name, self.point.by if self.point else None
        found.cert, found.dec, found.seconds = self.copy(way.cert), way.dec, self.progress.seconds()
        self.tell(found)
        return found

    def copy(self, cert):
        """The certificate, under the name that was told."""
        if self.words.cert is None:
            return cert
        with open(cert, "rb") as source, open(self.words.cert + ".part", "wb") as target:
            while part := source.read(1 << 20):
                target.write(part)
        os.replace(self.words.cert + ".part", self.words.cert)
        return self.words.cert

    def tell(self, found):
        """The last line of the progress, who found what, and how it is judged."""
        self.progress.tell(found.standing, is_last=True)
        if self.winner:
            self.progress.say(f"proved by the way {found.bound_by}")
        else:
            value = f", value by the way {found.value_by}: both are true of the model" if found.value_by else ""
            self.progress.say(f"bound by the way {found.bound_by}{value}")
        words = ["check", self.words.lp, found.cert, *(["--dec", found.dec] if found.dec else []), *self.words.limits()]
        self.progress.say("judge it by: " + " ".join(quoted(word) for word in (called(), *words)))


def maximizes(text):
    """Whether an LP text maximizes: its first word behind comments tells."""
    for line in text.split(b"\n"):
        words = line.split(b"\\", 1)[0].split()
        if words:
            return words[0].lower().startswith(b"max")
    return False


def is_closed(cert):
    """Whether a certificate is there that leaves nothing open."""
    if not os.path.exists(cert):
        return False
    with open(cert, "rb") as file:
        file.readline()
        return file.readline().startswith((b"claim optimal", b"claim infeasible"))


def called():
    """How the program is called here."""
    if "BPRICE" in os.environ:
        return os.environ["BPRICE"]
    if os.path.islink(LAUNCHER):
        return "bprice"  # that is where `make install` puts it
    name = os.path.relpath(os.path.join(os.path.dirname(HERE), "bprice"))
    return name if os.sep in name else f".{os.sep}{name}"


def quoted(word):
    """A word as a shell takes it."""
    return word if word and all(sign.isalnum() or sign in "_-./+:,@%=" for sign in word) else "'" + word.replace("'", "'\\''") + "'"


def finished(program, *words):
    """A program's call that has ended."""
    call = Call(program, words)
    while not call.read(call.reading):
        pass
    return call


def race(words):
    """The outcome of a race, None where it was stopped before the first report."""
    run = Race(words)
    try:
        run.go()
    finally:
        run.stop.shut()
        run.end()
    return run.outcome()
