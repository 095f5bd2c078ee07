"""The engines that run the processes of a farm: GNU parallel, here or over ssh, and Slurm. Each takes jobs and tells which of them have
ended, well or not: whether one has done its work its new certificate tells. Everything is run in the farm's folder, and all names in
jobs are of files there."""
import getpass
import hashlib
import pathlib
import re
import socket
import subprocess
import time
from typing import NamedTuple


class Job(NamedTuple):
    """A leaf that is handed out: the certificate to start from, its number there, the steps, and the certificate to write."""

    start: str
    leaf: str
    steps: int
    new: str


class Ended(NamedTuple):
    """A job whose process has ended, and how long that took, where this is known."""

    job: Job
    seconds: float | None


class EngineFault(Exception):
    """The engine itself can't be run."""


IDLE = Job("model.lp", "0", 0, "none")  # a job that does nothing


class Parallel:
    """One process of GNU parallel, which reads a line for each job and runs as many at a time as there are workers. It looks at its processes
    only when a line comes in or while it has a line more than slots, and runs none before it has a line for each slot; so lines of idle jobs
    are sent where those of real ones do not suffice."""

    LOOKS = True  # a job begins soon enough to look for points while the tree is planted
    AHEAD = 200  # at most so many jobs wait, and no more than are worked on: parallel reads lines as it needs them, from a pipe
    SHORTEST, LONGEST = 3.0, 60.0  # seconds of a job
    PULSE = 0.5  # seconds from one idle line to the next
    ENDING = 3.0  # seconds that parallel may take to end
    CLEARING = 60.0  # seconds that it may take to take away what it has put on other machines, once the report is printed
    LOOK = 0.05  # seconds from one look to the next whether it has done that

    def __init__(self, processes, workers, hosts, is_dry):
        self.processes, self.folder, self.workers, self.hosts, self.is_dry = processes, processes.folder, workers, hosts, is_dry
        self.child, self.sent, self.count, self.pulse, self.place, self.has_logged = None, {}, 0, 0.0, 0, False
        self.is_clearing = False  # whether parallel has its last line, and takes away what it has put on other machines
        self.log, self.errors = self.folder / "logs" / "jobs", self.folder / "logs" / "parallel"

    def command(self):
        words = ["parallel", "--will-cite", "--ungroup", "--colsep", "\t", "--joblog", str(self.log)]
        if self.hosts:
            base = [word for name in ("bprice", "work", "model.lp", "model.dec", "model.large") if (self.folder / name).exists() for word in ("--basefile", name)]
            words += ["--sshlogin", ",".join(self.hosts), "--workdir", self.workdir(), *base, "--transferfile", "{1}", "--return", "{4}", "--cleanup"]
        else:
            words += ["--jobs", str(self.workers)]
        return [*words, "./work {1} {2} {3} {4}"]

    def workdir(self):
        """The folder on other machines: a farm of its own has one of its own there, whatever others are called, so that no file of another is taken for
        its own, as a decomposition where it has none."""
        digest = hashlib.sha256(f"{socket.gethostname()}:{self.folder}".encode())
        for name in ("model.lp", "model.dec", "model.large"):
            file = self.folder / name
            digest.update(b"none" if not file.exists() else hashlib.sha256(file.read_bytes()).digest())
        return f".bprice-farm/{self.folder.name}-{digest.hexdigest()[:12]}"

    def begin(self):
        """Begins parallel, where it does not run: it takes some tenths of a second to be ready."""
        if self.child is not None or self.is_dry:
            return
        self.log.unlink(missing_ok=True)
        with open(self.errors, "ab") as errors:
            try:
                self.child = self.processes.begin(self.command(), stdin=subprocess.PIPE, stdout=errors, stderr=errors)
            except FileNotFoundError:
                raise EngineFault("GNU parallel is not installed") from None
        self.sent, self.count, self.place, self.has_logged = {}, 0, 0, False

    def give(self, jobs):
        if self.is_dry:
            print("cd", self.folder, "&&", *(f"'{word}'" if re.search(r"[^\w/.,:@=-]", word) else word for word in self.command()), "<<END")
            print(*("\t".join(map(str, job)) for job in jobs), "END", sep="\n")
            return
        self.begin()
        self.send([*jobs, *[IDLE] * (self.workers - self.count - len(jobs))])

    def send(self, jobs):
        self.sent.update(enumerate(jobs, self.count + 1))
        self.count += len(jobs)
        self.pulse = time.monotonic()
        try:
            self.child.stdin.write("".join("\t".join(map(str, job)) + "\n" for job in jobs).encode())
            self.child.stdin.flush()
        except BrokenPipeError:
            pass  # the next look at the child tells that it has ended

    def ended(self):
        """The jobs that have ended since the last call."""
        if self.child is None:
            return []
        has_ended = self.child.poll() is not None
        ends = [Ended(self.sent.pop(number), seconds) for number, seconds in self.logged()]
        if has_ended:
            if not self.has_logged:
                raise EngineFault(f"GNU parallel ended with status {self.child.returncode} and has run no job: see {self.errors}")
            ends += [Ended(job, None) for job in self.sent.values()]
            self.stop()
        elif len(self.sent) <= self.workers and time.monotonic() - self.pulse > self.PULSE and any(job is not IDLE for job in self.sent.values()):
            self.send([IDLE])
        return [end for end in ends if end.job is not IDLE]

    def logged(self):
        """Of each line that parallel has added to its log: the number of the job and its seconds."""
        if not self.log.exists():
            return
        with open(self.log, encoding="utf-8") as log:
            log.seek(self.place)
            lines = log.read()
        lines = lines[:lines.rfind("\n") + 1]
        self.place += len(lines.encode())
        for line in lines.splitlines():
            number, _, _, seconds = line.split("\t")[:4]
            if number != "Seq":
                self.has_logged = True
                yield int(number), float(seconds)

    def stop(self, is_done=False):
        """Ends what runs. Where all is done, parallel takes away what it has put on other machines: `clear` waits for that."""
        if self.child is None:
            return
        if is_done and self.hosts and self.child.poll() is None:
            self.is_clearing = True
            self.child.stdin.close()
            self.child.stdin = None
            return
        if not is_done:
            self.child.terminate()
        try:
            self.child.communicate(timeout=self.ENDING)
        except subprocess.TimeoutExpired:
            self.child.kill()
            self.child.wait()
        self.child = None

    def clear(self, is_asked):
        """Waits for what `stop` has left to do, as long as that may take and nobody asks for the end."""
        until = time.monotonic() + self.CLEARING
        while self.is_clearing and self.child.poll() is None and time.monotonic() < until and not is_asked():
            time.sleep(self.LOOK)
        if self.is_clearing:
            self.is_clearing = False
            self.child.terminate()
            self.stop(is_done=True)


class Slurm:
    """Job arrays of Slurm, one for each time that leaves are handed out. The folder is one that all nodes share."""

    LOOKS = False  # a job may wait in the queue for long
    AHEAD = 0  # none: what waits in Slurm's queue counts as worked on
    SHORTEST, LONGEST = 30.0, 600.0
    PULSE = 2.0  # seconds from one look at the queue to the next
    is_clearing = False
    LONGEST_ARRAY = 1000  # what Slurm takes in one array where nobody has said otherwise

    def __init__(self, folder, workers, options, is_dry):
        self.folder, self.workers, self.options, self.is_dry = folder, workers, options, is_dry
        self.out, self.pulse = {}, 0.0
        self.record = folder / "slurm"  # the arrays that may be in the queue
        if self.record.exists() and not is_dry:
            self.cancel(self.record.read_text(encoding="ascii").split())

    def cancel(self, arrays):
        if arrays:
            subprocess.run(["scancel", *arrays], stdout=subprocess.DEVNULL, stderr=subprocess.DEVNULL, check=False)
        self.record.unlink(missing_ok=True)

    def begin(self):
        """Nothing: Slurm runs already."""

    def give(self, jobs):
        for first in range(0, len(jobs), self.LONGEST_ARRAY):
            self.give_array(jobs[first:first + self.LONGEST_ARRAY])

    def give_array(self, jobs):
        names = pathlib.Path("lists", pathlib.Path(jobs[0].new).stem)
        (self.folder / "lists").mkdir(exist_ok=True)
        (self.folder / names).write_text("".join(" ".join(map(str, job)) + "\n" for job in jobs), encoding="ascii")
        words = ["sbatch", "--parsable", "--job-name=bprice", f"--array=1-{len(jobs)}", f"--chdir={self.folder}",
                 f"--output={self.folder}/logs/slurm-%A_%a", *self.options, "work", str(names)]
        if self.is_dry:
            print("cd", self.folder, "&&", *words)
            print(f"# {names}:", *(self.folder / names).read_text(encoding="ascii").splitlines(), sep="\n# ")
            return
        try:
            ran = subprocess.run(words, cwd=self.folder, capture_output=True, text=True, check=False)
        except FileNotFoundError:
            raise EngineFault("Slurm's sbatch is not installed") from None
        if ran.returncode != 0:
            raise EngineFault(f"sbatch ended with status {ran.returncode}: {ran.stderr.strip()}")
        array = ran.stdout.strip().split(";")[0]
        self.out.update({f"{array}_{number}": job for number, job in enumerate(jobs, 1)})
        with open(self.record, "a", encoding="ascii") as record:
            print(array, file=record)

    def ended(self):
        """The jobs that Slurm no longer has in its queue. Where it can't be asked, none."""
        if not self.out or time.monotonic() - self.pulse < self.PULSE:
            return []
        self.pulse = time.monotonic()
        ran = subprocess.run(["squeue", "--noheader", "--array", f"--user={getpass.getuser()}", "--format=%i"], capture_output=True, text=True, check=False)
        if ran.returncode != 0:
            return []
        queued = set(ran.stdout.split())
        return [Ended(self.out.pop(task), None) for task in list(self.out) if task not in queued]

    def stop(self, is_done=False):
        """Takes out of the queue what is in it."""
        if not self.is_dry:
            self.cancel([] if is_done else sorted({task.split("_")[0] for task in self.out}))

    def clear(self, is_asked):
        """Nothing: Slurm has put nothing anywhere."""


def engine(name, processes, workers, hosts, options, is_dry):
    return Parallel(processes, workers, hosts, is_dry) if name == "parallel" else Slurm(processes.folder, workers, options, is_dry)
