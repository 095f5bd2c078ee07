#!/usr/bin/env python3
"""How much faster many processes solve a model than one search: farm/run with GNU parallel on this machine, beside one `solve`.

    bench/farm.py [NAME..]          for each model: seconds by the clock and steps of one search, and of farms of 1, 2 and 4 workers
    bench/farm.py --reckon [NAME..] the same by processor seconds, for a machine that has other work: see reckoned.py
    bench/farm.py --kills [RUNS]    so many runs of two workers (100) in which half of the processes are killed at random
    BPRICE=program bench/farm.py    another program than ./bprice

A NAME is one of bench/models.py, with `:plain` behind it without its decomposition. The machine should have four idle cores. Each farm's
certificate is judged by `check`. Seconds are those until the certificate is written, as for one
search; `Accepted` are those until `check` has accepted it. Steps are those of all processes, with what was done twice. It ends with status 1 where an
answer is wrong. WORKERS=4 in the environment measures farms of 4 workers alone.
"""
import os
import pathlib
import re
import resource
import subprocess
import sys
import tempfile
import time

sys.dont_write_bytecode = True
HERE = pathlib.Path(__file__).resolve().parent
sys.path.insert(0, str(HERE))
import crews  # noqa: E402
from models import make  # noqa: E402

BPRICE = os.path.abspath(os.environ.get("BPRICE", HERE.parent / "bprice"))
RUN, RECKONED = HERE.parent / "farm" / "run", HERE / "reckoned.py"
MODELS = ("assignment-C-5-100:plain", "knapsack-45-100:plain", "knapsack-50-100:plain", "general-8-16", "colouring-20-50:plain")
WORKERS = [int(word) for word in os.environ.get("WORKERS", "1 2 4").split()]
IS_RECKONED = "--reckon" in sys.argv[1:]

# Half of the processes of workers are killed, after up to twenty thousandths of a second, if they live so long.
DIES = """#!/usr/bin/env bash
[[ " $* " == *" --leaf "* ]] || exec PROGRAM "$@"
PROGRAM "$@" &
if [ $((RANDOM % 2)) = 0 ]; then
    sleep "0.0$((RANDOM % 2))$((RANDOM % 10))"
    kill -9 $! 2>/dev/null
fi
wait $!
"""


class Model:
    def __init__(self, room, name):
        name, _, plain = name.partition(":")
        self.name = f"{name}, no DEC" if plain else name
        self.lp, dec = (room / f"{name}.{ending}" for ending in ("lp", "dec"))
        for file, text in zip((self.lp, dec), make(name)):
            file.write_text(text, encoding="ascii")
        self.dec = None if plain else dec

    def alone(self, room):
        """The first line that one search prints, its seconds, and its steps."""
        cert, begin = room / "alone.cert", seconds()
        ran = subprocess.run([BPRICE, "solve", self.lp, *(["--dec", self.dec] if self.dec else []), "--cert", cert], capture_output=True, text=True, check=False)
        took = seconds() - begin
        text = cert.read_bytes()
        return ran.stdout.split("\n", 1)[0], took, text.count(b"\nsplit ") + text.count(b"\nleaf ")


def seconds():
    """The time by the clock, or what all children took of processors."""
    used = resource.getrusage(resource.RUSAGE_CHILDREN)
    return used.ru_utime + used.ru_stime if IS_RECKONED else time.monotonic()


def farm(folder, lp, dec, workers, program=BPRICE, steps=None):
    """The first line that a farm prints, and of its log the seconds until the certificate is written, and until `check` has accepted it, the steps
    of all processes, and how many workers died."""
    words = [sys.executable, RECKONED if IS_RECKONED else RUN, lp, *([dec] if dec else []), folder, "--workers", workers, "--bprice", program, *(["--steps", steps] if steps else [])]
    ran = subprocess.run(list(map(str, words)), capture_output=True, text=True, check=False)
    log = (folder / "log").read_text(encoding="ascii") if (folder / "log").exists() else ""
    times = [re.findall(rf"^\S+ \S+ +(\S+) {word}$", log, flags=re.MULTILINE) for word in ("written", "accepted")]
    ended = re.search(r"ended: .* died (\d+), .*worked (\d+), steps \d+\n$", log)
    if ran.returncode not in (0, 4) or ended is None or not all(times):
        return f"status {ran.returncode}: {ran.stderr[-300:]}", 0.0, 0.0, 0, 0
    return ran.stdout.split("\n", 1)[0], float(times[0][-1]), float(times[1][-1]), int(ended[2]), int(ended[1])


def measure(names):
    """A line for each model and each number of workers."""
    is_right = True
    print("| Model | Workers | Answer | Seconds | Times faster | Accepted | Steps | Times as many |\n|---|---|---|---|---|---|---|---|", flush=True)
    for name in names:
        with tempfile.TemporaryDirectory() as room:
            room = pathlib.Path(room)
            model = Model(room, name)
            first, alone, steps = model.alone(room)
            print(f"| {model.name} | one search | {first} | {alone:.1f} | | | {steps} | |", flush=True)
            for workers in WORKERS:
                answer, took, accepted, taken, _ = farm(room / f"farm-{workers}", model.lp, model.dec, workers)
                is_right = is_right and answer == first
                print(f"| {model.name} | {workers} | {answer} | {took:.1f} | {alone / max(took, 1e-3):.2f} | {accepted:.1f} | {taken} | {taken / steps:.2f} |", flush=True)
                if os.environ.get("LOGS"):
                    print((room / f"farm-{workers}" / "log").read_text(encoding="ascii"), flush=True)
    return is_right


def kill(runs):
    """Small models whose workers are killed: how often the answer is right. Models that take no workers are left out."""
    right, died, merged, tried, seed = 0, 0, 0, 0, -1
    while tried < runs:
        seed += 1
        with tempfile.TemporaryDirectory() as room:
            room = pathlib.Path(room)
            program = room / "program"
            program.write_text(DIES.replace("PROGRAM", BPRICE), encoding="ascii")
            program.chmod(0o755)
            model = crews.Model(crews.Draws(seed))
            lp, dec = room / "m.lp", room / "m.dec"
            for file, text in zip((lp, dec), model.texts()):
                file.write_text(text, encoding="ascii")
            answer, _, _, _, dead = farm(room / "farm", lp, dec if seed % 2 else None, 2, program, 5)
            back = (room / "farm" / "log").read_text(encoding="ascii").count(" merged ")
            if dead + back == 0 and answer == model.answer():
                continue
            tried, died, merged, right = tried + 1, died + dead, merged + back, right + (answer == model.answer())
            if answer != model.answer():
                print(f"model {seed}: {answer}, and the best is {model.answer()}", flush=True)
    print(f"{runs} runs, {died} processes died and {merged} certificates came back; {right} right answers with accepted certificates")
    return right == runs


def main():
    words = [word for word in sys.argv[1:] if word not in ("--kills", "--reckon")]
    is_right = kill(int(words[0]) if words else 100) if "--kills" in sys.argv[1:] else measure(words or MODELS)
    sys.exit(0 if is_right else 1)


if __name__ == "__main__":
    main()
