#!/usr/bin/env python3
"""Runs the program with `--large` on texts at the large limits and one past them, and on texts that are long in one thing.

    bench/large_limits.py [NAME..]      NAME: only cases whose names begin so
    BPRICE=program bench/large_limits.py

It prints a line for each case: what the program answered, its status, the processor seconds and the megabytes that it needed, and ends with
status 1 where an answer is not the one that is wanted. The longest texts have 256 MiB; they are written to a folder of their own and removed.
"""
import os
import re
import resource
import subprocess
import sys
import tempfile

TOP = os.path.dirname(os.path.dirname(os.path.realpath(__file__)))
BPRICE = os.path.realpath(os.environ.get("BPRICE", f"{TOP}/bprice"))
BYTES, VARIABLES, ROWS, TERMS, DIGITS, BLOCKS, DEPTH = 1 << 28, 1 << 19, 1 << 19, 1 << 22, 1 << 20, 1 << 17, (1 << 20) + 64
STACK = 256  # kilobytes
FIRST = "Minimize\n x\nst\n c: x >= 0\nBinaries\n x\nEnd\n"


def names(count, letter="x"):
    return " ".join(f"{letter}{i}" for i in range(count))


def variables(count):
    return f"Minimize\n x0\nst\n c: x0 >= 0\nBinaries\n {names(count)}\nEnd\n"


def rows(count):
    return "Minimize\n x\nst\n" + "".join(f"r{i}: x >= 0\n" for i in range(count)) + "Binaries\n x\nEnd\n"


def terms(count):
    wide = 1 << 10
    full = " + ".join(f"x{i}" for i in range(wide))
    lines = [f"r{i}: {full} >= 0" for i in range(count // wide)]
    lines += [f"last: {' + '.join(f'x{i}' for i in range(count % wide))} >= 0"] * (count % wide > 0)
    return "Minimize\n x0\nst\n" + "\n".join(lines) + f"\nBinaries\n {names(wide)}\nEnd\n"


def digits(count):
    each = 40
    bounds = [f"0 <= x{i} <= {(1 << each) - 1}" for i in range(count // each)] + [f"0 <= y <= {(1 << count % each) - 1}"] * (count % each > 0)
    general = [line.split()[2] for line in bounds]
    return "Minimize\n x0\nst\n c: x0 >= 0\nBounds\n " + "\n ".join(bounds) + "\nGenerals\n " + " ".join(general) + "\nEnd\n"


def padded(text, size):
    """The text with blanks at its end, so that it has this size."""
    return text + " " * (size - len(text))


def blocks(count, used):
    """A model of so many rows, and a decomposition of so many blocks, of which the last ones are empty."""
    lp = "Minimize\n x0\nst\n" + "".join(f"r{i}: x{i} >= 0\n" for i in range(used)) + f"Binaries\n {names(used)}\nEnd\n"
    return lp, f"NBLOCKS {count}\n" + "".join(f"BLOCK {i + 1}\nr{i}\n" for i in range(used))


def chain(depth):
    """A model of one variable, and a certificate whose splits cut one number off after another."""
    lp = f"Minimize\n 1 x\nst\n c: x >= 0\nBounds\n 0 <= x <= {depth}\nGenerals\n x\nEnd\n"
    leaf = "leaf 1 rows 0 priced all\n"
    splits = "".join(f"split 1 {depth - 1 - at}\n" for at in range(depth))
    return lp, f"bpcert 1\nclaim optimal 0\npoint 0\n{splits}{leaf * (depth + 1)}end\n"


def cases():
    """Name, words, files by name, the wanted beginning of the report."""
    limit = "refused lp {} limit"
    yield "variables", "show a.lp", {"a.lp": lambda: variables(VARIABLES)}, f"variables {VARIABLES}"
    yield "variables+1", "show a.lp", {"a.lp": lambda: variables(VARIABLES + 1)}, limit.format(6)
    yield "rows", "show a.lp", {"a.lp": lambda: rows(ROWS)}, f"variables 1\nrows {ROWS}"
    yield "rows+1", "show a.lp", {"a.lp": lambda: rows(ROWS + 1)}, limit.format(ROWS + 4)
    # (the objective has one more)
    yield "terms", "show a.lp", {"a.lp": lambda: terms(TERMS - 1)}, "variables 1024\nrows 4096"
    yield "terms+1", "show a.lp", {"a.lp": lambda: terms(TERMS)}, limit.format(TERMS // 1024 + 4)
    yield "digits", "show a.lp", {"a.lp": lambda: digits(DIGITS)}, f"variables {-(-DIGITS // 40)}"
    yield "digits+1", "show a.lp", {"a.lp": lambda: digits(DIGITS + 1)}, limit.format(r"\d+")
    yield "bytes", "show a.lp", {"a.lp": lambda: padded(FIRST, BYTES)}, "variables 1"
    yield "bytes+1", "show a.lp", {"a.lp": lambda: padded(FIRST, BYTES + 1)}, limit.format(0)
    yield "blocks", "show a.lp --dec a.dec", {("a.lp", "a.dec"): lambda: blocks(BLOCKS, BLOCKS)}, f"variables {BLOCKS}"
    yield "blocks+1", "show a.lp --dec a.dec", {("a.lp", "a.dec"): lambda: blocks(BLOCKS + 1, 10)}, "refused dec 1 limit"
    yield "blocks-of-ten-rows", "show a.lp --dec a.dec", {("a.lp", "a.dec"): lambda: blocks(100_000, 10)}, "variables 10"
    yield "blocks-of-one-row", "solve a.lp --dec a.dec", {("a.lp", "a.dec"): lambda: blocks(100_000, 100_000)}, "optimal 0"
    yield "dec-bytes+1", "show a.lp --dec a.dec", {"a.lp": lambda: FIRST, "a.dec": lambda: padded("NBLOCKS 0\n", BYTES + 1)}, "refused dec 0 limit"
    yield "list-bytes+1", "detect a.lp a.rows a.dec", {"a.lp": lambda: FIRST, "a.rows": lambda: padded("c\n", BYTES + 1)}, "refused rows 0 limit"
    yield "digits-alone", "show a.lp", {"a.lp": lambda: "Minimize\n " + "1" * (BYTES - 10)}, r"refused lp 2 (too-large|syntax|no-end)"
    yield "signs-alone", "show a.lp", {"a.lp": lambda: "Minimize\n " + "+ " * (BYTES // 2 - 10)}, r"refused lp \d+ (syntax|no-end)"
    yield "name-alone", "show a.lp", {"a.lp": lambda: "Minimize\n " + "x" * (BYTES - 10)}, r"refused lp 2 long-name"
    for depth in (1_000_000,):
        files = {("a.lp", "a.cert"): lambda: chain(depth)}
        yield "chain-check", "check a.lp a.cert", files, "accepted optimal 0"
        yield "chain-from", "solve a.lp --from a.cert --steps 1", files, "optimal 0"
        yield "chain-merge", "merge a.lp a.cert a.cert b.cert", files, r"merged open 0"
        yield "chain-migrate", "migrate a.lp a.cert b.cert", files, "migrated"
    yield "chain+1", "check a.lp a.cert", {("a.lp", "a.cert"): lambda: chain(DEPTH + 1)}, r"refused cert \d+ depth"


def write(files):
    for given, make in files.items():
        texts = make()
        for name, text in zip(given, texts) if isinstance(given, tuple) else [(given, texts)]:
            with open(name, "w", encoding="ascii") as file:
                file.write(text)


def run(words):
    """What the program prints, its status, its processor seconds and megabytes, within the stack."""
    before = resource.getrusage(resource.RUSAGE_CHILDREN)
    script = f'ulimit -s {STACK}; exec /usr/bin/time -o size -f %M "$@"'
    ran = subprocess.run(["bash", "-c", script, "bash", BPRICE, *words.split(), "--large"], capture_output=True, text=True, check=False)
    after = resource.getrusage(resource.RUSAGE_CHILDREN)
    with open("size", encoding="ascii") as told:
        size = int(told.read().split()[-1]) / 1024
    return ran.stdout, ran.returncode, after.ru_utime + after.ru_stime - before.ru_utime - before.ru_stime, size


def main():
    asked, wrong = sys.argv[1:], 0
    for name, words, files, wanted in cases():
        if asked and not any(name.startswith(one) for one in asked):
            continue
        with tempfile.TemporaryDirectory() as room:
            os.chdir(room)
            write(files)
            told, status, seconds, size = run(words)
            os.chdir("/")
        is_right = re.match(wanted, told) is not None
        wrong += not is_right
        first = " ".join(told.split("\n")[:2])[:60]
        print(f"{name:20} {'ok' if is_right else 'WRONG':6} status {status:4}  {seconds:7.2f} s {size:7.0f} MB  {first}", flush=True)
    sys.exit(1 if wrong else 0)


if __name__ == "__main__":
    main()
