#!/usr/bin/env python3
"""Refuses each request for memory of small runs of the program in turn, one in each run.

    bench/refused_memory.py [PROGRAM [WORKED]]

PROGRAM is the program to run, or else release/bprice; WORKED is the program of crates/test_scripts, as the gate leaves it in
crates/test_scripts/out/test_scripts. The script wants a C compiler, `cc`.

A run whose Nth request is refused must either end as it ends with ample memory, with the same status, output and files, or with status 9,
nothing printed, and its files as they were before; of `gen` the LP file may hold its whole text, and of `solve` and
`migrate` the certificate's a beginning of it. A run that ended with status 9 is begun again over what it left, with nothing refused, and must then end as it ends with ample memory. The line of each run tells its
requests, and how many of them, refused, led to status 9 and how many to the answer. The last line tells the sums, and the
script ends with status 1 where a run did anything else.

WORKED is run with the word `calls`: it calls the libraries, and tries a call of a pool, of a tree, of a crew or of a search a second time
where memory was short. So where the refused request is one of these calls', it must print what it prints with ample memory, which
is the end of crates/test_scripts/stdout; where it is another, it may end with an error and nothing printed, or say of one text that it is
not tried, in place of what it tells of it, and print all else. It fills a pool by many thousand calls: its first and last requests are refused, and of those between one in so many.
"""

import os
import subprocess
import sys
import tempfile

REFUSER = r"""
#define _GNU_SOURCE
#include <dlfcn.h>
#include <stdio.h>
#include <stdlib.h>

static long calls, refused;
static void *(*next_malloc)(size_t), *(*next_realloc)(void *, size_t);

__attribute__((constructor)) static void begin(void) {
    next_malloc = (void *(*)(size_t))dlsym(RTLD_NEXT, "malloc");
    next_realloc = (void *(*)(void *, size_t))dlsym(RTLD_NEXT, "realloc");
    const char *number = getenv("REFUSED_CALL");
    calls = 0;
    refused = number ? atol(number) : 0;
}

static int is_refused(void) { return refused && ++calls == refused; }

void *malloc(size_t size) {
    if (!next_malloc) next_malloc = (void *(*)(size_t))dlsym(RTLD_NEXT, "malloc");
    return is_refused() ? NULL : next_malloc(size);
}

void *realloc(void *old, size_t size) {
    if (!next_realloc) next_realloc = (void *(*)(void *, size_t))dlsym(RTLD_NEXT, "realloc");
    return is_refused() ? NULL : next_realloc(old, size);
}

__attribute__((destructor)) static void end(void) {
    const char *name = getenv("REFUSED_COUNT");
    long made = calls;
    FILE *out = name ? fopen(name, "w") : NULL;
    if (out) { fprintf(out, "%ld\n", made); fclose(out); }
}
"""

TWO = """Maximize
obj: 3 x + 2 y
Subject To
c1: 2 x + y <= 5
c2: x + 3 y <= 7
Bounds
x <= 3
y <= 3
Generals
x y
End
"""

OPTIMAL = """bpcert 1
claim optimal 8
point 2 1
leaf 5 rows 2 1 -7 2 -1 priced 0
end
"""

OPEN = """bpcert 1
claim bound 15
open 1 rows 0 priced 0
end
"""

ODD = """Minimize
obj: x + y
Subject To
c1: 2 x + 2 y = 5
Bounds
x <= 3
y <= 3
Generals
x y
End
"""

AGENTS = """Minimize
obj: 4 x11 + 7 x12 + 3 x13 + 5 x21 + 4 x22 + 6 x23
Subject To
job1: x11 + x21 = 1
job2: x12 + x22 = 1
job3: x13 + x23 = 1
cap1: 2 x11 + 3 x12 + 2 x13 <= 4
cap2: 3 x21 + 2 x22 + 2 x23 <= 4
Binaries
x11 x12 x13 x21 x22 x23
End
"""

AGENTS_DEC = """NBLOCKS 2
BLOCK 1
cap1
BLOCK 2
cap2
MASTERCONSS
job1 job2 job3
"""

FILES = {
    "two.lp": TWO,
    "odd.lp": ODD,
    "optimal.cert": OPTIMAL,
    "open.cert": OPEN,
    "agents.lp": AGENTS,
    "agents.dec": AGENTS_DEC,
    "jobs.txt": "job1 job2 job3\n",
    "kept.cert": "kept\n",
}

# The words of each run, and the files of which one may hold its whole text, or a beginning of it, where memory is wanting.
RUNS = [
    ("solve two.lp", [], []),
    ("check two.lp optimal.cert", [], []),
    ("check two.lp optimal.cert --visits 9", [], []),
    ("solve agents.lp --dec agents.dec --cert kept.cert", [], ["kept.cert"]),
    ("gen 0 1 made.lp made.dec", ["made.lp"], []),
    ("demo 7 1", [], []),
    ("show agents.lp --dec agents.dec --blocks", [], []),
    ("detect agents.lp jobs.txt found.dec", [], []),
    ("propose agents.lp proposed.dec", [], []),
    ("merge two.lp open.cert optimal.cert merged.cert", [], []),
    ("migrate two.lp open.cert migrated.cert", [], ["migrated.cert"]),
    ("solve two.lp --from open.cert --cert more.cert", [], ["more.cert"]),
    ("solve agents.lp --dec agents.dec --workers 2 --order 3", [], []),
    ("solve two.lp --from open.cert --leaf 1 --cert more.cert", [], ["more.cert"]),
    ("solve odd.lp --cuts 8 --cert kept.cert", [], ["kept.cert"]),
    ("solve two.lp --from open.cert --cuts 8 --cert more.cert", [], ["more.cert"]),
]

# The number of a request that no run comes to.
NEVER = 10**15

# Of the calls of the libraries: how many requests are refused at the front, which has all of those before the pool is filled, and at
# the end, and about how many between.
FRONT, END, BETWEEN = 1500, 300, 400

# The beginning of what the calls print, which stands behind what the scripts' commands print.
FIRST_CALL = b"classes of two.lp at the root"


def files_of(folder):
    """The files of a folder, by their names."""
    found = {}
    for name in os.listdir(folder):
        with open(os.path.join(folder, name), "rb") as file:
            found[name] = file.read()
    return found


def run_in(folder, program, refuser, words, call):
    """Runs in a folder with this request refused: the status, the output and the files behind it; and its requests."""
    with tempfile.TemporaryDirectory() as place:
        count = os.path.join(place, "count")
        env = dict(os.environ, LD_PRELOAD=refuser, REFUSED_CALL=str(call), REFUSED_COUNT=count)
        ended = subprocess.run(
            [program, *words], cwd=folder, env=env, stdout=subprocess.PIPE, stderr=subprocess.DEVNULL, timeout=120
        )
        with open(count) as file:
            calls = int(file.read())
        return (ended.returncode, ended.stdout, files_of(folder)), calls


def run(program, refuser, words, call):
    """Runs in a folder of its own with this request refused: how it ended, how it ended when it was begun again behind status 9, and
    its requests."""
    with tempfile.TemporaryDirectory() as place:
        folder = os.path.join(place, "files")
        os.mkdir(folder)
        for name, text in FILES.items():
            with open(os.path.join(folder, name), "w") as file:
                file.write(text)
        ended, calls = run_in(folder, program, refuser, words, call)
        again = run_in(folder, program, refuser, words, NEVER)[0] if ended[0] == 9 else ended
        return ended, again, calls


def stands(before, answer, now, whole, begun):
    """Whether files are as before, up to those of which the whole text or a beginning of it may stand."""
    for name in set(before) | set(now):
        if now.get(name) == before.get(name):
            continue
        if name not in now or name not in answer:
            return False
        if not (name in whole and now[name] == answer[name] or name in begun and answer[name].startswith(now[name])):
            return False
    return True


def try_all(program, refuser, text, whole, begun):
    """Refuses each request of a run in turn: how many requests, how often status 9 and the answer came, and what was odd."""
    words = text.split()
    answer, _, calls = run(program, refuser, words, NEVER)
    before = {name: text.encode() for name, text in FILES.items()}
    wants, same, odd = 0, 0, []
    for call in range(1, calls + 1):
        ended, again, _ = run(program, refuser, words, call)
        if ended == answer:
            same += 1
        elif ended[0] == 9 and ended[1] == b"" and stands(before, answer[2], ended[2], whole, begun) and again == answer:
            wants += 1
        else:
            odd.append((call, ended[0]))
    print(f"{text}: status {answer[0]}, {calls} requests, refused: {wants} want of memory, {same} the answer", flush=True)
    for call, status in odd:
        print(f"  request {call}: status {status}, and not what must stand", flush=True)
    return calls, wants, same, len(odd)


def run_calls(worked, refuser, data, call):
    """Runs the calls of the libraries with this request refused: the status, the output and the requests."""
    with tempfile.TemporaryDirectory() as place:
        count = os.path.join(place, "count")
        env = dict(os.environ, LD_PRELOAD=refuser, REFUSED_CALL=str(call), REFUSED_COUNT=count)
        ended = subprocess.run([worked, "calls"], cwd=data, env=env, stdout=subprocess.PIPE, stderr=subprocess.DEVNULL, timeout=120)
        with open(count) as file:
            return ended.returncode, ended.stdout, int(file.read())


def has_left_out(out, wanted):
    """Whether an output is what is wanted but for one text, of which it says that it is not tried."""
    lines, rest = out.split(b"\n"), wanted.split(b"\n")
    left = [k for k, line in enumerate(lines) if line.endswith(b": not tried, a text is refused")]
    if len(left) != 1 or len(lines) > len(rest):
        return False
    behind = len(lines) - left[0] - 1
    return lines[:left[0]] == rest[:left[0]] and lines[left[0] + 1:] == rest[len(rest) - behind:]


def try_calls(worked, refuser, crate):
    """Refuses requests of the calls of the libraries: whether each led to the answer, or to an error with nothing printed."""
    data = os.path.join(crate, "data")
    with open(os.path.join(crate, "stdout"), "rb") as file:
        printed = file.read()
    wanted = printed[printed.index(FIRST_CALL):]
    status, out, requests = run_calls(worked, refuser, data, NEVER)
    if (status, out) != (0, wanted):
        print(f"calls: status {status}, and not what stands at the end of {crate}/stdout")
        return False
    ends = set(range(1, FRONT + 1)) | set(range(requests - END + 1, requests + 1))
    chosen = sorted(n for n in ends | set(range(1, requests + 1, max(1, requests // BETWEEN))) if 1 <= n <= requests)
    same, errors, left_out, odd = 0, 0, 0, []
    for call in chosen:
        status, out, _ = run_calls(worked, refuser, data, call)
        if (status, out) == (0, wanted):
            same += 1
        elif status != 0 and out == b"":
            errors += 1
        elif status == 0 and has_left_out(out, wanted):
            left_out += 1
        else:
            odd.append((call, status))
    print(f"calls: {requests} requests, {len(chosen)} refused: {same} the answer, {errors} an error, {left_out} one text not tried, {len(odd)} anything else")
    for call, status in odd:
        print(f"  request {call}: status {status}, and not what must stand", flush=True)
    return not odd


def main():
    here = os.path.dirname(os.path.abspath(__file__))
    program = os.path.abspath(sys.argv[1]) if len(sys.argv) > 1 else os.path.join(here, "../release/bprice")
    worked = os.path.abspath(sys.argv[2]) if len(sys.argv) > 2 else None
    sums = [0, 0, 0, 0]
    well = True
    with tempfile.TemporaryDirectory() as place:
        source = os.path.join(place, "refuser.c")
        refuser = os.path.join(place, "refuser.so")
        with open(source, "w") as file:
            file.write(REFUSER)
        subprocess.run(["cc", "-shared", "-fPIC", "-O1", "-o", refuser, source, "-ldl"], check=True)
        for text, whole, begun in RUNS:
            sums = [a + b for a, b in zip(sums, try_all(program, refuser, text, whole, begun))]
        if worked:
            well = try_calls(worked, refuser, os.path.join(here, "../crates/test_scripts"))
    print(f"{len(RUNS)} runs, {sums[0]} requests, refused: {sums[1]} want of memory, {sums[2]} the answer, {sums[3]} anything else")
    sys.exit(1 if sums[3] or not well else 0)


if __name__ == "__main__":
    main()
