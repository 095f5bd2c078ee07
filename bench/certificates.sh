#!/usr/bin/env bash
# What long certificates cost: processor seconds and peak memory of `check` and `solve --cert`. The model has one variable x
# from 0 to N - 1, and its certificate a leaf for each of its numbers, so that a leaf costs next to nothing and the text
# decides. A line for each number of leaves: bytes, seconds (user and system, the least of some runs), megabytes a second,
# and the most memory that was taken. Behind them a search of so many steps, with and without `--cert`; and the bytes of
# certificates of generated models in version 2 beside those of the same in version 1.
#
#     bench/certificates.sh [LEAVES..]       powers of two; 1024 131072 1048576 8388608 where none is given
#     RUNS=3 STEPS=100000 BPRICE=program bench/certificates.sh
#
# Linux, bash, awk, GNU time and python3 are needed.
set -u

top=$(cd "$(dirname "$(readlink -f "${BASH_SOURCE[0]}")")/.." && pwd)
program=${BPRICE:-$top/bprice}
runs=${RUNS:-3}
steps=${STEPS:-100000}
folder=$(mktemp -d) || exit
trap 'rm -rf "$folder"' EXIT
[ $# -gt 0 ] || set -- 1024 131072 1048576 8388608

model() { # LEAVES
    printf 'Minimize\n obj: x\nSubject To\n c: x >= 0\nBounds\n x <= %d\nGenerals\n x\nEnd\n' $(($1 - 1))
}

# The tree that halves the span until each leaf is one number.
certificate() { # LEAVES
    awk -v leaves="$1" '
    function node(low, count) {
        if (count == 1) { print "leaf 1 change 0 priced 0"; return }
        printf "split 1 %d\n", low + count / 2 - 1
        node(low, count / 2)
        node(low + count / 2, count / 2)
    }
    BEGIN { print "bpcert 2\nclaim optimal 0\npoint 0"; node(0, leaves); print "end" }'
}

# Sets `seconds` to the least processor seconds of some runs of a command and `memory` to the most MB that one took; its
# first line must be that.
measure() { # LINE COMMAND..
    local line=$1 run spent
    shift
    seconds= memory=0
    for ((run = 0; run < runs; run++)); do
        command time -o "$folder/spent" -f '%U %S %M' "$@" >"$folder/put" 2>/dev/null
        [ "$(head -n 1 "$folder/put")" = "$line" ] || { echo "bench: '$*' put $(head -n 1 "$folder/put")" >&2; exit 1; }
        spent=($(tail -n 1 "$folder/spent"))
        memory=$(awk "BEGIN { m = ${spent[2]} / 1024; print (m > $memory) ? m : $memory }")
        spent=$(awk "BEGIN { print ${spent[0]} + ${spent[1]} }")
        if [ -z "$seconds" ] || awk "BEGIN { exit !($spent < $seconds) }"; then seconds=$spent; fi
    done
}

printf '%10s %12s %10s %8s %8s\n' leaves bytes seconds MB/s 'peak MB'
for leaves; do
    model "$leaves" >"$folder/long.lp"
    certificate "$leaves" >"$folder/long.cert"
    bytes=$(stat -c %s "$folder/long.cert")
    measure 'accepted optimal 0' "$program" check "$folder/long.lp" "$folder/long.cert"
    rate=$(awk "BEGIN { printf \"%.0f\", ($seconds > 0) ? $bytes / $seconds / 1000000 : 0 }")
    printf '%10d %12d %10.2f %8s %8.1f\n' "$leaves" "$bytes" "$seconds" "$rate" "$memory"
done

# Forty binaries that add up to a half: no step shows that there is no point, so each takes a leaf.
awk -v steps="$steps" 'BEGIN {
    print "Minimize\n obj: x1\nSubject To"
    printf " c:"
    for (v = 1; v <= 40; v++) printf " + 2 x%d", v
    print " = 41\nBinaries"
    for (v = 1; v <= 40; v++) printf " x%d", v
    print "\nEnd"
}' >"$folder/odd.lp"
printf '\n%10s %12s %10s %8s %8s\n' steps bytes seconds '' 'peak MB'
for cert in '' "$folder/odd.cert"; do
    measure "budget $steps" "$program" solve "$folder/odd.lp" --steps "$steps" ${cert:+--cert "$cert"}
    bytes=-
    [ -z "$cert" ] || bytes=$(stat -c %s "$cert")
    printf '%10d %12s %10.2f %8s %8.1f\n' "$steps" "$bytes" "$seconds" '' "$memory"
done

# Version 1 of a certificate is made from version 2 by what its leaves change.
as_version_1() {
    python3 -c '
import sys
had = {}
for line in sys.stdin:
    words = line.split()
    if words[:2] == ["bpcert", "2"]:
        words = ["bpcert", "1"]
    elif words[0] in ("leaf", "open"):
        count = int(words[3])
        for row, number in zip(words[4 : 4 + 2 * count : 2], words[5 : 4 + 2 * count : 2]):
            had[int(row)] = number
            if number == "0":
                del had[int(row)]
        rows = [word for row in sorted(had) for word in (str(row), had[row])]
        words = [*words[:2], "rows", str(len(had)), *rows, *words[4 + 2 * count :]]
    print(*words)'
}

printf '\n%-28s %8s %12s %12s %8s\n' model leaves 'version 2' 'version 1' times
for seed in 1 2 3 4 5 6 7 8; do
    "$program" gen "$seed" 100 "$folder/gen.lp" "$folder/gen.dec" >/dev/null || exit
    for dec in "$folder/gen.dec" ''; do
        "$program" solve "$folder/gen.lp" ${dec:+--dec "$dec"} --cert "$folder/gen.cert" --steps 5000 >/dev/null
        as_version_1 <"$folder/gen.cert" >"$folder/first.cert"
        verdict=$("$program" check "$folder/gen.lp" "$folder/first.cert" ${dec:+--dec "$dec"} | cut -d ' ' -f 1)
        [ "$verdict" = accepted ] || { echo "bench: version 1 of seed $seed is $verdict" >&2; exit 1; }
        two=$(stat -c %s "$folder/gen.cert")
        one=$(stat -c %s "$folder/first.cert")
        leaves=$(grep -c '^leaf\|^open' "$folder/gen.cert")
        printf '%-28s %8d %12d %12d %8.2f\n' "4 x 100, seed $seed${dec:+, DEC}" "$leaves" "$two" "$one" "$(awk "BEGIN { print $two / $one }")"
    done
done
