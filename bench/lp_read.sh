#!/usr/bin/env bash
# How long bprice takes to read large LP texts, beside glpsol where that is installed. Each text has one point alone, so
# that almost all of the time is reading. Prints the least processor time of five runs, in seconds, for each text.
set -u

top=$(cd "$(dirname "$(readlink -f "${BASH_SOURCE[0]}")")/.." && pwd)
runs=${RUNS:-5}
folder=$(mktemp -d) || exit
trap 'rm -rf "$folder"' EXIT

# 65,536 terms of 64 variables, in the objective and 1,023 rows, and comments up to the greatest size.
terms() {
    awk '
    function add(line) { size += length(line) + 1; print line }
    BEGIN {
        add("Minimize")
        for (v = 0; v < 64; v++) add(sprintf(" + %d x%d", v + 1, v))
        add("Subject To")
        for (r = 1; r < 1024; r++) {
            for (v = 0; v < 64; v++) add(sprintf(" + %d x%d", (r + v) % 1000 + 1, v))
            add(" >= 0")
        }
        add("Bounds")
        for (v = 0; v < 64; v++) add(sprintf(" x%d = 1", v))
        filler = sprintf("%1022s", "")
        gsub(/ /, "c", filler)
        while (size + 1028 <= 16777216) add("\\" filler)
        filler = substr(filler, 1, 16777216 - size - 6)
        add("\\" filler)
        add("End")
    }'
}

# 4,096 variables with names of 255 characters, each in the objective, in a row and in the bounds.
names() {
    awk 'BEGIN {
        filler = sprintf("%250s", "")
        gsub(/ /, "n", filler)
        print "Minimize"
        for (v = 1; v <= 4096; v++) printf " + %d %s%05d\n", v, filler, v
        print "Subject To"
        for (v = 1; v <= 4096; v++) printf " + %s%05d\n", filler, v
        print " >= 0\nBounds"
        for (v = 1; v <= 4096; v++) printf " %s%05d = 1\n", filler, v
        print "End"
    }'
}

# 8,192 rows with names of their own, of seven terms each.
rows() {
    awk 'BEGIN {
        print "Minimize\n x1\nSubject To"
        for (r = 1; r <= 8192; r++) {
            printf " row%d:", r
            for (t = 0; t < 7; t++) printf " + %d x%d", t + 1, (r * 7 + t) % 1024 + 1
            print " >= 0"
        }
        print "Bounds"
        for (v = 1; v <= 1024; v++) printf " x%d = 1\n", v
        print "End"
    }'
}

# The least processor time of some runs of a command.
least() {
    local best= run spent
    for ((run = 0; run < runs; run++)); do
        spent=$( { TIMEFORMAT='%U %S'; time "$@" >/dev/null 2>&1; } 2>&1 | awk '{ printf "%.3f", $1 + $2 }')
        if [ -z "$best" ] || awk "BEGIN { exit !($spent < $best) }"; then best=$spent; fi
    done
    echo "$best"
}

# The program is built before it is timed.
"$top/bprice" solve "$top/examples/first.lp" >/dev/null || exit
program=$top/crates/bprice/out/bprice

printf '%-8s %12s %10s %10s %10s\n' text bytes lines bprice glpsol
for text in terms names rows; do
    file=$folder/$text.lp
    "$text" >"$file"
    if ! "$program" solve "$file" | head -1 | grep -q '^optimal '; then
        echo "bench: $text is not read as it should be" >&2
        exit 1
    fi
    other=-
    if command -v glpsol >/dev/null; then other=$(least glpsol --check --lp "$file"); fi
    printf '%-8s %12d %10d %10s %10s\n' "$text" "$(wc -c <"$file")" "$(wc -l <"$file")" "$(least "$program" solve "$file")" "$other"
done
