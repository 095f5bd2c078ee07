#!/usr/bin/env bash
# Prints for each crate its lines, and the processor seconds that its proof takes from nothing, its tests' proof and its
# edits that must fail; and behind them the seconds of the longest chain of proofs that ends with it, since a crate waits
# for those that it stands on. Below the table: the sums, and the longest chain of all.
#
#     bench/proof_times.sh            every crate; it takes as long as the whole gate from nothing
#     bench/proof_times.sh lp_read..  these crates alone, over what `rt ci` has proved on this machine of those below; with
#                                     a kit whose `rt ci` keeps nothing, those below are proved and timed too
#     bench/proof_times.sh --of PID   what the run of `rt ci` of that process proves from now on, as the gate's own run: it
#                                     prints the table when that has ended
#
# But with --of, `rt ci` runs on a copy. Once a second the time of each of its checks is read from /proc, with that of the
# processes that it has waited for. So each check is measured up to a second short, and of what is kept from earlier runs
# nothing is told. Seconds that are lacking are told as 0. Linux, bash, awk and Rattle's command rt are needed.
set -eu

top=$(cd "$(dirname "$(readlink -f "${BASH_SOURCE[0]}")")/.." && pwd)
room=$(mktemp -d)
trap 'rm -rf "$room"' EXIT

# Leaves in crates.txt the lines of these crates and of those that they stand on, and no other crate's folder.
keep_crates() { # NAME..
    local kept=" $* " before= it below
    while [ "$kept" != "$before" ]; do
        before=$kept
        for it in $before; do
            for below in $(sed -n "s/^$it[^:]*://p" crates.txt); do
                [[ $kept == *" $below "* ]] || ! grep -q "^$below\b" crates.txt || kept+="$below "
            done
        done
    done
    for it in crates/*/; do
        it=$(basename "$it")
        [[ $kept == *" $it "* ]] || { rm -r "crates/$it" && sed -i "/^$it\b/d" crates.txt; }
    done
}

# Starts `rt ci` on a copy of the repository without what rt made: the process is in run.
start() { # NAME..
    local words=() it root
    mkdir "$room/repo" "$room/repo/.git"
    (cd "$top" && tar -c --exclude=out crates crates.txt HANDLES) | tar -x -C "$room/repo"
    cd "$room/repo"
    if ! grep -q -- --anew "$(readlink -f "$(command -v rt)")"; then
        [ $# -eq 0 ] || keep_crates "$@"
    elif [ $# -eq 0 ]; then
        words=(--anew $(sed -n 's/^\([a-z0-9_]*\).*:.*/\1/p' crates.txt))
    else
        words=("$@")
        # A last line that no earlier run has proved.
        for it; do
            for root in crates/"$it"/src/{lib,main}.rt; do
                [ -f "$root" ] && echo "// Timed: $$ $RANDOM" >>"$root"
            done
        done
    fi
    rt ci "${words[@]}" >"$room/log" 2>&1 &
    run=$!
}

# Prints a line for each check of that run of rt: its process and when that began, its crate, what it proves, its hundredths of a second. A
# check is waited for with those that it starts, so these are in its time once they have ended.
sample() { # PID
    local at words kind stat
    for at in $(cat /proc/"$1"/task/*/children); do
        at=/proc/$at
        { read -r stat <"$at/stat"; } 2>/dev/null || continue
        stat=(${stat##*) })
        mapfile -d '' words <"$at/cmdline" || continue
        [[ ${words[0]-} == */rattle && " ${words[*]} " =~ ' --crate-name '([a-z0-9_]+)' ' ]] || continue
        kind=proof
        [[ " ${words[*]} " == *' --test '* ]] && kind=tests
        [[ $(readlink "$at/cwd") == */rt-edit-* ]] && kind=edits
        echo "${at#/proc/}.${stat[19]} ${BASH_REMATCH[1]} $kind $((stat[11] + stat[12] + stat[13] + stat[14]))"
    done 2>/dev/null
}

if [ "${1-}" = --of ]; then
    run=$2
    cd "$top"
else
    start "$@"
fi
while kill -0 "$run" 2>/dev/null; do
    sample "$run"
    sleep 1
done >"$room/samples"
status=0
[ "${1-}" = --of ] || wait "$run" || status=$?

# The crates, lowest first as crates.txt has them, with their lines.
while read -r crate; do
    echo "lines $crate $(find "$top/crates/$crate"/{src,specs,proofs} \( -name '*.rt' -o -name '*.antt' \) -exec cat {} + 2>/dev/null | wc -l)"
done < <(sed -n 's/^\([a-z0-9_]*\).*:.*/\1/p' crates.txt) >"$room/lines"

awk -v ticks="$(getconf CLK_TCK)" -v all="$([ $# -eq 0 ] && echo 1)" '
    # The crate with its chain below it.
    function chain(crate,    at, it, most, path, parts) {
        if (crate in found) return found[crate]
        split(below[crate], parts, " ")
        most = 0; path = ""
        for (at = 1; at in parts; at++) {
            it = parts[at]
            if ((it in lines) && chain(it) > most) { most = found[it]; path = way[it] }
        }
        way[crate] = path (path == "" ? "" : " > ") crate
        return found[crate] = most + time[crate, "proof"]
    }
    FILENAME ~ /lines$/ { lines[$2] = $3; order[++count] = $2; next }
    FILENAME ~ /samples$/ { if ($4 > last[$1]) last[$1] = $4; of[$1] = $2 SUBSEP $3; next }
    /:/ { name = $1; sub(/:.*/, "", name); sub(/^[^:]*:/, ""); below[name] = $0 }
    END {
        for (it in last) { time[of[it]] += last[it] / ticks; split(of[it], parts, SUBSEP); was[parts[1]] = 1 }
        print "| Crate | Lines | Proof | Tests | Edits | Chain |"
        print "|---|---|---|---|---|---|"
        for (at = 1; at <= count; at++) {
            it = order[at]
            if (!(it in was)) continue
            printf "| `%s` | %d | %.0f | %.0f | %.0f | %.0f |\n", it, lines[it], time[it, "proof"], time[it, "tests"], time[it, "edits"], chain(it)
            sum["lines"] += lines[it]
            for (kind in kinds) delete kinds[kind]
            kinds["proof"]; kinds["tests"]; kinds["edits"]
            for (kind in kinds) sum[kind] += time[it, kind]
            if (chain(it) > most) { most = chain(it); longest = way[it] }
        }
        printf "| all | %d | %.0f | %.0f | %.0f | %.0f |\n", sum["lines"], sum["proof"], sum["tests"], sum["edits"], most
        print ""
        print "Longest chain: " longest
    }' "$room/lines" "$room/samples" crates.txt
[ "${1-}" != --of ] || exit 0
tail -n 1 "$room/log"
[ "$status" -eq 0 ] || grep '^rt: .*\(NOT\|FAILED\)' "$room/log"
exit "$status"
