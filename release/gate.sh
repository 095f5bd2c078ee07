#!/usr/bin/env bash
# The gate's check of the release, behind `rt ci`, with the checksum over the sources from before it. It fails where
# release/bprice is not the program that release/SOURCES names, or release/SHA256SUMS not the checksums of the release. Where SOURCES is of the sources at hand it fails unless the kit is
# the one at hand and the program is byte for byte the one that the gate has just built. Where SOURCES is of other sources it
# says which commit of the history has these sources and this same release, and fails where none has.
set -u

. "$(dirname "$(readlink -f "${BASH_SOURCE[0]}")")/common.sh"
. "$top/release/history.sh"

fail() {
    echo "release: $*"
    exit 1
}

# Holds a release of the sources at hand to the program that the gate built of them.
hold_to_built() {
    local kit
    kit=$(told "${built%/*}/SOURCES" kit)
    if [ "$(told "$top/release/SOURCES" kit)" != "$kit" ]; then
        fail "release/SOURCES names another kit than the one at hand, $kit; release/make.sh renews it"
    elif ! cmp -s "$released" "$built"; then
        fail "release/bprice is not the program that the gate built from the sources of release/SOURCES"
    fi
    echo "release: it is the program that the gate built from these sources"
}

# Holds a release of other sources to the commit that brought it.
hold_to_history() {
    local sum why brought rival commit
    sum=$(told "$top/release/SOURCES" sources)
    why=$(lacks_history) && fail "release/SOURCES is not of these sources, and there is no history to look for others in: $why"
    brought=$(commit_of_release) ||
        fail "release/SOURCES is not of these sources, and no commit in the history has this release$(tell_cut)"
    rival=$(rival_of_release) &&
        fail "release/SOURCES names another program of the same sources and kit than it does in commit $rival"
    commit=$(commit_of_sources "$brought" "$sum") ||
        fail "neither commit $brought, which has this release, nor one before it in the history has the sources of release/SOURCES$(tell_cut)"
    if [ "$commit" = "$brought" ]; then
        echo "release: commit $brought has it and its sources, which are not these; release/make.sh renews it"
    else
        echo "release: commit $brought has it, and commit $commit has its sources, which are not these; release/make.sh renews it"
    fi
}

sum=$(sum_of_sources) || fail "the sources cannot be read"
[ "$sum" = "${1-}" ] || fail "the sources changed while the gate ran"
[ -x "$built" ] || fail "the gate built no program"
write_record "$built" "$sum" || fail "no record of the program that was built"

if ! [ -e "$released" ] && ! [ -e "$top/release/SOURCES" ]; then
    echo "release: there is none; release/make.sh makes one"
elif ! is_whole "$released"; then
    fail "release/bprice is not the program that release/SOURCES names"
elif ! is_plain "$top/release/SOURCES"; then
    fail "release/SOURCES has not the three lines of a record"
elif ! [ -x "$released" ]; then
    fail "release/bprice may not be run"
elif is_of "$released" "$sum"; then
    hold_to_built
else
    hold_to_history
fi
[ ! -e "$released" ] || is_summed || fail "release/SHA256SUMS has not the checksums of ${summed[*]}; release/make.sh renews it"
