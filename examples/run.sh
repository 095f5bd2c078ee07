#!/usr/bin/env bash
# Solves each example, compares its value with the one of report.txt, and has the certificate checked that was written
# and those that stand here. Prints a line for each, and ends with 0 where all came as expected. It may be called in any
# folder. BPRICE names the program, where it is not to be the launcher's.
set -u

here=$(cd "$(dirname "$(readlink -f "${BASH_SOURCE[0]}")")" && pwd)
bprice=${BPRICE:-$here/../bprice}
# A path goes on meaning the same file in the folders of the examples; a name without one is looked up on the PATH.
case $bprice in */*) bprice=$(readlink -f "$bprice") ;; esac
room=$(mktemp -d) || exit 1
trap 'rm -rf "$room"' EXIT
failed=0
cuts=

# expect WHAT WANTED SEEN
expect() {
    if [ "$2" = "$3" ]; then
        echo "$1: $3"
    else
        echo "$1: expected '$2', came '$3'"
        failed=1
    fi
}

# solves FOLDER [WORDS..]: of several best points any may come, so the first line alone is compared. Where `cuts` is set, with
# so many cuts.
solves() {
    local folder=$1 wanted
    shift
    cd "$here/$folder" || exit 1
    wanted=$(head -n 1 report.txt)
    "$bprice" solve model.lp "$@" ${cuts:+--cuts "$cuts"} --cert "$room/cert" >"$room/report"
    expect "$folder${*:+ $*}${cuts:+, cuts}" "$wanted" "$(head -n 1 "$room/report")"
    expect "$folder${*:+ $*}${cuts:+, cuts}, its certificate" "accepted $wanted" "$("$bprice" check model.lp "$room/cert" "$@")"
}

# checks FOLDER CLAIM MODEL CERT [WORDS..]
checks() {
    local folder=$1 claim=$2
    shift 2
    cd "$here/$folder" || exit 1
    expect "$folder $*" "accepted $claim" "$("$bprice" check "$@")"
}

# detects FOLDER LIST: the decomposition beside the listed rows has the blocks of model.dec.
detects() {
    cd "$here/$1" || exit 1
    expect "$1, blocks beside $2" "detected blocks $(awk '$1 == "NBLOCKS" { print $2 }' model.dec)" "$("$bprice" detect model.lp "$2" "$room/dec")"
    expect "$1, their sizes" "$("$bprice" show model.lp --dec model.dec | paste -sd' ')" "$("$bprice" show model.lp --dec "$room/dec" | paste -sd' ')"
}

detects cutting-stock orders.txt
solves cutting-stock
solves cutting-stock --dec model.dec
checks cutting-stock 'optimal 2' model.lp model.cert --dec model.dec
checks cutting-stock 'optimal 5' harder.lp harder.cert --dec harder.dec
solves rostering
solves rostering --dec model.dec
checks rostering 'optimal 368' model.lp model.cert --dec model.dec
checks rostering 'optimal 42' three.lp three.cert --dec three.dec
solves routing
solves routing --dec model.dec
checks routing 'optimal 37' model.lp model.cert
solves assignment
solves assignment --dec model.dec
checks assignment 'optimal 92' model.lp model.cert
solves shared-machine
solves shared-machine --dec model.dec
checks shared-machine 'optimal 18' model.lp model.cert --dec model.dec
cuts=2 solves odd-order
checks odd-order infeasible model.lp model.cert
checks odd-order 'optimal 33' at-least.lp at-least.cert

exit $failed
