#!/usr/bin/env bash
# Prints the path of the program that ./bprice runs, for `make install`. It proves nothing.
set -u

. "$(dirname "$(readlink -f "${BASH_SOURCE[0]}")")/common.sh"

choose_program "$(sum_of_sources)"
case $? in
0) echo "$program" ;;
1)
    complain "there is no program: ./prove proves and builds it"
    exit 126
    ;;
*) exit 126 ;;
esac
