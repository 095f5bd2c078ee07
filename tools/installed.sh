#!/usr/bin/env bash
# Prints the path of the installed program: it stands for release/which.sh beside the tools that `make install` puts in place.
set -u

readlink -e "$(dirname "$(readlink -f "${BASH_SOURCE[0]}")")/../bprice" && exit
echo "bprice: the program that was installed with these tools is not there" >&2
exit 126
