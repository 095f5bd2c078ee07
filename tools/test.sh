#!/usr/bin/env bash
# Runs the tests of the tools with pytest; its last lines are pytest's summary. BPRICE names the program, where it is not to be the
# one that is built here. What is missing of Debian's packages is installed where that can be done, but for Slurm (slurm-wlm, munge) and ssh's server (openssh-server,
# rsync): tests of these are skipped where they are not installed. Words are handed to pytest.
set -eu

top=$(cd "$(dirname "$(readlink -f "${BASH_SOURCE[0]}")")/.." && pwd)
BPRICE=$(readlink -f "${BPRICE:-$top/crates/bprice/out/bprice}") || true
export BPRICE
if ! [ -x "$BPRICE" ]; then
    echo "tools/test.sh: no program at $BPRICE: build it (./bprice solve examples/first.lp), or name another one by BPRICE" >&2
    exit 1
fi
python=/usr/bin/python3
[ -x "$python" ] || python=python3

missing=()
for pair in pytest:python3-pytest pulp:python3-pulp matplotlib:python3-matplotlib; do
    "$python" -c "import ${pair%%:*}" 2>/dev/null || missing+=("${pair#*:}")
done
command -v dot >/dev/null || missing+=(graphviz)
command -v parallel >/dev/null || missing+=(parallel)

if [ "${#missing[@]}" -gt 0 ]; then
    if [ "$(id -u)" -eq 0 ] && command -v apt-get >/dev/null; then
        echo "tools/test.sh: installs ${missing[*]}" >&2
        apt-get update >&2
        DEBIAN_FRONTEND=noninteractive apt-get install -y --no-install-recommends "${missing[@]}" >&2
    else
        echo "tools/test.sh: missing, and only root can install it: ${missing[*]}" >&2
    fi
fi

cd "$top"
export PYTHONDONTWRITEBYTECODE=1
exec "$python" -m pytest -q -p no:cacheprovider tools/tests "$@"
