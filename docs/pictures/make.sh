#!/usr/bin/env bash
# Makes the pictures of the documents anew, by Debian's Python with matplotlib and by graphviz. BPRICE names the program, where it is
# not to be the launcher's.
set -eu

here=$(cd "$(dirname "$(readlink -f "${BASH_SOURCE[0]}")")" && pwd)
top=$(cd "$here/../.." && pwd)
bprice=${BPRICE:-$top/bprice}
python=/usr/bin/python3
[ -x "$python" ] || python=python3
room=$(mktemp -d)
trap 'rm -rf "$room"' EXIT

draw() {
    "$python" "$top/tools/bprice-draw" "$@"
}

cd "$top/examples"
draw matrix cutting-stock/model.lp --dec cutting-stock/model.dec "$here/cutting-matrix.svg"
draw tree routing/model.lp routing/model.cert "$here/routing-tree.svg"

"$bprice" solve "$here/small.lp" --cert "$room/small.cert" >"$room/report"
draw tree "$here/small.lp" "$room/small.cert" "$here/small-tree.svg"

"$top/tools/layers.py"

# A hundred jobs for five machines, of the recipe whose instances are the hardest: the first twenty seconds of a search of many
# steps are drawn.
python3 "$top/bench/models.py" "$room" assignment-D-5-100
"$python" "$top/tools/bprice-run" "$room/assignment-D-5-100.lp" --dec "$room/assignment-D-5-100.dec" --cert "$room/cert" --time 20 \
    2>"$room/log" >"$room/report" || [ $? -eq 5 ]
draw progress "$room/log" "$here/assignment-progress.svg"
