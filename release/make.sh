#!/usr/bin/env bash
# Renews release/bprice and release/SOURCES, KIT and SHA256SUMS beside them, from a whole proof of the sources that stand here. `rt ci` proves and builds
# them on a copy of the program's crates, without the edits that must fail; with a kit that keeps what it has passed on this
# machine before, that is not proved again. Where a program is named, as in `release/make.sh crates/bprice/out/bprice`, that one is taken, which
# `rt ci` must have built from these sources; the gate compares it with its own.
set -eu

. "$(dirname "$(readlink -f "${BASH_SOURCE[0]}")")/common.sh"

room=$(mktemp -d)
trap 'rm -rf "$room"' EXIT
if [ $# -gt 0 ]; then
    program=$1
    sum=$(sum_of_sources)
else
    copy_crates "$top" "$room"
    sum=$(top=$room && sum_of_sources)
    (cd "$room" && rt ci)
    program=$room/crates/bprice/out/bprice
fi

mkdir "$room/release"
cp "$program" "$room/release/bprice"
chmod 755 "$room/release/bprice"
"$room/release/bprice" solve "$top/examples/first.lp" >"$room/report"
[ "$(head -n 1 "$room/report")" = "optimal 8" ]
write_record "$room/release/bprice" "$sum"
cp "$room/release/bprice" "$released.new"
mv -f "$released.new" "$released"
cp "$room/release/SOURCES" "$top/release/SOURCES"
kit_at_hand >"$room/KIT"
cp "$room/KIT" "$top/release/KIT"
rm -f "$top/release/SHA256SUMS.asc" # the signature was one of the release before
(cd "$top/release" && sha256sum "${summed[@]}" >SHA256SUMS)
cat "$top/release/SOURCES"
