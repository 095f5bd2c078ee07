#!/usr/bin/env bash
# Tries ./bprice, ./prove, the gate's check, release/make.sh and `make install` as a new user meets them: on small clones
# in a temporary folder whose name has a space, with no commands but bash and coreutils on the PATH, and git and a stand-in for
# rt where they are needed. The program that is tried is the one named, or release/bprice. Prints each fault and a count.
set -u

here=$(cd "$(dirname "$(readlink -f "${BASH_SOURCE[0]}")")/.." && pwd)
program=$(readlink -f "${1:-$here/release/bprice}")
if ! [ -x "$program" ]; then
    echo "release/test.sh: there is no program ${1:-release/bprice}"
    exit 1
fi
room=$(mktemp -d "${TMPDIR:-/tmp}/bprice test.XXXXXX") || exit 1
trap 'chmod -R u+w "$room"; rm -rf "$room"' EXIT
tried=0
failed=0

# Nothing but these can be found by what is tried: bash, and of coreutils what the scripts use.
mkdir "$room/bin" "$room/user" "$room/kit"
for it in bash cat chmod cmp cp cut dirname du env head install ls mkdir mktemp mv readlink rm sha256sum sort touch uname; do
    ln -s "$(command -v "$it")" "$room/bin/$it"
done
ln -s "$(command -v git)" "$room/kit/git"

# A stand-in for rt: it builds the program of the room, and ends as the file `ended` says; or it adds to the sources.
cat >"$room/kit/rt" <<'END'
#!/usr/bin/env bash
room=$(dirname "$(dirname "$(readlink -f "$0")")")
case $1 in
version) cat "$room/kit/version" ;;
run)
    echo "rt: proving"
    [ -f "$room/kit/meddles" ] && echo changed >>src/main.rt
    mkdir -p out && cp "$room/program" out/bprice
    exit "$(cat "$room/kit/ended")"
    ;;
ci)
    echo "rt: the gate"
    [ "$(cat "$room/kit/ended")" -eq 11 ] || exit 1
    mkdir -p crates/bprice/out && cp "$room/program" crates/bprice/out/bprice
    ;;
esac
END
chmod +x "$room/kit/rt"
cp "$program" "$room/program"
echo "kit of the test" >"$room/kit/version"
echo 11 >"$room/kit/ended"

# A clone with three small crates: the program's, one that it stands on, and one that only tests it.
fresh() { # NAME
    clone=$room/$1
    mkdir -p "$clone/crates"/{bprice,low}/{src,specs,proofs/main} "$clone/crates/apart/src" "$clone/crates/low/must-fail"
    mkdir -p "$clone/release" "$clone/examples" "$clone/docs" "$clone/completion"
    cp "$here"/{bprice,prove,Makefile} "$clone"
    cp "$here"/release/*.sh "$here/release/VERSION" "$clone/release"
    cp "$here/docs/bprice.1" "$clone/docs"
    cp "$here/completion/bprice" "$clone/completion"
    cp "$here/examples/first.lp" "$clone/examples"
    printf '%s\n' '# the crates' 'low:' 'apart: low' 'bprice: low std' >"$clone/crates.txt"
    echo 'Handles allowed: none.' >"$clone/HANDLES"
    echo 'fn main() {}' >"$clone/crates/bprice/src/main.rt"
    echo 'an invariant' >"$clone/crates/bprice/proofs/main/Invariants.antt"
    echo 'fn low() {}' >"$clone/crates/low/src/lib.rt"
    echo 'a definition' >"$clone/crates/low/specs/Low.antt"
    echo 'an edit' >"$clone/crates/low/must-fail/one.edit"
    echo 'fn apart() {}' >"$clone/crates/apart/src/lib.rt"
    cp "$program" "$clone/release/bprice"
    record
}

# Records the released program as one of the sources that now stand in the clone.
record() {
    (PATH=$room/kit:$PATH && . "$clone/release/common.sh" && write_record "$released" "$(sum_of_sources)" && kit_at_hand >"$top/release/KIT")
    sum_up
}

# Writes the checksums of the release.
sum_up() {
    (. "$clone/release/common.sh" && cd "$top/release" && sha256sum "${summed[@]}" >SHA256SUMS)
}

# Runs a command without rt, in the user's folder.
bare() {
    (cd "$room/user" && exec env -i PATH="$room/bin" HOME="$room/user" "$@") >"$room/put" 2>"$room/told"
    ended=$?
}

with_rt() {
    (cd "$room/user" && exec env -i PATH="$room/kit:$room/bin" HOME="$room/user" "$@") >"$room/put" 2>"$room/told"
    ended=$?
}

# expect WHAT STATUS OUTPUT LINES [WORDS]: so many lines on standard error, which have these words.
expect() {
    tried=$((tried + 1))
    local put told lines
    put=$(cat "$room/put")
    told=$(cat "$room/told")
    lines=$(grep -c '' "$room/told")
    if [ "$ended" -ne "$2" ] || [ "$put" != "$3" ] || [ "$lines" -ne "$4" ] || [[ $told != *"${5-}"* ]]; then
        echo "$1: ended with $ended, put '$put', said '$told'"
        failed=$((failed + 1))
    fi
}

# holds WHAT COMMAND..
holds() {
    tried=$((tried + 1))
    if ! "${@:2}"; then
        echo "$1"
        failed=$((failed + 1))
    fi
}

report=$'optimal 8\nx 2\ny 1'
other='is not of the sources here (their checksums differ)'

first() {
    bare "$clone/bprice" solve "$clone/examples/first.lp"
}

# Waits until what was changed so far may be remembered.
settle() {
    sleep 1.1
}

# A first run, from elsewhere.
fresh 'a clone'
first
expect 'the first run' 0 "$report" 0
settle
first
expect 'the second run' 0 "$report" 0
holds 'the second run remembers nothing' [ -s "$clone/release/out/sum" ]
first
expect 'the third run' 0 "$report" 0
cp "$clone/examples/first.lp" "$room/user/own.lp"
bare ../'a clone'/bprice solve own.lp --cert own.cert
expect 'relative names' 0 "$report" 0
bare ../'a clone'/bprice check own.lp own.cert
expect 'the certificate that was written' 0 'accepted optimal 8' 0
# A chain of more splits than a tree may have without --large.
printf '%s\n' Minimize ' obj: x' 'Subject To' ' c: x >= 0' Bounds ' x <= 1000000000' Generals ' x' End >"$room/user/deep.lp"
{
    printf '%s\n' 'bpcert 2' 'claim bound 0'
    for ((at = 0; at < 20000; at++)); do printf 'split 1 %d\nopen 1 change 0 priced 0\n' "$at"; done
    printf '%s\n' 'open 1 change 0 priced 0' end
} >"$room/user/deep.cert"
bare ../'a clone'/bprice solve deep.lp --from deep.cert --steps 1 --large
expect 'a deep certificate with --large' 5 $'budget 1\nbound 0\nvalue 0\nx 0' 0
bare ../'a clone'/bprice check deep.lp deep.cert
expect 'a deep certificate without it' 3 'refused cert 16516 depth' 1 'depth'
ln -s "$clone/bprice" "$room/user/link"
ln -s link "$room/user/other-link"
bare ./other-link solve own.lp
expect 'a link to a link' 0 "$report" 0
bare "$clone/bprice" solve missing.lp
expect 'a file that is not there' 11 '' 1 'bprice: missing.lp: there is no such file'
bare "$clone/bprice" solve "own lp.lp" --steps
expect 'words that are no command line' 2 'refused words' 2 'bprice: --steps wants a value behind it'

# Files that would be written over what is read.
cp "$room/user/own.lp" "$room/user/kept.lp"
ln -s own.lp "$room/user/linked.lp"
ln -s new.lp "$room/user/to-new.lp"
for it in 'solve own.lp --cert own.lp' 'solve --cert=./own.lp own.lp' 'solve linked.lp --cert own.lp' 'solve own.lp --dec linked.lp --cert own.lp' \
    'detect own.lp linked.lp own.lp' 'propose own.lp linked.lp' 'gen 1 2 linked.lp own.lp' 'gen 1 2 new.lp new.lp' \
    'gen 1 2 new.lp ./new.lp' 'gen 1 2 new.lp to-new.lp' 'merge own.lp own.cert own.cert own.lp' \
    'migrate own.lp own.cert own.lp' 'migrate own.lp own.cert linked.lp --dec own.lp'; do
    bare "$clone/bprice" $it
    expect "a file that is read and written: $it" 125 '' 1 'would be written'
done
holds 'a file that is read and written stands' cmp -s "$room/user/own.lp" "$room/user/kept.lp"
bare "$clone/bprice" solve own.lp --cert no/own.cert
expect 'a certificate without its folder' 125 '' 1 'no/own.cert could not be written: its folder is not there: nothing was started'
bare "$clone/bprice" solve own.lp --from own.cert --cert own.cert
expect 'one certificate to go on from and to write' 0 "$report" 0
bare "$clone/bprice" migrate own.lp own.cert own.cert
expect 'one certificate to read and to write' 0 'migrated 1' 0
bare "$clone/bprice" gen 1 2 new.lp new.dec
expect 'two files to write' 0 'made variables 8 rows 6' 0
bare "$clone/bprice" solve -- own.lp --cert own.lp
expect 'words behind two dashes' 2 'refused words' 2 'is one word too many for solve'

# Words that ask for help with two dashes: the program refuses them as others, and tells its usage on standard error.
for it in '' -h --help; do
    bare "$clone/bprice" $it
    expect "help: '$it'" 2 'refused words' 24 'usage: bprice COMMAND'
done
bare "$clone/bprice" --help
mv "$room/told" "$room/usage"
bare "$clone/bprice" help
expect 'the page of help' 0 "$(cat "$room/usage")" 0
bare "$clone/bprice" help demo
expect 'help of a command' 0 $'usage: bprice demo SEED SIZE\n  makes one in memory, solves it, checks that' 0
bare "$clone/bprice" help nothing
expect 'help of no command' 2 'refused words' 2 "'nothing' is no command"
bare "$clone/bprice" help demo 1
expect 'help with a word too many' 2 'refused words' 2 'usage: bprice demo SEED SIZE'
bare "$clone/bprice" --version
expect 'the version' 2 'refused words' 6 "version $(cat "$here/release/VERSION")"
expect 'the version, the kit' 2 'refused words' 6 'kit of the test'
expect 'the version, the checksum' 2 'refused words' 6 "here $(. "$clone/release/common.sh" && sum_of_sources)"
cp "$room/told" "$room/version"
bare "$clone/bprice" version
expect 'the page of the version' 0 "$(sed '$d' "$room/version")"$'\n'"$("$program" version)" 0
holds 'the program has another version than release/VERSION' [ "$("$program" version | cut -d , -f 1)" = "bprice $(cat "$here/release/VERSION")" ]
bare "$clone/bprice" version more
expect 'version with a word too many' 2 'refused words' 2 "'version' is no command"

# Two runs at once.
fresh 'two at once'
(cd "$room/user" && env -i PATH="$room/bin" "$clone/bprice" solve own.lp >"$room/put2" 2>&1) &
first
expect 'one of two' 0 "$report" 0
wait $!
holds 'the other of two failed' [ "$(cat "$room/put2")" = "$report" ]
first
expect 'after the two' 0 "$report" 0

# Sources that change.
fresh changed
first
printf 'x' >>"$clone/crates/low/specs/Low.antt"
first
expect 'sources changed by one byte' 0 "$report" 1 "$other"
first
expect 'sources that stay changed' 0 "$report" 1 "$other"
echo 'a definition' >"$clone/crates/low/specs/Low.antt"
first
expect 'sources as they were' 0 "$report" 0
touch "$clone/crates/low/src/lib.rt"
first
expect 'a newer time alone' 0 "$report" 0
echo >"$clone/crates/low/specs/New.antt"
first
expect 'a file more' 0 "$report" 1 "$other"
rm "$clone/crates/low/specs/New.antt"
first
expect 'that file gone' 0 "$report" 0
mv "$clone/crates/low/specs/Low.antt" "$clone/crates/low/specs/Lo.antt"
first
expect 'a file of another name' 0 "$report" 1 "$other"
mv "$clone/crates/low/specs/Lo.antt" "$clone/crates/low/specs/Low.antt"
echo 'x' >>"$clone/crates/low/must-fail/one.edit"
echo 'x' >>"$clone/crates/apart/src/lib.rt"
echo 'more: apart' >>"$clone/crates.txt"
first
expect 'what the proof does not read' 0 "$report" 0
sed -i 's/^low:$/low: itoa/' "$clone/crates.txt"
first
expect 'a crate that stands on another' 0 "$report" 1 "$other"

# Sources that change, and keep size and time.
fresh kept
file=$clone/crates/low/specs/Low.antt
cp -p "$file" "$room/old"
sed 's/^a/x/' "$file" >"$room/new"
touch -r "$file" "$room/new"
settle
first
holds 'files that keep size and time, before' [ -s "$clone/release/out/sum" ]
cp -p "$room/new" "$file"
first
expect 'another file that keeps size and time' 0 "$report" 1 "$other"
cp -p "$room/old" "$file"
settle
first
expect 'that file as it was' 0 "$report" 0
mv "$room/new" "$file"
first
expect 'another file moved there' 0 "$report" 1 "$other"
for it in {1..20}; do
    rm -f "$clone/release/out/sum"
    printf -v second '%(%s)T' -1
    touch "$file"
    first
    printf -v later '%(%s)T' -1
    [ "$second" = "$later" ] && break
done
holds 'a file that was changed within the second is remembered' [ ! -e "$clone/release/out/sum" ]
holds 'a change within the second is taken for older' bash -c '. "$1/release/common.sh"; ! stand_since "$2" "$3"' - "$clone" "$second" "$file"
holds 'a change before the second is not' bash -c '. "$1/release/common.sh"; stand_since "$2" "$3"' - "$clone" $((second + 9)) "$file"

# Files of which the system tells nothing are read.
ln -s missing "$clone/crates/low/src/broken.rt"
settle
rm -f "$clone/release/out/sum"
first
expect 'a link to nowhere' 0 "$report" 1 "$other"
holds 'files of which nothing is told are remembered' [ ! -e "$clone/release/out/sum" ]
rm "$clone/crates/low/src/broken.rt"

# The version is told from the sources, not from what is remembered of them.
(cd "$clone" && . release/common.sh && list_looked_at && remember sum "$(state_of "${looked_at[@]}")"$'\n'"$(told release/SOURCES sources)")
first
expect 'a memory that is false' 0 "$report" 0
bare "$clone/bprice" --version
expect 'the version in spite of it' 2 'refused words' 7 "$other"

# A release that cannot be run.
fresh faulty
first
mv "$clone/release/bprice" "$room/whole"
first
expect 'no release and no rt' 126 '' 1 "rt is needed"
head -c 1000 "$room/whole" >"$clone/release/bprice"
chmod +x "$clone/release/bprice"
first
expect 'a truncated release' 126 '' 1 'is not the program that release/SOURCES names'
: >"$clone/release/bprice"
first
expect 'an empty release' 126 '' 1 'is not the program that release/SOURCES names'
printf '#!/bin/sh\necho optimal 9\n' >"$clone/release/bprice"
first
expect 'a foreign program' 126 '' 1 'is not the program that release/SOURCES names'
cp "$room/whole" "$clone/release/bprice"
printf '\xb7' | dd of="$clone/release/bprice" bs=1 seek=18 conv=notrunc 2>/dev/null
record
first
expect 'a release of another processor' 126 '' 1 'does not run on this machine'
sed 's|/lib64/ld-linux-x86-64|/lib64/no-linux-x86-64|' "$room/whole" >"$clone/release/bprice"
record
first
expect 'a machine without its C library' 126 '' 1 'does not run on this machine'
cp "$room/whole" "$clone/release/bprice"
record
chmod -x "$clone/release/bprice"
first
expect 'a release without its run bit' 126 '' 1 'may not be run'
chmod +x "$clone/release/bprice"
first
expect 'that bit given back' 0 "$report" 0
rm "$clone/release/SOURCES"
first
expect 'a release without SOURCES' 126 '' 1 'is not the program that release/SOURCES names'

# What is proved here.
fresh proved
rm "$clone"/release/{bprice,SOURCES}
with_rt "$clone/bprice" solve own.lp
expect 'no release, with rt' 0 "$report" 2 'the program is proved and built'
with_rt "$clone/bprice" solve own.lp
expect 'what was built runs at once' 0 "$report" 0
first
expect 'it runs without rt too' 0 "$report" 0
printf 'x' >>"$clone/crates/low/src/lib.rt"
first
expect 'built from older sources, no release, no rt' 126 '' 1 "rt is needed"
with_rt "$clone/prove"
expect 'prove' 0 '' 1 'rt: proving'
first
expect 'what prove built' 0 "$report" 0
echo 1 >"$room/kit/ended"
with_rt "$clone/prove"
expect 'a proof that fails' 126 '' 2 'the program was not built'
echo 11 >"$room/kit/ended"
touch "$room/kit/meddles"
with_rt "$clone/prove"
expect 'sources that change during the proof' 126 '' 2 'the sources changed while they were proved'
rm "$room/kit/meddles"

# Built here and released: what is of the sources at hand comes first.
fresh both
printf 'x' >>"$clone/crates/low/src/lib.rt"
with_rt "$clone/prove"
echo 'kit of the test' >"$clone/crates/bprice/out/kept"
first
expect 'built here, the release is of others' 0 "$report" 0
echo 'more' >>"$clone/crates/bprice/out/bprice"
first
expect 'what was built is damaged' 0 "$report" 1 "$other"
with_rt "$clone/prove"
printf 'x' >>"$clone/crates/low/src/lib.rt"
first
expect 'neither is of the sources' 0 "$report" 1 "$other"

# The gate's check.
gate() {
    with_rt "$clone/release/gate.sh" "$(at_hand)"
}

# Prints the checksum over the sources of the clone.
at_hand() {
    (. "$clone/release/common.sh" && sum_of_sources)
}

# Has the stand-in for rt build the program from the sources of the clone, as the gate does.
build() {
    (cd "$clone" && PATH=$room/kit:$PATH rt ci >/dev/null)
}

# Commits all that stands in the clone.
commit() {
    [ -d "$clone/.git" ] || git -C "$clone" init -q
    printf '%s\n' out/ >"$clone/.gitignore"
    git -C "$clone" add -A &&
        git -C "$clone" -c user.name=test -c user.email=test@example.com -c commit.gpgsign=false commit -q --allow-empty -m state &&
        head=$(git -C "$clone" rev-parse HEAD)
}

# Puts a script in place of the released program, and its checksum and these lines into its record.
forge() { # KIT SOURCES
    printf '#!/bin/sh\necho optimal 9\n' >"$clone/release/bprice"
    printf '%s\n' "kit $1" "sources $2" "program $(sha256sum <"$clone/release/bprice" | cut -d ' ' -f 1)" >"$clone/release/SOURCES"
}

whole='release: it is the program that the gate built from these sources'
foreign='release: release/bprice is not the program that the gate built from the sources of release/SOURCES'
fresh gate
build
gate
expect 'the gate' 0 "$whole" 0
first
expect 'what the gate built' 0 "$report" 0
echo 'a line more' >>"$clone/release/SHA256SUMS"
gate
expect 'the gate, checksums of something else' 1 \
    "$whole"$'\n''release: release/SHA256SUMS has not the checksums of bprice SOURCES VERSION KIT; release/make.sh renews it' 0
sum_up
with_rt "$clone/release/gate.sh" other
expect 'the gate, sources that changed meanwhile' 1 'release: the sources changed while the gate ran' 0
printf 'x' >>"$clone/release/bprice"
gate
expect 'the gate, a release that SOURCES does not name' 1 'release: release/bprice is not the program that release/SOURCES names' 0
record
gate
expect 'the gate, a foreign release' 1 "$foreign" 0
forge 'kit of the test' "$(at_hand)"
gate
expect 'the gate, a script' 1 "$foreign" 0
cp "$program" "$clone/release/bprice"
record
echo 'proved twice' >>"$clone/release/SOURCES"
gate
expect 'the gate, a line more' 1 'release: release/SOURCES has not the three lines of a record' 0
record
chmod -x "$clone/release/bprice"
gate
expect 'the gate, no run bit' 1 'release: release/bprice may not be run' 0
chmod +x "$clone/release/bprice"
sed -i 's/^kit .*/kit rattle-kit-13e/' "$clone/release/SOURCES"
gate
expect 'the gate, another kit' 1 \
    'release: release/SOURCES names another kit than the one at hand, kit of the test; release/make.sh renews it' 0

# The gate's check of a release of older sources: it is found in the history, or the gate fails.
none='release: release/SOURCES is not of these sources, and no commit in the history has this release'
fresh older
build
gone='release: release/SOURCES is not of these sources, and there is no history to look for others in:'
forge 'kit of the test' 00
gate
expect 'the gate, no repository' 1 "$gone git knows no repository here" 0
cp "$program" "$clone/release/bprice"
record
commit
began=$head
old=$(at_hand)
forge rattle-kit-13e 00
gate
expect 'the gate, a script of no sources' 1 "$none" 0
commit
gate
expect 'the gate, a script of no sources that was committed' 1 \
    "release: neither commit $head, which has this release, nor one before it in the history has the sources of release/SOURCES" 0
git -C "$clone" checkout -q "$began" -- release
gate
expect 'the gate, the release given back' 0 "$whole" 0
commit
given_back=$head
found="release: commit $given_back has it and its sources, which are not these; release/make.sh renews it"
printf 'x' >>"$clone/crates/low/src/lib.rt"
gate
expect 'the gate, older sources' 0 "$found" 0
commit
gate
expect 'the gate, older sources, all committed' 0 "$found" 0
with_rt env GIT_DIR="$room/none" GIT_INDEX_FILE="$room/none" "$clone/release/gate.sh" "$(at_hand)"
expect 'the gate, settings of git' 0 "$found" 0
forge 'kit of the test' "$old"
commit
gate
expect 'the gate, a script of older sources' 1 \
    "release: release/SOURCES names another program of the same sources and kit than it does in commit $given_back" 0
forge 'another kit' "$old"
gate
expect 'the gate, a script of older sources and another kit' 1 "$none" 0
mv "$clone/.git" "$room/history"
git -C "$room" init -q
gate
expect 'the gate, within another repository' 1 "$gone git knows no repository here" 0
rm -rf "$room/.git"
mv "$room/history" "$clone/.git"
mv "$room/kit/git" "$room/git"
gate
expect 'the gate, no git' 1 "$gone there is no git" 0
mv "$room/git" "$room/kit/git"

# A release that was made of sources before those that it came with, and clones that lack the history.
fresh behind
commit
older=$head
of_older=$(at_hand)
printf 'x' >>"$clone/crates/low/src/lib.rt"
commit
sed -i "s/^kit .*/kit before/; s/^sources .*/sources $of_older/" "$clone/release/SOURCES"
sum_up
commit
brought=$head
printf 'x' >>"$clone/crates/low/src/lib.rt"
echo 'an edit more' >"$clone/crates/low/must-fail/two.edit"
commit
build
gate
expect 'the gate, sources before the release' 0 \
    "release: commit $brought has it, and commit $older has its sources, which are not these; release/make.sh renews it" 0
git clone -q --depth 1 "file://$clone" "$room/shallow"
clone=$room/shallow
build
gate
expect 'the gate, a shallow clone' 1 \
    "release: neither commit $head, which has this release, nor one before it in the history has the sources of release/SOURCES, of which this clone is shallow (git fetch --unshallow)" 0

# The release made anew.
fresh anew
build
printf 'x' >>"$clone/crates/low/src/lib.rt"
with_rt "$clone/release/make.sh"
holds 'make.sh failed' [ "$ended" -eq 0 ]
gate
expect 'the gate, after make.sh' 0 "$whole" 0
printf 'x' >>"$clone/crates/low/src/lib.rt"
with_rt "$clone/release/make.sh" "$clone/crates/bprice/out/bprice"
holds 'make.sh of a named program failed' [ "$ended" -eq 0 ]
gate
expect 'the gate, after make.sh of a named program' 0 "$whole" 0
cp "$clone/release/SOURCES" "$room/SOURCES"
printf 'x' >>"$clone/crates/low/src/lib.rt"
echo 1 >"$room/kit/ended"
with_rt "$clone/release/make.sh"
holds 'make.sh, a gate that fails' [ "$ended" -ne 0 ]
holds 'make.sh, a gate that fails, changed SOURCES' [ "$(cat "$room/SOURCES")" = "$(cat "$clone/release/SOURCES")" ]
echo 11 >"$room/kit/ended"
rm "$clone/release/SOURCES"
gate
expect 'the gate, half a release' 1 'release: release/bprice is not the program that release/SOURCES names' 0
rm "$clone/release/bprice"
gate
expect 'the gate, no release' 0 'release: there is none; release/make.sh makes one' 0
rm "$clone/crates/bprice/out/bprice"
gate
expect 'the gate, no program' 1 'release: the gate built no program' 0

# The release made again from its sources, and compared with itself.
again() { # WORDS
    with_rt "$clone/release/reproduce.sh" "$@"
}

# expect_last WHAT STATUS LINE: the last line of the output begins so.
expect_last() {
    local last
    last=$(tail -n 1 "$room/put")
    holds "$1: ended with $ended, put '$last'" [ "$ended" -eq "$2" ]
    holds "$1: put '$last'" [ "${last#"$3"}" != "$last" ]
}

fresh again
again --look
expect_last 'reproduce --look' 0 'kit: kit of the test, files '
again
expect_last 'reproduce' 0 'reproduced: rt ci built the same bytes from these sources'
again --all
expect 'reproduce, a word' 1 'reproduce: usage: release/reproduce.sh [--look]' 0
bare "$clone/release/reproduce.sh"
expect_last 'reproduce, no rt' 1 'reproduce: the kit kit of the test is needed, with its command rt on the PATH'
commit
head=$(git -C "$clone" rev-parse HEAD)
printf 'x' >>"$clone/crates/low/src/lib.rt"
again
expect_last 'reproduce, older sources' 0 'reproduced: '
holds 'reproduce names the commit of older sources' grep -q "^sources: those of commit $head, " "$room/put"
mv "$clone/.git" "$room/history"
again
expect_last 'reproduce, no history' 1 'reproduce: release/SOURCES is not of the sources that stand here, and there is no history to look for others in'
rm -rf "$room/history"
fresh 'again and again'
echo 1 >"$room/kit/ended"
again
expect_last 'reproduce, a proof that fails' 1 'reproduce: rt ci failed'
echo 11 >"$room/kit/ended"
cp "$room/program" "$room/whole"
echo >>"$room/program"
again
expect_last 'reproduce, other bytes' 1 "reproduce: rt ci built another program, $(sha256sum <"$room/program" | cut -d ' ' -f 1)"
mv "$room/whole" "$room/program"
echo 'another kit' >"$room/kit/version"
again
expect_last 'reproduce, another kit' 1 'reproduce: the kit at hand is another kit, and the release was made by kit of the test'
echo 'kit of the test' >"$room/kit/version"
echo 'a file' >"$room/bin/more"
again
expect_last 'reproduce, a kit of that name' 1 'reproduce: the kit at hand has that name, but not the files that release/KIT has the checksum of'
rm "$room/bin/more"
echo >>"$clone/release/KIT"
again
expect 'reproduce, checksums of something else' 1 'reproduce: release/SHA256SUMS has not the checksums of bprice SOURCES VERSION KIT' 0
sum_up
echo >>"$clone/release/bprice"
again
expect 'reproduce, a release that SOURCES does not name' 1 'reproduce: release/bprice is not the program that release/SOURCES names' 0

# The release signed, by a key of the test.
fresh signed
with_rt "$clone/release/sign.sh"
expect 'no gpg' 1 '' 1 "GnuPG's command gpg is needed"
if command -v gpg >/dev/null; then
    ln -s "$(command -v gpg)" "$room/kit/gpg"
    with_rt "$clone/release/sign.sh"
    expect 'no key' 1 '' 1 'GnuPG has no secret key: the owner of the repository signs a release with their own; nothing was signed'
    with_rt gpg --batch --quiet --pinentry-mode loopback --passphrase '' --quick-generate-key 'Test <test@example.com>' ed25519 sign never
    holds 'no key was made' [ "$ended" -eq 0 ]
    with_rt "$clone/release/sign.sh" nobody@example.com
    expect 'no key of that name' 1 '' 1 'GnuPG has no secret key of that name'
    with_rt "$clone/release/sign.sh" test@example.com
    expect 'a signature' 0 'signed: release/SHA256SUMS.asc' 0
    again --look
    holds 'the signature is not told' grep -q '^signature: good, by the key [0-9A-F]\{40\}$' "$room/put"
    mv "$room/user/.gnupg" "$room/user/.gnupg-away"
    again --look
    holds 'the key that lacks is not told' grep -q '^signature: by the key [0-9A-F]*, which gpg does not have here$' "$room/put"
    rm -rf "$room/user/.gnupg"
    mv "$room/user/.gnupg-away" "$room/user/.gnupg"
    rm "$room/kit/gpg"
    again --look
    holds 'that gpg lacks is not told' grep -q '^signature: there is one, but no gpg to judge it$' "$room/put"
    ln -s "$(command -v gpg)" "$room/kit/gpg"
    echo 0.0.0 >"$clone/release/VERSION"
    with_rt "$clone/release/sign.sh"
    expect 'checksums of something else are not signed' 1 '' 1 'so it is not signed'
    sum_up
    again --look
    expect_last 'a signature of other checksums' 1 'reproduce: release/SHA256SUMS.asc is no good signature of release/SHA256SUMS'
    with_rt "$clone/release/make.sh" "$clone/release/bprice"
    holds 'a signature of the release before stands' [ ! -e "$clone/release/SHA256SUMS.asc" ]
    env -i PATH="$PATH" HOME="$room/user" gpgconf --kill all
    rm "$room/kit/gpg"
fi

# The same files in another place and order have the same checksum.
fresh here
one=$(. "$clone/release/common.sh" && sum_of_sources)
fresh there
two=$(. "$clone/release/common.sh" && sum_of_sources)
holds 'two clones, two checksums' [ "$one" = "$two" ]

# Installed and taken away.
if command -v make >/dev/null; then
    ln -s "$(command -v make)" "$room/bin/make"
    ln -s "$(command -v sh)" "$room/bin/sh"
    bare make -s -C "$clone" install PREFIX="$room/user/a prefix"
    expect 'make install' 0 '' 0
    bare "$room/user/a prefix/bin/bprice" solve own.lp
    expect 'the installed program' 0 "$report" 0
    holds 'no man page' [ -s "$room/user/a prefix/share/man/man1/bprice.1" ]
    holds 'no completion' [ -s "$room/user/a prefix/share/bash-completion/completions/bprice" ]
    bare make -s -C "$clone" uninstall PREFIX="$room/user/a prefix"
    expect 'make uninstall' 0 '' 0
    holds 'files stay after make uninstall' [ -z "$(find "$room/user/a prefix" -type f)" ]
    bare make -s -C "$clone" install DESTDIR="$room/user/stage" PREFIX=/usr
    holds 'no program below DESTDIR' [ -x "$room/user/stage/usr/bin/bprice" ]
    chmod -x "$clone/release/bprice"
    bare make -s -C "$clone" install PREFIX="$room/user/none"
    holds 'make install, nothing to install' [ "$ended" -ne 0 ]
    holds 'make install, nothing to install, left something' [ ! -e "$room/user/none" ]
fi

# complete WORDS..: prints what the last word of a command line can become.
complete_words() {
    bash --norc -c '. "$0/completion/bprice"; COMP_WORDS=(bprice "$@"); COMP_CWORD=$#; _bprice; printf "%s " "${COMPREPLY[@]}"' "$here" "$@"
}
holds 'commands are not completed' [ "$(complete_words s)" = 'solve show ' ]
holds 'help and version are not completed' [ "$(complete_words h)$(complete_words v)" = 'help version ' ]
holds 'the commands behind help are not completed' [ "$(complete_words help m)" = 'merge migrate ' ]
holds 'words behind the command of help are completed' [ "$(complete_words help solve '')" = ' ' ]
holds 'words of solve are not completed' [ "$(complete_words solve a.lp --s)" = '--steps --stop ' ]
holds 'a word that was given is offered again' [ "$(complete_words solve a.lp --dec b.dec --d)" = ' ' ]
holds 'a number is completed' [ "$(complete_words solve a.lp --steps '')" = ' ' ]
holds 'files are not completed' [ "$(cd "$clone/examples" && complete_words solve fi)" = 'first.lp ' ]

echo "release/test.sh: $((tried - failed)) of $tried came as expected"
[ "$failed" -eq 0 ]
