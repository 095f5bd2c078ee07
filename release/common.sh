# What ./bprice, ./prove, the gate and the scripts of this folder know of the program, its sources and its records.
# Bash reads it; it needs bash 4.2 and coreutils alone.
#
# A record says which program was built from which sources. Its lines: the kit that proved it, as `rt version` prints it;
# a checksum over the sources; the program's own checksum. It lies beside the program, as SOURCES.

shopt -s globstar nullglob
top=$(cd "$(dirname "$(readlink -f "${BASH_SOURCE[0]}")")/.." && pwd)
built=$top/crates/bprice/out/bprice
released=$top/release/bprice
# What is remembered from run to run: git leaves it out.
memory=$top/release/out
# The files of the release that release/SHA256SUMS names.
summed=(bprice SOURCES VERSION KIT)

complain() {
    echo "bprice: $*" >&2
}

# Sets `crates` to the program's crate and those that it stands on, and `lines` to what crates.txt says of them.
read_crates() {
    local line name at it
    local -A said=() seen=([bprice]=1)
    while read -r line || [ -n "$line" ]; do
        line=${line%%#*}
        name=${line%%[: ]*}
        [[ $line == *:* ]] && said[$name]=$line
    done <"$top/crates.txt"
    crates=(bprice) lines=()
    for ((at = 0; at < ${#crates[@]}; at++)); do
        line=${said[${crates[at]}]-}
        lines+=("$line")
        for it in ${line#*:}; do
            if [ -n "${said[$it]-}" ] && [ -z "${seen[$it]-}" ]; then
                seen[$it]=1
                crates+=("$it")
            fi
        done
    done
}

# Sets `sources` to the files that a proof of the program reads, and their folders, by paths from the top: src/, specs/
# and proofs/ of its crates. The edits that must fail, the crates that only test it, and the words and texts that the gate
# runs programs on are left out: none of them changes what is proved or built.
list_sources() {
    local LC_ALL=C it
    read_crates
    sources=()
    for it in "${crates[@]}"; do
        sources+=("crates/$it"/src/** "crates/$it"/specs/** "crates/$it"/proofs/**)
    done
}

# Prints a checksum over the sources, the lines of crates.txt that name them, and HANDLES.
sum_of_sources() (
    set -o pipefail
    cd "$top" || exit
    list_sources
    files=(HANDLES)
    for it in "${sources[@]}"; do
        [ -f "$it" ] && files+=("$it")
    done
    {
        printf '%s\n' "${lines[@]}" | LC_ALL=C sort &&
            sha256sum -- "${files[@]}" | LC_ALL=C sort -k 2
    } | sha256sum | cut -d ' ' -f 1
)

# Remembers words under a name; nothing comes of it where that cannot be written.
remember() { # NAME WORDS
    local part
    mkdir -p "$memory" && part=$(mktemp "$memory/$1.XXXXXX") && echo "$2" >"$part" && mv -f "$part" "$memory/$1"
} 2>/dev/null

# Sets `looked_at` to the folders and files whose files' state is remembered together with the checksum over the sources.
list_looked_at() {
    local it folder
    read_crates
    looked_at=(crates.txt HANDLES release/common.sh)
    for it in "${crates[@]}"; do
        for folder in "crates/$it"/{src,specs,proofs}/; do
            [ -d "$folder" ] && looked_at+=("$folder")
        done
    done
}

# Prints a checksum over what the system knows of these files without reading them: name, inode, mode, size, time of change.
# The system itself sets the time of change, to now: a copy that keeps size and time of the old file has a new one.
state_of() ( # FILES AND FOLDERS
    set -o pipefail
    LC_ALL=C ls -LRUinc --time-style=+%s.%N -- "$@" 2>/dev/null | sha256sum
)

# Returns whether none of these files was changed in that second or later, so that each change from then on gives a new time.
stand_since() { # SECOND FILES AND FOLDERS
    local newest
    newest=$(du -Lcs --time=ctime --time-style=+%s -- "${@:2}" 2>/dev/null)
    read -r _ newest _ <<<"${newest##*$'\n'}"
    [ "${newest:-$1}" -lt "$1" ]
}

# Prints the checksum over the sources at hand: the one that is remembered, where the state of their files is that of then.
sum_at_hand() (
    cd "$top" || exit
    list_looked_at
    printf -v now '%(%s)T' -1
    state=$(state_of "${looked_at[@]}") || { sum_of_sources; return; }
    { read -r then && read -r sum; } 2>/dev/null <"$memory/sum" && [ "$then" = "$state" ] && echo "$sum" && return
    sum=$(sum_of_sources) && stand_since "$now" "${looked_at[@]}" && remember sum "$state"$'\n'"$sum"
    echo "$sum"
)

# Prints what a record says under a word.
told() { # RECORD WORD
    local word rest
    while read -r word rest; do
        [ "$word" = "$2" ] && echo "$rest" && return
    done <"$1"
    return 1
}

sum_of_program() {
    local sum
    sum=$(sha256sum <"$1") && echo "${sum%% *}"
}

# Copies the program's crates from a folder that has all to a repository of their own, without the edits that must fail.
copy_crates() { # FROM ROOM
    local it part
    top=$1 read_crates
    mkdir "$2/.git" "$2/crates" || return
    cp "$1/HANDLES" "$2" || return
    printf '%s\n' "${lines[@]}" >"$2/crates.txt" || return
    for it in "${crates[@]}"; do
        mkdir "$2/crates/$it" || return
        for part in "$1/crates/$it"/*; do
            case ${part##*/} in
            out | must-fail) ;;
            *) cp -R "$part" "$2/crates/$it" || return ;;
            esac
        done
    done
}

# Prints what is known of the kit that rt belongs to: its name; the checksum of the archive that it came in, if it tells that;
# a checksum over its programs and libraries, without those that it has compiled (rlibs).
kit_at_hand() (
    set -o pipefail
    LC_ALL=C
    files=()
    kit=$(dirname "$(dirname "$(readlink -f "$(command -v rt)")")") && name=$(rt version) && cd "$kit" || exit
    for it in {bin,c,logic_built,rattle,toolchain}/**; do
        [ -f "$it" ] && [[ $it != *__pycache__* ]] && files+=("$it")
    done
    echo "kit $name"
    [ -f WHAT ] && archive=$(told WHAT archive) && echo "archive $archive"
    sum=$(for ((at = 0; at < ${#files[@]}; at += 1000)); do sha256sum -- "${files[@]:at:1000}" || exit; done | sha256sum) && echo "files ${sum%% *}"
)

# Returns whether the program is the one that its record names.
is_whole() { # PROGRAM
    local record=${1%/*}/SOURCES
    [ -f "$1" ] && [ -f "$record" ] && [ "$(told "$record" program)" = "$(sum_of_program "$1")" ]
}

# Returns whether release/SHA256SUMS names the files of the release, in order, with their checksums.
is_summed() (
    cd "$top/release" && sha256sum "${summed[@]}" 2>/dev/null | cmp -s - SHA256SUMS
)

# Returns whether a record has its three lines, and no other.
is_plain() { # RECORD
    local word lines=()
    for word in kit sources program; do
        lines+=("$word $(told "$1" "$word")")
    done
    printf '%s\n' "${lines[@]}" | cmp -s - "$1"
}

# Returns whether the record says that the program was built from the sources of that checksum.
is_of() { # PROGRAM SUM
    local record=${1%/*}/SOURCES
    [ -f "$record" ] && [ "$(told "$record" sources)" = "$2" ]
}

# Writes the record of a program that was proved and built from the sources of that checksum.
write_record() { # PROGRAM SUM
    local kit sum
    kit=$(rt version) && sum=$(sum_of_program "$1") &&
        printf '%s\n' "kit $kit" "sources $2" "program $sum" >"${1%/*}/SOURCES"
}

# Returns whether the program, which is the one that its record names, runs on this machine: asked for a file that is not
# there, it ends with 11.
runs_here() { # PROGRAM
    local sum then
    sum=$(told "${1%/*}/SOURCES" program)
    { read -r then; } 2>/dev/null <"$memory/runs" && [ "$then" = "$sum" ] && return
    "$1" solve '' </dev/null >/dev/null 2>&1
    case $? in
    11) remember runs "$sum" ;;
    9) ;;
    *) return 1 ;;
    esac
}

# Sets `program` to the one to run: the one that was proved and built here, if it is of the sources of that checksum; else
# the released one. Returns 1 where neither is there, and 126 where the released one cannot be run.
choose_program() { # SUM
    local sum=$1
    program=$built
    [ -x "$built" ] && is_of "$built" "$sum" && is_whole "$built" && return
    program=$released
    [ -e "$released" ] || return 1
    if ! is_whole "$released"; then
        complain "release/bprice is not the program that release/SOURCES names: git checkout release restores both, ./prove builds it here"
        return 126
    elif ! [ -x "$released" ]; then
        complain "release/bprice may not be run: chmod +x release/bprice"
        return 126
    elif ! runs_here "$released"; then
        complain "release/bprice does not run on this machine: it wants x86-64 Linux with glibc 2.34 or newer; ./prove builds it here"
        return 126
    fi
    is_of "$released" "$sum" ||
        complain "the released program is not of the sources here (their checksums differ): ./prove proves and builds these"
    return 0
}

# Proves the program and builds it, with its record, by running it once on a file that is not there.
prove_program() {
    local sum ended
    if ! command -v rt >/dev/null; then
        complain "there is no program of these sources, and to prove and build it Rattle's command rt is needed on the PATH"
        return 126
    fi
    sum=$(sum_of_sources)
    (cd "$top/crates/bprice" && exec rt run -- solve '') >&2
    ended=$?
    if [ "$ended" -ne 11 ]; then
        complain "the program was not built"
        return 126
    elif [ "$(sum_of_sources)" != "$sum" ]; then
        complain "the sources changed while they were proved: prove them again"
        return 126
    fi
    write_record "$built" "$sum"
}
