#!/usr/bin/env bash
# Makes release/bprice again from its sources and compares the two, byte for byte. Each line that it prints is a step that was
# seen to hold; the last one says what is wrong, or that the bytes are the same.
#
#     release/reproduce.sh          all of it; the proof takes more than an hour on four processors the first time
#     release/reproduce.sh --look   all but the proof and the comparison
#
# It needs bash, coreutils and the kit that release/KIT names with its command rt on the PATH; git, where the release is of
# older sources than those that stand here; gpg, to judge a signature.
set -u

. "$(dirname "$(readlink -f "${BASH_SOURCE[0]}")")/common.sh"
. "$top/release/history.sh"

fail() {
    echo "reproduce: $*"
    exit 1
}

# Sees that the files of the release are the ones that its checksums name.
look_at_release() {
    local version
    is_whole "$released" || fail "release/bprice is not the program that release/SOURCES names"
    is_summed || fail "release/SHA256SUMS has not the checksums of ${summed[*]}"
    read -r version <"$top/release/VERSION"
    echo "release: version $version, program $(told "$top/release/SOURCES" program), as release/SHA256SUMS says"
}

# Sees whose signature these checksums have.
look_at_signature() {
    local word rest key= found=
    if ! [ -e "$top/release/SHA256SUMS.asc" ]; then
        echo "signature: none, so who made the release is not shown"
        return
    elif ! command -v gpg >/dev/null; then
        echo "signature: there is one, but no gpg to judge it"
        return
    fi
    while read -r _ word rest; do
        case $word in
        GOODSIG) found=good ;;
        VALIDSIG | NO_PUBKEY) key=${rest%% *} found=${found:-$word} ;;
        esac
    done < <(gpg --batch --status-fd 1 --verify "$top/release/SHA256SUMS.asc" "$top/release/SHA256SUMS" 2>/dev/null)
    case $found in
    good) echo "signature: good, by the key $key" ;;
    NO_PUBKEY) echo "signature: by the key $key, which gpg does not have here" ;;
    *) fail "release/SHA256SUMS.asc is no good signature of release/SHA256SUMS" ;;
    esac
}

# Sets `from` to a folder with the sources of the release: the ones at hand, or those of a commit, laid out in the room.
find_sources() { # ROOM
    local sum why brought commit
    sum=$(told "$top/release/SOURCES" sources)
    if [ "$(sum_of_sources)" = "$sum" ]; then
        from=$top
        echo "sources: those that stand here, $sum"
        return
    fi
    why=$(lacks_history) && fail "release/SOURCES is not of the sources that stand here, and there is no history to look for others in: $why"
    brought=$(commit_of_release) || fail "release/SOURCES is not of the sources that stand here, and no commit has this release$(tell_cut)"
    commit=$(commit_of_sources "$brought" "$sum") || fail "no commit has the sources of release/SOURCES$(tell_cut)"
    lay_out "$1" "$commit" || fail "commit $commit cannot be laid out"
    from=$1/tree
    echo "sources: those of commit $commit, $sum"
}

# Sees that the kit at hand is the one that proved and built the release.
look_at_kit() {
    local here
    command -v rt >/dev/null ||
        fail "the kit $(told "$top/release/KIT" kit) is needed, with its command rt on the PATH; it comes from whoever gave you this repository. Without it, trust no program: judge certificates"
    here=$(rt version)
    [ "$here" = "$(told "$top/release/KIT" kit)" ] || fail "the kit at hand is $here, and the release was made by $(told "$top/release/KIT" kit)"
    kit_at_hand | cmp -s - "$top/release/KIT" || fail "the kit at hand has that name, but not the files that release/KIT has the checksum of"
    echo "kit: $here, files $(told "$top/release/KIT" files)"
}

case ${1-} in
'' | --look) ;;
*) fail "usage: release/reproduce.sh [--look]" ;;
esac
room=$(mktemp -d) || exit
trap 'rm -rf "$room"' EXIT
look_at_release
look_at_signature
find_sources "$room"
look_at_kit
[ "${1-}" != --look ] || exit 0
echo "proof: rt ci on a copy of the program's crates"
mkdir "$room/copy" && copy_crates "$from" "$room/copy" || fail "the crates cannot be copied"
(cd "$room/copy" && rt ci) || fail "rt ci failed"
built=$room/copy/crates/bprice/out/bprice
[ -f "$built" ] || fail "rt ci built no program"
cmp -s "$built" "$released" || fail "rt ci built another program, $(sum_of_program "$built")"
echo "reproduced: rt ci built the same bytes from these sources"
