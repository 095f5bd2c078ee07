#!/usr/bin/env bash
# Signs the release: GnuPG writes a detached signature of release/SHA256SUMS, which names every file of the release, to
# release/SHA256SUMS.asc. Only the owner of the repository has the key.
#
#     release/sign.sh [KEY]       KEY is what GnuPG takes for a name of a key; without it, its default key
set -u

. "$(dirname "$(readlink -f "${BASH_SOURCE[0]}")")/common.sh"

sums=$top/release/SHA256SUMS
if ! is_summed; then
    complain "release/SHA256SUMS has not the checksums of the release, so it is not signed; release/make.sh renews it"
    exit 1
elif ! command -v gpg >/dev/null; then
    complain "to sign the release GnuPG's command gpg is needed on the PATH"
    exit 1
elif [ -z "$(gpg --batch --list-secret-keys ${1:+"$1"} 2>/dev/null)" ]; then
    complain "GnuPG has no secret key${1:+ of that name}: the owner of the repository signs a release with their own; nothing was signed"
    exit 1
fi
rm -f "$sums.asc.new"
gpg --quiet --armor --detach-sign ${1:+--local-user "$1"} --output "$sums.asc.new" "$sums" && mv -f "$sums.asc.new" "$sums.asc" && echo "signed: release/SHA256SUMS.asc"
