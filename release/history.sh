# What the repository's history knows of a release of older sources. Bash reads it behind common.sh; it needs git.

# So many states of the sources are looked at, from the release's commit back.
most_states=100

# Runs git on this repository, whatever repository the caller's own settings name.
in_repository() {
    env -u GIT_DIR -u GIT_WORK_TREE -u GIT_INDEX_FILE git -C "$top" "$@" 2>/dev/null
}

# Returns whether there is no history to look in, and prints why.
lacks_history() {
    local below
    if ! command -v git >/dev/null; then
        echo "there is no git"
    elif ! below=$(in_repository rev-parse --show-prefix) || [ -n "$below" ]; then
        echo "git knows no repository here"
    elif ! in_repository rev-parse --quiet --verify 'HEAD^{commit}' >/dev/null; then
        echo "the repository has no commit"
    else
        return 1
    fi
}

# Prints what lacks of the history where it is cut off.
tell_cut() {
    [ "$(in_repository rev-parse --is-shallow-repository)" != true ] || echo ", of which this clone is shallow (git fetch --unshallow)"
}

# Prints the newest commit that brought exactly the release that stands here.
commit_of_release() {
    local commit here
    here=$(in_repository hash-object --no-filters release/SOURCES release/bprice) || return
    for commit in $(in_repository rev-list HEAD -- release/SOURCES release/bprice); do
        [ "$(in_repository rev-parse --quiet "$commit:release/SOURCES" "$commit:release/bprice")" = "$here" ] && echo "$commit" && return
    done
    return 1
}

# Prints a commit whose record names another program of the same sources and kit, if there is one. Builds of the same sources by
# the same kit are byte for byte the same, so one of the two records is false.
rival_of_release() {
    local commit record kit sources program
    { read -r kit && read -r sources && read -r program; } <"$top/release/SOURCES" || return
    for commit in $(in_repository rev-list HEAD -- release/SOURCES); do
        record=$(in_repository show "$commit:release/SOURCES")
        [[ $record == "$kit"$'\n'"$sources"$'\n'* && $record != *$'\n'"$program" ]] && echo "$commit" && return
    done
    return 1
}

# Lays out a commit's files in a folder that may have another commit's, below `tree`.
lay_out() { # FOLDER COMMIT
    mkdir -p "$1/tree" &&
        env -u GIT_DIR GIT_INDEX_FILE="$1/index" git -C "$top" -c core.autocrlf=false --work-tree="$1/tree" read-tree --reset -u "$2" 2>/dev/null
}

# Prints the checksum over a commit's sources.
sum_of_commit() { # FOLDER COMMIT
    lay_out "$1" "$2" && (top=$1/tree && sum_of_sources)
}

# Prints the commit whose sources have that checksum: the named one, or the newest of those behind it that changed the sources.
commit_of_sources() { # COMMIT SUM
    local commit folder found=1
    folder=$(mktemp -d) || return
    for commit in "$1" $(in_repository rev-list --max-count="$most_states" "$1" -- HANDLES crates.txt 'crates/*/src/*' 'crates/*/specs/*' 'crates/*/proofs/*'); do
        if [ "$(sum_of_commit "$folder" "$commit" 2>/dev/null)" = "$2" ]; then
            echo "$commit"
            found=0
            break
        fi
    done
    rm -rf "$folder"
    return "$found"
}
