# What ./bprice sees in its words before it starts the program: whether a file that would be written is one that is read, or is
# written twice, and whether they ask for the version. Words that the program refuses are left to it.

# Sets `places` to the words that are no options, and `given` to the values of options, by name.
part_words() {
    local word name
    places=()
    given=()
    while [ $# -gt 0 ]; do
        word=$1
        shift
        case $word in
        --) places+=("$@") && return ;;
        --blocks | --classes | --large) given[${word#--}]= ;;
        --?*=*) name=${word%%=*} && given[${name#--}]=${word#*=} ;;
        --?*)
            given[${word#--}]=${1-}
            [ $# -gt 0 ] && shift
            ;;
        *) places+=("$word") ;;
        esac
    done
}

# Returns whether two names are of one file, links followed, or would be where neither is there yet.
are_one_file() { # NAME NAME
    local place
    [ "$1" = "$2" ] || [ "$1" -ef "$2" ] || {
        ! [ -e "$1" ] && ! [ -e "$2" ] && place=$(readlink -f -- "$1") && [ "$place" = "$(readlink -f -- "$2")" ]
    }
}

# Tells on standard error of a file that would be written and is also another of the named files.
stop_on_shared_files() { # WORDS..
    local -a places read=() written=()
    local -A given
    local at it
    part_words "$@"
    case ${places[0]-} in
    solve) read=("${places[1]-}" "${given[dec]-}") written=("${given[cert]-}") ;;
    gen) written=("${places[3]-}" "${places[4]-}") ;;
    detect) read=("${places[1]-}" "${places[2]-}") written=("${places[3]-}") ;;
    propose) read=("${places[1]-}") written=("${places[2]-}") ;;
    merge) read=("${places[1]-}" "${given[dec]-}") written=("${places[4]-}") ;;
    migrate) read=("${places[1]-}" "${given[dec]-}") written=("${places[3]-}") ;;
    esac
    for at in "${!written[@]}"; do
        for it in "${read[@]}" "${written[@]:at + 1}"; do
            if [ -n "$it" ] && are_one_file "$it" "${written[at]}"; then
                complain "${written[at]} would be written, and is the same file as $it: nothing was started"
                return 1
            fi
        done
    done
}

# Returns whether words ask for the version: `version` alone, or `--version` first.
asks_version() { # WORDS..
    [ "${1-}" = --version ] || { [ "${1-}" = version ] && [ $# -eq 1 ]; }
}

# Prints the checksum over the sources at hand: the one that is remembered, or computed anew where the words ask for the version.
sum_for() { # WORDS..
    if asks_version "$@"; then sum_of_sources; else sum_at_hand; fi
}

# Tells the version, what the record beside the program says of it, and the checksum over the sources at hand, where the words
# ask for the version: on the standard output for `version`, whose page the program prints there; on standard error for
# `--version`, which the program refuses, with its usage and what is wrong with words by itself.
tell_version() { # SUM WORDS..
    local version sum=$1
    shift
    asks_version "$@" || return 0
    {
        { read -r version; } 2>/dev/null <"$top/release/VERSION" && echo "version $version"
        cat "${program%/*}/SOURCES" 2>/dev/null && echo "here $sum"
    } >&"$([ "$1" = version ] && echo 1 || echo 2)"
}
