# shellcheck shell=bash
# What the scripts of this folder share: whether a program is built, and how it is proved and
# built. It is sourced by a script that has set `root`, the top of the repository, and `say`.
#
#   is_built CRATE [PROGRAM]   no source of the crate, or of a crate below it, is newer than its
#                              program, or than this one
#   build CRATE                proves and builds it, one builder at a time; 126 where that fails, 127 without rt

# shellcheck disable=SC2154  # root is the sourcing script's

# The programs make and give back thousands of rows of one size: glibc keeps 120 of each size at hand
# for them, where it keeps 7 by itself. A setting that is there already stands.
export GLIBC_TUNABLES=${GLIBC_TUNABLES-glibc.malloc.tcache_count=120}

# The crates of the repository that this one stands on, lowest first, and then itself.
crates_of() {
    local -A needs=() seen=()
    local name below
    while IFS=: read -r name below || [ -n "$name" ]; do
        name=${name%%[[:space:]#]*}
        [ -n "$name" ] && needs[$name]=$below
    done <"$root/crates.txt"
    crates=()
    add_crate "$1"
}

add_crate() {
    local below
    [ -n "${needs[$1]+there}" ] && [ -z "${seen[$1]+there}" ] || return 0
    seen[$1]=yes
    for below in ${needs[$1]}; do
        add_crate "$below"
    done
    crates+=("$1")
}

is_built() {
    local program=${2:-$root/crates/$1/out/$1} crate folder sources=("$root/crates.txt") crates
    [ -f "$program" ] && [ -x "$program" ] || return 1
    crates_of "$1"
    for crate in "${crates[@]}"; do
        for folder in "$root/crates/$crate"/{src,specs,proofs}; do
            [ -d "$folder" ] && sources+=("$folder")
        done
    done
    [ -z "$(find "${sources[@]}" -newer "$program" -print -quit)" ]
}

# One builder at a time: a second one waits for the first, and finds the program there.
build() {
    local status
    if ! command -v rt >/dev/null 2>&1; then
        say "the command rt of the Rattle kit, which proves and builds the program, is not on the PATH"
        return 127
    fi
    if [ ! -w "$root/crates/$1" ]; then
        say "this copy of the repository can only be read, so nothing can be built in it"
        return 126
    fi
    exec 9<"$root/crates.txt"
    if command -v flock >/dev/null 2>&1 && ! flock -n 9; then
        say "another run is proving and building; waiting for it"
        flock 9
    fi
    is_built "$1" || build_each "$1" 9<&-
    status=$?
    exec 9<&-
    return "$status"
}

# Proves and builds the crates from the lowest up; then the program is tried on its stored run.
build_each() {
    local room crate crates number=0 status=0
    crates_of "$1"
    room=$(mktemp -d) || return 126
    trap 'end_job INT 130' INT
    trap 'end_job TERM 143' TERM
    trap 'end_job HUP 129' HUP
    # a source that is changed from now on is newer than the program
    : >"$room/begun"
    for crate in "${crates[@]}"; do
        number=$((number + 1))
        build_one "$crate" "crate $number of ${#crates[@]}: $crate" "$1" || {
            status=126
            break
        }
    done
    trap - INT TERM HUP
    if [ "$status" -eq 0 ]; then
        touch -r "$room/begun" -- "$root/crates/$1/out/$1"
        say "built in $SECONDS seconds"
    fi
    rm -rf -- "$room"
    return "$status"
}

# Proves and builds one crate, in a process group of its own, and says twice a minute where it is.
build_one() {
    local crate=$1 where=$2 program=$3 from=$SECONDS nobody
    say "$where"
    set -m
    if [ "$crate" = "$program" ]; then
        stored_run "$crate" >"$room/said" 2>&1 &
    else
        (cd -- "$root/crates/$crate" && exec rt lib) >"$room/said" 2>&1 </dev/null &
    fi
    job=$!
    set +m
    # a read of what nobody writes takes its time, and leaves no process behind
    exec {nobody}<> <(:)
    while kill -0 "$job" 2>/dev/null; do
        read -r -t 1 -u "$nobody"
        if [ $((SECONDS - from)) -ge 30 ]; then
            from=$SECONDS
            say "$where, $SECONDS seconds so far"
        fi
    done
    exec {nobody}>&-
    wait "$job" && return 0
    say "$crate could not be proved and built; the last lines of rt in crates/$crate were:"
    tail -n 20 "$room/said" >&2
    return 1
}

# The program's stored run: its words, its input and its status are files of the crate.
stored_run() {
    local words=() wanted=0
    cd -- "$root/crates/$1" || return
    [ -f args ] && mapfile -t words <args
    [ -f status ] && wanted=$(<status)
    if [ -f stdin ]; then rt run -- "${words[@]}" <stdin; else rt run -- "${words[@]}" </dev/null; fi
    [ $? -eq "$wanted" ]
}

# A signal ends the build: rt and all that it has started.
end_job() {
    trap '' INT TERM HUP
    say "ended by the signal $1"
    kill -TERM -- "-$job" 2>/dev/null
    wait "$job" 2>/dev/null
    kill -KILL -- "-$job" 2>/dev/null
    rm -rf -- "$room"
    exit "$2"
}
