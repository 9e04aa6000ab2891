# shellcheck shell=bash
# The unproved program, for bin/seagrynt, which sources this: what the kit makes of the sources as they
# are without proving them, kept as `unproved` in the crate's out/, so that it is built once for these
# sources. Where out/ can't be written it is kept in the folder for caches of the one who runs it.
#
#   find_kept           sets `kept`, where the program is kept, or is to be
#   is_kept             no source is newer than the kept program
#   await_builder       waits while another run builds it, and then is the only one; whether it is kept then
#   keep_fast           builds it optimised, and keeps it
#   try_and_keep WORD.. runs the sources on these words by `rt try`, and keeps the slow program that it links

# shellcheck disable=SC2154  # root, name, crate and room are the sourcing script's

find_kept() {
    local caches=${XDG_CACHE_HOME:-${HOME:-/nonexistent}/.cache} sum
    kept=$crate/out/unproved
    if can_write "$crate/out" || is_kept; then return; fi
    sum=$(printf '%s' "$root" | cksum)
    kept=$caches/seagrynt/$name-${sum%% *}/unproved
}

# Whether a folder, or the one that it would be made in, can be written; by trying, since the files of
# a system that can only be read may have leave to be written.
can_write() {
    local folder=$1
    [ -d "$folder" ] || folder=$(dirname -- "$folder")
    [ -w "$folder" ] && : 2>/dev/null >"$folder/.written.$$" && rm -f -- "$folder/.written.$$"
}

is_kept() { is_built "$name" "$kept"; }

await_builder() {
    command -v flock >/dev/null 2>&1 && exec 9>"${kept%/*}/.building" || return
    if ! flock -n 9; then
        say "another run is building the unproved program; waiting for it"
        flock 9
    fi
    is_kept
}

# Takes a program that was built as the kept one.
keep() {
    touch -r "$room/begun" -- "$1"
    cp -p -- "$1" "$kept.$$" && mv -f -- "$kept.$$" "$kept"
}

# The crates as they are, where a build may write beside them: themselves, or a copy.
place_to_build() {
    local folder=$root crates it
    if ! can_write "$crate/out"; then
        folder=$room/copy
        crates_of "$name"
        mkdir -p -- "$folder/crates" || return
        (cd -- "$root" && tar -cf - --exclude=out HANDLES "${crates[@]/#/crates/}") | tar -xf - -C "$folder" || return
        for it in "${crates[@]}"; do grep "^${it}[: ]" "$root/crates.txt"; done >"$folder/crates.txt"
    fi
    printf '%s/crates/%s' "$folder" "$name"
}

# `rt try` is run by a kit of links whose compiler keeps the program's module and stops; the module's
# text without what `rt try` adds to find faults is compiled by the kit's own compiler and linker.
keep_fast() {
    local kit place module
    : >"$room/begun"
    kit=$(dirname -- "$(rt doc)")
    mkdir -p -- "$(dirname -- "$kept")" && place=$(place_to_build) || return
    command -v python3 >/dev/null 2>&1 && [ -x "$kit/toolchain/bin/clang" ] && [ -x "$kit/bin/rattle-link" ] &&
        kit_of_links "$kit" clang && mkdir -p -- "$room/modules" || return
    {
        # shellcheck disable=SC2016  # the script that is written expands them
        printf '#!/usr/bin/env bash\nif [ -f module.bc ] && [ "$(stat -c %%s module.bc)" -gt 5000 ]; then cp module.bc %q/"$$"; exit 1; fi\n' "$room/modules"
        printf 'exec %q "$@"\n' "$kit/toolchain/bin/clang"
    } >"$room/kit/toolchain/bin/clang"
    chmod +x -- "$room/kit/toolchain/bin/clang"
    (cd -- "$place" && "$room/kit/bin/rt" try --seconds 60 --)
    module=$(find "$room/modules" -type f -printf '%s %p\n' | sort -rn | sed -n '1s/^[0-9]* //p')
    [ -n "$module" ] && compile_fast "$kit" "$module" && keep "$room/program"
}

compile_fast() {
    local kit=$1 clang=$1/toolchain/bin/clang
    "$clang" --no-default-config -x ir "$2" -S -emit-llvm -Xclang -disable-llvm-passes -O0 -o "$room/checked.ll" &&
        python3 -S -E -B "$root/bin/front/unchecked.py" "$room/checked.ll" "$room/plain.ll" "$root/crates" "$kit/rattle" &&
        "$clang" --target=x86_64-unknown-linux-gnu --sysroot="$kit/toolchain" -march=x86-64 --no-default-config -no-canonical-prefixes \
            -mllvm -no-trap-after-noreturn -mllvm -trap-unreachable -mllvm -no-x86-call-frame-opt -ffunction-sections -fdata-sections \
            -fintegrated-cc1 -fno-crash-diagnostics -fPIE -O3 -c -x ir "$room/plain.ll" -o "$room/program.o" &&
        "$kit/bin/rattle-link" --target x86_64-unknown-linux-gnu --toolchain "$kit/toolchain" -o "$room/program" \
            "$room/program.o" "$kit/c/libos_c.a" "$kit/c/liblibc_c.a"
}

# `rt try` removes what it has built. So it is run by a kit of links whose linker copies the program
# that it has linked; where such a kit can't be made, by the kit itself, and nothing is kept.
try_and_keep() {
    local kit place rt=rt
    kit=$(dirname -- "$(rt doc)")
    : >"$room/begun"
    place=$(place_to_build) || exit 126
    if [ -x "$kit/toolchain/bin/ld.lld" ] && [ -x "$kit/bin/rt" ] && mkdir -p -- "$(dirname -- "$kept")" && kit_of_links "$kit" ld.lld 2>/dev/null; then
        rt=$room/kit/bin/rt
        {
            printf '#!/usr/bin/env bash\n%q "$@" || exit\n' "$kit/toolchain/bin/ld.lld"
            printf '[ ! -f program ] || cp -- program %q\n' "$room/program"
        } >"$room/kit/toolchain/bin/ld.lld"
        chmod +x -- "$room/kit/toolchain/bin/ld.lld"
    fi
    cd -- "$place" || exit 126
    attend "$rt" try --seconds 600 -- "$@" >"$room/out" 2>"$room/said"
    if [ -f "$room/program" ] && grep -q '^run=ended status=' "$room/said"; then keep "$room/program"; fi
}

# A kit at $room/kit that is this one but for a tool, which the caller puts there.
kit_of_links() {
    local kit=$1 tool=$2 it
    rm -rf -- "$room/kit"
    mkdir -p -- "$room/kit/bin" "$room/kit/toolchain/bin" || return
    for it in "$kit"/* "$kit"/bin/* "$kit"/toolchain/* "$kit"/toolchain/bin/*; do
        case ${it#"$kit/"} in
            bin | toolchain | toolchain/bin | "toolchain/bin/$tool") ;;
            bin/rt | bin/*.py) cp -L -- "$it" "$room/kit/bin/" ;;
            *) ln -s -- "$it" "$room/kit/${it#"$kit/"}" ;;
        esac || return
    done
}
