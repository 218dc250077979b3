# shellcheck shell=bash
# Steps of the scripts that build from crates whose libraries are built. They set -eu, and
#
#     here     the folder release
#     work     a folder for what is made on the way
#
# The variable NEQYSBAR_BUILT may name a repository of the same sources in which `rt ci` has proved and built all
# of it, as it leaves it: the libraries are taken from there, from each crate's out/rlib, nothing of them is
# proved, and nothing is written there. NEQYSBAR_KEPT may name a folder in which it is kept what was proved of the
# last crates, so that the next script needn't prove it once more.
here=${here:?}
work=${work:?}
kit=$(dirname "$(rt doc)")

# find_libraries: sets `top`, the repository whose libraries are taken; in this one they are proved and built
# first, where that isn't done yet
find_libraries() {
    top=$(readlink -f -- "${NEQYSBAR_BUILT:-$here/..}")
    if [ -z "${NEQYSBAR_BUILT-}" ]; then
        "$here/is_built" "$top/crates/neqysbar_c/out/libneqysbar_c.a" && return
        echo "release: proving and building the library first, which from nothing takes an hour or two" >&2
        (cd -- "$top/crates/neqysbar_c" && rt lib >&2)
    elif [ "$("$top/release/sources")" != "$("$here/sources")" ]; then
        echo "release: the sources in $top are others than those that are here" >&2
        return 1
    elif ! "$top/release/is_built"; then
        echo "release: in $top the program isn't built, or a source is newer: rt ci builds it" >&2
        return 1
    fi
}

# crate_words FOLDER CRATE LIBRARY..: sets `words`, those of `rattle build` for the crate whose folder this one
# is, a program or a static library: its name, and what it names of libraries, which lie in FOLDER, each in
# NAME/out/rlib, or in the toolchain.
crate_words() {
    local folder=$1 crate=$2 library rlib
    words=(--crate-name "$crate" --links "$crate=" --jobs 1
        --antt-project "$kit/rattle/logic/antt-project.json" --logic-built "$kit/logic_built"
        -L "dependency=$kit/rlibs")
    if [ -e src/main.rt ]; then
        words+=(src/main.rt)
    else
        words+=(src/lib.rt --crate-type staticlib)
    fi
    for library in std "${@:3}"; do
        rlib=$folder/$library/out/rlib/$library.rlib
        [ -d "$rlib" ] || rlib=$kit/rlibs/$library.rlib
        words+=(--extern "$library=$rlib")
    done
    for rlib in "$folder"/*/out/rlib; do
        [ -d "$rlib" ] && words+=(-L "dependency=$rlib")
    done
    return 0
}

# listed_words CRATE: goes to a crate of the repository `top`, and sets `words` for it; what was proved of it
# and kept needs no second proof
listed_words() {
    local libraries kept=out/incremental
    cd -- "$top/crates/$1" || return
    read -ra libraries < <(sed -nE "s/^$1( [^:]*)?://p" "$top/crates.txt")
    crate_words "$top/crates" "$1" "${libraries[@]}"
    if [ -n "${NEQYSBAR_BUILT-}" ]; then
        kept=${NEQYSBAR_KEPT:-$work/kept}/$1
        mkdir -p -- "$kept"
    fi
    [ ! -d "$kept" ] || words+=(--incremental "$kept")
}

# compiled CRATE TO TARGET TOOLCHAIN: proves a crate of the repository `top`, and compiles it
compiled() {
    local words
    listed_words "$1"
    quietly "$kit/bin/rattle" build "${words[@]}" --target "$3" --toolchain "$4" --backend llvm -o "$2"
}

# quietly WORD..: what a command says is shown only if it fails
quietly() {
    "$@" >"$work/said" 2>&1 && return
    cat -- "$work/said" >&2
    return 1
}
