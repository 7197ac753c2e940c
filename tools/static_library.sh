#!/usr/bin/env bash
# Builds the static library of a crate for a program in C, crates/NAME/out/libNAME.a.
# usage, from the root: tools/static_library.sh NAME
# Where rt ci has passed (build/ci_passed) and nothing has changed since, the compiler proves the crate over the libraries that rt ci
# proved and left in out/. Everywhere else `rt lib` builds it, which first proves each library below that no `rt check` has kept.
set -euo pipefail
name=$1
made=crates/$name/out/lib$name.a
log=build/static_$name.txt

# What a crate names in crates.txt.
uses() { awk -v name="$1" '!/^#/ { line = $0; sub(/#.*/, "", line); split(line, side, ":"); split(side[1], word, " ")
                                    if (word[1] == name) print side[2] }' crates.txt; }

# The crates of this repository that a crate stands on, each once, itself last.
declare -A met
walk() {
    local crate
    for crate in $(uses "$1"); do
        [ -n "${met[$crate]:-}" ] || [ ! -d "crates/$crate" ] || walk "$crate"
    done
    met[$1]=1
    echo "$1"
}

# Whether all of these libraries are as rt ci left them: those of other commands have a stamp, and may be of an older text.
are_left() {
    local crate
    [ -e build/ci_passed ] || return 1
    [ -z "$(find crates.txt crates -name out -prune -o -type f -newer build/ci_passed -print -quit)" ] || return 1
    for crate in "$@"; do
        [ -e "crates/$crate/out/rlib/$crate.rlib/format" ] && [ ! -e "crates/$crate/out/rlib/stamp" ] || return 1
    done
}

# The compiler's own command, as rt lib gives it.
build_over_left() {
    local kit words crate
    kit=$(dirname "$(rt doc)")
    words=(--crate-name "$name" --extern "std=$kit/rlibs/std.rlib" -L "dependency=$kit/rlibs")
    for crate in $(uses "$name"); do
        if [ -d "crates/$crate" ]; then
            words+=(--extern "$crate=$PWD/crates/$crate/out/rlib/$crate.rlib")
        else
            words+=(--extern "$crate=$kit/rlibs/$crate.rlib")
        fi
    done
    for crate in "$@"; do words+=(-L "dependency=$PWD/crates/$crate/out/rlib"); done
    words+=(--antt-project "$kit/rattle/logic/antt-project.json" --logic-built "$kit/logic_built" --jobs 1 --links "$name=")
    words+=(--crate-type staticlib --toolchain "$kit/toolchain" --backend llvm -o "out/lib$name.a")
    (cd "crates/$name" && "$kit/bin/rattle" build "${words[@]}" src/lib.rt)
}

mkdir -p build "crates/$name/out"
rm -f "$made"
mapfile -t below < <(walk "$name" | grep -vx "$name" || true)
if are_left "${below[@]}" && build_over_left "${below[@]}" > "$log" 2>&1; then
    echo "$name: proved over what rt ci left, and its static library built" >&2
else
    (cd "crates/$name" && rt lib 2>&1) | tools/progress.sh "$log"
fi
test -e "$made"
