#!/bin/sh
# Tests the header with a compiler, gcc, g++ or one of another machine by its name: silent in every version of the language, a warning where a
# result is passed over, and no memory for the guards.
#   tests/header.sh COMPILER
# The last line is 'header, COMPILER: N passed, M failed'.
# shellcheck disable=SC2317 # functions that `passes` calls
set -u
cd "$(dirname "$0")/.." || exit 1
compiler=$1
object=$(mktemp) || exit 1
trap 'rm -f "$object" "$object.said"' EXIT
# shellcheck source=tests/passes.sh
. tests/passes.sh

compile() {
    "$compiler" -Iinclude -c "$@" -o "$object" >"$object.said" 2>&1
}

# Compiles and says nothing; what the compiler says is shown.
silent() {
    compile "$@" && [ ! -s "$object.said" ] && return
    cat "$object.said"
    return 1
}

# Compiles, and warns of a result that is not used.
warned() {
    compile "$@" && grep -q 'unused-result' "$object.said"
}

# Data and bss of the object, by the compiler's own tools.
no_memory() {
    [ "$("${compiler%g??}size" "$object" | awk 'NR == 2 { print $2 + $3 }')" = 0 ]
}

warnings='-Wall -Wextra -Wpedantic -Wconversion'
case $compiler in
    *++) language='-xc++' standards='c++11 c++14 c++17 c++20' warnings="$warnings -Wold-style-cast -Wzero-as-null-pointer-constant" ;;
    *) language='-xc' standards='c99 c11 c17' ;;
esac
# shellcheck disable=SC2086 # lists of words
for standard in $standards; do
    for level in -O0 -O2 -Os; do
        passes "silent in $standard at $level" silent $language -std="$standard" $level $warnings tests/header.c
        passes "no memory in $standard at $level" no_memory
    done
    printf '#include "pandrwyg.h"\n' >"$object.c"
    passes "silent in $standard, with nothing used" silent $language -std="$standard" $warnings "$object.c"
    rm "$object.c"
    for call in draw draw_batch receive; do
        passes "$call passed over in $standard" warned $language -std="$standard" -DIGNORE_$call tests/header.c
    done
done
finish "header, $compiler"
