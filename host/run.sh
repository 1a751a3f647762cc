#!/usr/bin/env bash
# Builds and runs the host tests against target/staticlib/libfence.a (made by `packaging/archive.sh`), on x86-64
# directly, elsewhere with a cross compiler and an emulator. Installs what is missing. Its last line is 'N passed, M failed'.
#
#     host/run.sh                 the gate's measure
#     host/run.sh FACTOR          so many times as many files in the comparison
#     host/run.sh FACTOR SEED     the same, from this seed alone: the comparison prints those it takes
set -u -o pipefail
cd "$(dirname "$0")" || exit 1

comparison=("${1:-1}" "${@:2:1}")
archive=$PWD/../target/staticlib/libfence.a
build=$PWD/../target/host
passed=0
failed=0

fail() { printf '%s\n%d passed, %d failed\n' "$1" "$passed" $((failed + 1)); exit 1; }

# shellcheck source=machine.sh
. ./machine.sh

[ -f "$archive" ] || fail "the library is missing: run 'bash packaging/archive.sh'"
install_missing "$cc" "$cxx" doctest cmake make "${to_run[@]}" || fail "what the host tests need is missing"

mkdir -p "$build"
log=$build/log
{ cmake -S . -B "$build" "${cmake_words[@]}" -DFENCE_ARCHIVE="$archive" && cmake --build "$build" -j "$(nproc)"; } \
    >"$log" 2>&1 || { cat "$log"; fail "the host tests could not be built"; }

# Runs a program and takes the two counts from its last matching line.
counted() {
    local pattern=$1; shift
    local text; text=$("${emulator[@]}" "$@" 2>&1); local status=$?
    printf '%s\n' "$text"
    if ! [[ "$text" =~ $pattern ]]; then
        echo "$1: status $status, and no count"; failed=$((failed + 1)); return
    fi
    passed=$((passed + 10#${BASH_REMATCH[1]})); failed=$((failed + 10#${BASH_REMATCH[2]}))
    if [ $((10#${BASH_REMATCH[1]})) -eq 0 ]; then echo "$1: nothing was tested"; failed=$((failed + 1)); fi
    if [ "$status" -ne 0 ] && [ $((10#${BASH_REMATCH[2]})) -eq 0 ]; then echo "$1: status $status"; failed=$((failed + 1)); fi
}

# Runs a program of the docs, with a file as its input, and compares what it prints, refusals too.
prints() {
    local said=$1 input=$2; shift 2
    if [ "$("${emulator[@]}" "$@" <"$input" 2>&1)" = "$said" ]; then
        passed=$((passed + 1))
    else
        echo "$(basename "$1"), as the docs have it, prints something else"; failed=$((failed + 1))
    fi
}

counted '\| +([0-9]+) passed \| +([0-9]+) failed' "$build/tests" --no-colors=true
for example in example_c example_cpp; do prints "2 fences of weight 2, 108 bytes" /dev/null "$build/$example"; done
prints "open, on the route 0 1 2" list/d.request "$build/readme_ask"
prints "$(sed -n 2p damaged/edge_to_missing_node.said)" damaged/edge_to_missing_node.request "$build/readme_ask"
prints "$(sed -n '/^    x86-like: /,/^$/ s/^    //p' ../docs/FROM-A-COMPILER.md)" /dev/null "$build/compiler_neutral"
prints "$(sed -n '/^    x86-like rules$/,/^$/ s/^    //p' ../README.md)" /dev/null "$build/readme_queue" "$build"
counted '([0-9]+) groups passed, ([0-9]+) failed' "$build/compare" "${comparison[@]}"

printf '%d passed, %d failed\n' "$passed" "$failed"
[ "$failed" -eq 0 ]
