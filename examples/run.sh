#!/usr/bin/env bash
# Builds and runs the examples against target/staticlib/libfence.a, and renews the pictures beside them.
# Installs what is missing: the compiler, graphviz, python3, and off x86-64 an emulator.
set -eu -o pipefail
cd "$(dirname "$0")/.."

# shellcheck source=../host/machine.sh
. host/machine.sh
install_missing "$cxx" dot python3 "${to_run[@]}"

build=target/examples
mkdir -p "$build"
for name in queue peterson rebuilds; do
    "$cxx" -std=c++17 -O1 -Wall -Wextra -Wpedantic -Werror -Iinclude "examples/$name.cpp" \
        target/staticlib/libfence.a -o "$build/$name"
done
"${emulator[@]}" "$build/queue" examples
"${emulator[@]}" "$build/peterson" "$build"
"${emulator[@]}" "$build/rebuilds" "$build"

for name in queue_before queue_after; do
    dot -Tsvg "examples/$name.dot" -o "examples/$name.svg"
done
python3 -B bench/plot.py rebuilds "$build/rebuilds.csv" examples/rebuilds.svg
