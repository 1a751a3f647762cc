#!/usr/bin/env bash
# Times the library beside another build of it, on files of 60 nodes and of 400 to 512. Writes bench/AGAINST.md.
#
#     bench/against.sh OTHER_ARCHIVE [SEED]      OTHER_ARCHIVE is the libfence.a of the build before
set -eu -o pipefail
other=$(realpath "$1")
cd "$(dirname "$0")"
seed=${2:-1}
archive=$PWD/../target/staticlib/libfence.a
build=$PWD/../target/bench
host=$PWD/../host

# shellcheck source=../host/machine.sh
. "$host/machine.sh"
[ -f "$archive" ] || { echo "the library is missing: run 'bash packaging/archive.sh'"; exit 1; }
install_missing "$cxx" python3 "${to_run[@]}"
ulimit -s 65536 # the other build may want it

mkdir -p "$build"
program() {
    $cxx -std=c++17 -O3 -DNDEBUG -Wall -Wextra -I ../include -I "$host" -o "$build/$1" \
        against.cpp corpus.cpp shapes.cpp classics.cpp "$host/generate.cpp" "$host/reference_read.cpp" "$2"
}
program before "$other"
program after "$archive"

# A table for files with so many orders, each measured so many times.
compared() {
    local before=("${emulator[@]}" "$build/before" "$seed" "$1")
    local after=("${emulator[@]}" "$build/after" "$seed" "$1")
    python3 -B against.py "$2" "${before[@]}" -- "${after[@]}"
}

mixed=$(compared 0 5)
most=$(compared 32 5)
large=$(compared large 2)
cat >AGAINST.md <<END
# Beside the build before

Medians in microseconds for one call, with all kinds of weights; of each file the least of several calls.
"Of a file" is the median of the files' own ratios: about half of a family's files, by their rules, take several times as
long as the others, and a median of times may fall between the two. "Worst" is the longest of a family's runs, and "most
of a file" the highest of the files' own ratios. Both builds took turns, ${emulator[0]:+under an emulator (${emulator[0]}) }on $(uname -m).
Made by \`bench/against.sh\`.

## 60 nodes, 1, 2, 4, 8, 16 and 32 orders

$mixed

## 60 nodes, 32 orders

$most

## 400 to 512 nodes, 1, 2, 4, 8, 16 and 32 orders

$large
END
cat AGAINST.md
