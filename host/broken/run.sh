#!/usr/bin/env bash
# Shows that the comparison finds mistakes: each *.sed here breaks a copy of the reference or of the plain version,
# which is then compared with the sound reference. Needs no library and no emulator. Its last line is
# 'N passed, M failed'.
#
#     host/broken/run.sh           all differences of each, by group
#     host/broken/run.sh first     the gate's measure: up to the first difference of each
set -u -o pipefail
cd "$(dirname "$0")" || exit 1
host=$PWD/..
work=$(mktemp -d)
trap 'rm -rf "$work"' EXIT
passed=0 failed=0

# shellcheck source=../machine.sh
. "$host/machine.sh"
install_missing g++ || { echo "0 passed, 1 failed"; exit 1; }

count() { if [ "$1" -eq 0 ]; then passed=$((passed + 1)); else failed=$((failed + 1)); fi; }
compile() { ${CXX:-g++} -std=c++17 -O2 -I "$host" -I "$host/../include" -I "$host/../bench" "$@"; }

# The sound half: reference, generator, comparison. The half that gets broken, under other names.
sources=("$host"/reference{,_read,_held,_cut}.cpp "$host"/../bench/plain{,_read,_walk,_route,_cut}.cpp)
mkdir "$work/sound" "$work/other"
{
    for name in reference{,_read,_held,_cut} library generate detours spoil damage compare groups compare_main; do
        echo "-c $host/$name.cpp -o $work/sound/$name.o"
    done
    for source in "${sources[@]}"; do echo "-Dreference=broken -c $source -o $work/other/$(basename "$source" .cpp).o"; done
    echo "-Dreference=broken -c shim.cpp -o $work/shim_reference.o"
    echo "-Dreference=broken -DPLAIN -c shim.cpp -o $work/shim_plain.o"
} >"$work/commands"
export host
export -f compile
xargs -P "$(nproc)" -L 1 bash -c 'compile "$@"' compile <"$work/commands" || { echo "0 passed, 1 failed"; exit 1; }

# Links the other half, with one object in place of its own, behind the shim of the kind named, and compares.
compared() {
    local kind=$1 to=$2 own=$3 objects=() object
    for object in "$work"/other/*.o; do
        if [ -f "$to/$(basename "$object")" ]; then objects+=("$to/$(basename "$object")"); else objects+=("$object"); fi
    done
    compile "$work"/sound/*.o "$work/shim_$kind.o" "${objects[@]}" -o "$to/compare" && "$to/compare" 1 2 ${own:+"$own"} >"$to/log" 2>&1
}

# What is found of one mistake: a line, and whether it is found.
judge() {
    local edit=$1 to=$work/${1%.sed} name source found
    name=$(sed -n '1s/# file: //p' "$edit")
    source=$host/$name; [ -f "$source" ] || source=$host/../bench/$name
    sed -f "$edit" "$source" >"$to/$name"
    if cmp -s "$source" "$to/$name" || ! compile -Dreference=broken -c "$to/$name" -o "$to/$(basename "$name" .cpp).o"; then
        echo "${edit%.sed}: the edit changes nothing or can't be compiled"; return 1
    fi
    compared "${name%%[._]*}" "$to" "$2"
    found=$(sed -n 's/^compare \([a-z ]*[a-z]\) .* \([1-9][0-9]*\) differences$/ \2 in \1/p' "$to/log" | paste -sd , -)
    echo "${edit%.sed}:${found:- not found}"
    [ -n "$found" ]
}

# The controls, which must show nothing, and the mistakes, a few at a time.
control() { compared "$1" "$work/$1" ""; local status=$?; echo "unbroken $1: $(tail -n 1 "$work/$1/log")"; return $status; }
tasks=(reference plain *.sed)
for task in "${tasks[@]}"; do
    while [ "$(jobs -rp | wc -l)" -ge "$(nproc)" ]; do wait -n; done
    mkdir "$work/${task%.sed}"
    { if [ "$task" = "${task%.sed}" ]; then control "$task"; else judge "$task" "${1:-}"; fi >"$work/${task%.sed}/line" 2>&1
      echo $? >"$work/${task%.sed}/status"; } &
done
wait
for task in "${tasks[@]}"; do
    cat "$work/${task%.sed}/line"
    count "$(cat "$work/${task%.sed}/status")"
done

echo "$passed passed, $failed failed"
[ "$failed" -eq 0 ]
