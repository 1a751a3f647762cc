#!/usr/bin/env bash
# Times the library against a plain C++ version of its algorithm and against two integer-program solvers, on a corpus
# made from a seed; and counts the visits of the walk. Writes TIMES.md, times.csv, times.svg and VISITS.md in bench.
#
#     bench/run.sh [SEED]
set -eu -o pipefail
cd "$(dirname "$0")"
seed=${1:-1}
limit=10 # seconds for a run of the library
archive=$PWD/../target/staticlib/libfence.a
build=$PWD/../target/bench
host=$PWD/../host

# shellcheck source=../host/machine.sh
. "$host/machine.sh"
[ -f "$archive" ] || { echo "the library is missing: run 'bash packaging/archive.sh'"; exit 1; }
install_missing "$cxx" glpsol cbc python3 "${to_run[@]}"

ulimit -s 65536 # the plain version goes one call deeper for each edge of a cut it tries, with some KB for each

mkdir -p "$build/requests"
$cxx -std=c++17 -O3 -DNDEBUG -Wall -Wextra -I ../include -I "$host" -o "$build/measure" \
    measure.cpp corpus.cpp shapes.cpp classics.cpp plain.cpp plain_read.cpp plain_walk.cpp plain_route.cpp \
    plain_cut.cpp "$host/generate.cpp" "$host/reference_read.cpp" "$archive"
$cxx -std=c++17 -O3 -DNDEBUG -Wall -Wextra -I ../include -o "$build/rows" \
    rows.cpp plain_read.cpp plain_walk.cpp plain_route.cpp
$cxx -std=c++17 -O3 -DNDEBUG -Wall -Wextra -I ../include -I "$host" -o "$build/visits" \
    visits.cpp shapes.cpp classics.cpp plain_walk.cpp "$host/generate.cpp"

"${emulator[@]}" "$build/measure" "$seed" "$build/requests" "$limit" >"$build/results.csv"
python3 -B solvers.py "$build/results.csv" "$build/requests" times.csv "${emulator[@]}" "$build/rows"
python3 -B report.py times.csv "$limit" TIMES.md
python3 -B plot.py times times.csv times.svg

cat >VISITS.md <<END
Visits of the walk for every ordered pair of nodes of drawn graphs. Made by \`bench/run.sh $seed\`.

A visit is a node that a route goes on to. Each row has ten graphs for each of 0, 2, 10 and 25 fences in 100 nodes and
each of 4, 16, 64 and 200 addresses. Median and 99 of 100 are those of the orders with more than one visit.

END
"${emulator[@]}" "$build/visits" "$seed" >>VISITS.md
