#!/usr/bin/env bash
# Proves fence-list where that isn't done, and makes target/bin/fence_list: `rt run` leaves the program in its crate's
# folder, and runs it (here on an empty file, which it refuses). RT is the command, where it isn't rt.
set -eu
cd "$(dirname "$0")/.."
(cd crates/fence_list && ${RT:-rt} run </dev/null >/dev/null)
install -D -m 755 crates/fence_list/out/fence_list target/bin/fence_list
