#!/usr/bin/env bash
# Makes target/staticlib/libfence.a for C callers, from crates/fence_c, which has the exports: `rt lib` proves what isn't
# proved yet, and leaves the archive in its crate's folder. RT is the command, where it isn't rt.
set -eu
cd "$(dirname "$0")/../crates/fence_c"
${RT:-rt} lib
install -D -m 644 out/libfence_c.a ../../target/staticlib/libfence.a
