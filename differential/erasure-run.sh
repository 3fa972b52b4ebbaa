#!/bin/sh
# erasure-run.sh [RUNS] [SEED]: compares changes of weights with the Rust's load_edge_modifier and with its clear, which
# takes them back, whole states included, on streams of several shots (default 2000 streams, seed 1). Exit status 1: a
# difference.
with_library=yes
here=$(cd "$(dirname "$0")" && pwd)
. "$here/build.sh"
exec "$bench" erasures "${1:-2000}" "${2:-1}"
