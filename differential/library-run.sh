#!/bin/sh
# library-run.sh [RUNS] [SEED]: compares the exported calls on lent memory, and the words that they leave in the block,
# with the Rust on whole patches of distance 3 to 15 in several rounds, multigraphs, hubs, chains and trees (default
# 2000 streams, seed 1). Exit status 1: a difference.
with_library=yes
here=$(cd "$(dirname "$0")" && pwd)
. "$here/build.sh"
exec "$bench" library "${1:-2000}" "${2:-1}"
