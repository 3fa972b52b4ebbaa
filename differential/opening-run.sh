#!/bin/sh
# opening-run.sh [RUNS] [SEED]: compares the opening of blossoms with the Rust's remove_blossom and expand_blossom, whole
# states included, on streams that nest, grow, shrink, open and insert again (default 2000 streams, seed 1). Exit status
# 1: a difference.
with_library=yes
here=$(cd "$(dirname "$0")" && pwd)
. "$here/build.sh"
exec "$bench" openings "${1:-2000}" "${2:-1}"
