#!/bin/sh
# gaps-run.sh [RUNS] [SEED]: compares the gap of every edge with the Rust's weight less its growths and with its holders, after random
# calls on the graphs of library-run.sh (default 500 streams, seed 1). Exit status 1: a difference.
with_library=yes
here=$(cd "$(dirname "$0")" && pwd)
. "$here/build.sh"
exec "$bench" gaps "${1:-500}" "${2:-1}"
