#!/bin/sh
# run.sh [RUNS] [SEED]: compares port and Rust on RUNS random record streams (default 20000, seed 1). Exit status 1: a
# difference.
here=$(cd "$(dirname "$0")" && pwd)
. "$here/build.sh"
FOUND="${FOUND:-$here/found}" exec "$bench" compare "${1:-20000}" "${2:-1}"
