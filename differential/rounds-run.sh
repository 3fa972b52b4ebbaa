#!/bin/sh
# rounds-run.sh [RUNS] [SEED]: compares the calls for all clusters with the Rust's compute_maximum_update_length,
# prepare_all and grow on its active list, on whole patches of distance 3 to 15 and other graphs (default 2000 streams,
# seed 1). Exit status 1: a difference.
with_library=yes
here=$(cd "$(dirname "$0")" && pwd)
. "$here/build.sh"
exec "$bench" rounds "${1:-2000}" "${2:-1}"
