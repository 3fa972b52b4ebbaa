#!/bin/sh
# rounds-speed.sh: times decoding in rounds against the Rust's own calls, and prints the section of docs/SPEED.md about
# them.
with_library=yes
here=$(cd "$(dirname "$0")" && pwd)
. "$here/build.sh"
exec "$bench" rounds-speed
