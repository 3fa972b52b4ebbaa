#!/bin/sh
# sample.sh: writes sample/streams.bin (seed 1) and runs it through the port and the Rust.
here=$(cd "$(dirname "$0")" && pwd)
. "$here/build.sh"
mkdir -p "$here/sample"
"$bench" sample "$here/sample/streams.bin" 1
exec "$bench" replay "$here/sample/streams.bin"
