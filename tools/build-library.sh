#!/bin/sh
# Proves the exported calls and builds the library: target/lib/libfusion_blossom.so for Python, and
# target/lib/libfusion_blossom.a and libcardrun_lines.a for C (include/fusion_blossom.h). Needs the Rattle toolchain and
# cc.
set -e
cd "$(dirname "$0")/.."
mkdir -p target/lib
# archive CRATE NAME: the archive of a static library of crates.txt, as target/lib/NAME.a
archive() {
    (cd "crates/$1" && rt lib) > "target/lib/$1.log" 2>&1 || { tail "target/lib/$1.log" >&2; exit 1; }
    cp "crates/$1/out/lib$1.a" "target/lib/$2.a"
}
archive fusion_blossom_c libfusion_blossom
archive lines_export_c libcardrun_lines
${CC:-cc} -shared -o target/lib/libfusion_blossom.so.new \
    -Wl,--whole-archive target/lib/libfusion_blossom.a target/lib/libcardrun_lines.a -Wl,--no-whole-archive
mv target/lib/libfusion_blossom.so.new target/lib/libfusion_blossom.so
echo "target/lib/libfusion_blossom.so"
