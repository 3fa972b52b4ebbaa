#!/bin/sh
# Builds the hosts and runs them: decode in C and, where rustc is there, in Rust, which must come to the same; and lines.
#
#     hosts/run.sh [SEED]
set -e
cd "$(dirname "$0")/.."
[ -f target/lib/libfusion_blossom.a ] || tools/build-library.sh > /dev/null
mkdir -p target/hosts
for host in decode lines; do
    ${CC:-cc} -std=c11 -O2 -Wall -Wextra -Iinclude hosts/$host.c -o target/hosts/$host \
        target/lib/libfusion_blossom.a target/lib/libcardrun_lines.a
done
target/hosts/decode "$@" | tee target/hosts/decode.out
if command -v rustc > /dev/null; then
    rustc -O --edition 2021 hosts/decode.rs -L native=target/lib -l static=fusion_blossom -o target/hosts/decode_rs
    target/hosts/decode_rs "$@" > target/hosts/decode_rs.out
    tail -n 1 target/hosts/decode_rs.out
    grep -v microseconds target/hosts/decode.out > target/hosts/one
    grep -v microseconds target/hosts/decode_rs.out | cmp - target/hosts/one
else
    echo "rustc is not here: decode.rs was not run"
fi
target/hosts/lines
