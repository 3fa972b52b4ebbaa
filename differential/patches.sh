#!/bin/sh
# patches.sh: runs every small patch through the port and the Rust and compares line by line; exit status 1: a
# difference. The runs with their lines, target/patches.bin, must be the last frames of what the gate replays.
here=$(cd "$(dirname "$0")" && pwd)
. "$here/build.sh"
"$bench" patches "$root/target/patches.bin"
tail -c "$(wc -c < "$root/target/patches.bin")" "$root/crates/replay/stdin" | cmp - "$root/target/patches.bin"
echo "these are the last frames of crates/replay/stdin"
