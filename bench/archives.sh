#!/bin/sh
# Times two archives of the library in turn, the same calls on the same blocks.
#
#   bench/archives.sh soundness BEFORE [AFTER]    the test of memory alone, by block size (soundness.c)
#   bench/archives.sh singles BEFORE [AFTER]      each call by itself (singles.c)
#
# Each archive is a libfusion_blossom.a as tools/build-library.sh writes it; without AFTER that of this tree, which is
# built first. Needs gcc; to build the library also the Rattle toolchain.
set -e
here=$(cd "$(dirname "$0")" && pwd)
usage() {
    sed -n '2,8p' "$0" >&2
    exit 2
}
[ $# -eq 2 ] || [ $# -eq 3 ] || usage
case $1 in soundness | singles) ;; *) usage ;; esac
for archive in "$2" "$3"; do
    [ -z "$archive" ] || [ -f "$archive" ] || { echo "no archive $archive" >&2; exit 2; }
done
work=$(mktemp -d)
trap 'rm -rf "$work"' EXIT
after=$3
if [ -z "$after" ]; then
    "$here/../tools/build-library.sh" > /dev/null
    after=$here/../target/lib/libfusion_blossom.a
fi
gcc -shared -o "$work/before.so" -Wl,--whole-archive "$2" -Wl,--no-whole-archive
gcc -shared -o "$work/after.so" -Wl,--whole-archive "$after" -Wl,--no-whole-archive
gcc -O2 -Wall -Wextra -o "$work/$1" "$here/$1.c" -ldl
"$work/$1" "$work/before.so" "$work/after.so"
